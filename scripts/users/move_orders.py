"""The requests of a move: keys that come from what a request says, and what is new beside a registry that is there."""

import hashlib
import json

from page_history import Merge

NOT_MERGED = Merge(0, "")
# The orders that say what a page says now, and not how it came.
OF_CHANGES = ("amend", "amend-org", "revoke")


def digits_of(content):
    """Returns digits of what a request says, with which its key ends."""
    return hashlib.sha256(json.dumps(content, sort_keys=True, ensure_ascii=True).encode()).hexdigest()[:12]


def key_of(kind, name, content, commit=""):
    """Returns a key of at most 64 letters: the kind of a request, what it is about, the commit that it comes from, and the digits of
    what it says. The same page makes the same key, and another page another one."""
    return "-".join(it for it in (kind, name, commit[:10], digits_of(content)) if it)


class Orders:
    """Makes requests with the replies to expect, after `petitions` that there are already. `merges` has the merge of each page, and
    `mergers` the curator who merged it, where Git knows them."""

    def __init__(self, curator, petitions=0, merges=None, mergers=None):
        self.curator, self.petitions, self.merges, self.mergers = curator, petitions, merges or {}, mergers or {}

    def request(self, caller, kind, name, order, reply, page="", turn=0):
        """Returns a request and its reply. The same order in another turn has another key, and with another time the same one."""
        merge = self.merges.get(page) or self.merges.get("", NOT_MERGED)
        key = key_of(kind, name, [order, turn] if turn else order, merge.commit)
        at = merge.changed if order["order"] in OF_CHANGES else merge.time
        return {"caller": caller, "key": key, **order} | ({"at": at} if at else {}), reply

    def enrol(self, org):
        order = {"order": "enrol", "org": org.slug, "title": org.title, "site": org.site}
        return self.request(org.keeper, "enrol", org.slug, order, f"enrolled {org.slug}", org.page)

    def amend_org(self, org, keeper):
        order = {"order": "amend-org", "org": org.slug, "title": org.title, "site": org.site}
        return self.request(keeper, "org", org.slug, order, f"amended organisation {org.slug}", org.page)

    def ask(self, number, org, keeper):
        """Yields the two requests by which a number is asked for and granted."""
        self.petitions += 1
        yield self.ask_alone(number, org, keeper)
        # each is granted at once: an organisation has at most 16 open petitions
        grant = {"order": "grant", "petition": self.petitions}
        by = self.mergers.get(number.page, self.curator)
        yield self.request(by, "grant", number.code, grant, f"granted {number.code} to {org.slug} by petition {self.petitions}", number.page)

    def ask_alone(self, number, org, keeper):
        order = {"order": "ask", "org": org.slug, "number": number.code, "title": number.title, **number.terms()}
        return self.request(keeper, "ask", number.code, order, f"petition {self.petitions}", number.page)

    def amend(self, number, keeper):
        order = {"order": "amend", "number": number.code, "title": number.title, **number.terms()}
        return self.request(keeper, "amend", number.code, order, f"amended {number.code}", number.page)

    def revoke(self, number):
        """Returns the request by which a curator takes a withdrawn number back, with what its page says as the reason."""
        order = {"order": "revoke", "number": number.code, "reason": number.withdrawn}
        return self.request(self.curator, "revoke", number.code, order, f"revoked {number.code}", number.page)

    def hand_over(self, slug, keeper):
        order = {"order": "hand-over", "org": slug, "keeper": keeper}
        return self.request(self.curator, "hand", slug, order, f"handed {slug} over to {keeper}")

    def reserve(self, number, vendor, turn, kind="reserve"):
        """Returns the request that reserves a number, which is a pair of vendor ID and product ID, or releases it. It is the same order
        at each turn, and has another key."""
        vid, code = number[0], f"{number[1]:04x}"
        order = {"order": kind, "first": code, "last": code} | ({} if vid == vendor else {"vendor": vid})
        before, done = "" if vid == vendor else f"{vid}:", {"reserve": "reserved", "release": "released"}[kind]
        return self.request(self.curator, kind, f"{vid}-{code}", order, f"{done} {before}{code}-{code}", turn=turn)

    def add_licence(self, licence):
        return self.request(self.curator, "licence", "", {"order": "add-licence", "licence": licence}, f"added licence {licence}")

    def add_vendor(self, vendor, name):
        return self.request(self.curator, "vendor", vendor, {"order": "add-vendor", "vendor": vendor, "name": name}, f"added vendor {vendor}")


def digits_of_number(number, slug):
    """Returns the digits of the requests by which a number with these values may have come."""
    ask = {"order": "ask", "org": slug, "number": number.code, "title": number.title, **number.terms()}
    amend = {"order": "amend", "number": number.code, "title": number.title, **number.terms()}
    return digits_of(ask), digits_of(amend)


def digits_of_org(org):
    values = {"org": org.slug, "title": org.title, "site": org.site}
    return digits_of({"order": "enrol", **values}), digits_of({"order": "amend-org", **values})
