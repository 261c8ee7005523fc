"""What of a repository is new beside a registry that is there, and what of it comes by which requests. A registry that is to be
founded is there too, without organisations and numbers."""

import collections

from move_orders import digits_of_number, digits_of_org
from read_record import MOVED, TERMS


class Beside:
    """Sorts organisations and numbers of a repository by what becomes of them: `enrolled` and `amended_orgs`, and of the numbers those
    that are `asked` for, come by `lists` of an organisation, are `amended` or go `back`. What was `released` comes before. `kept`
    counts numbers that are in the registry as in their page."""

    def __init__(self, there, registry):
        self.there, self.registry = there, registry
        self.enrolled, self.amended_orgs, self.asked, self.amended, self.back, self.released, self.kept = [], [], [], [], [], set(), 0
        self.lists = collections.defaultdict(list)

    def sort(self):
        for org in self.there.orgs.values():
            self.sort_org(org)
        for number, it in sorted(self.there.numbers.items()):
            subject = (self.there.vendor, number)
            if refusal := self.sort_number(subject, it, self.there.orgs[it.owner].slug):
                del self.there.numbers[number]
                self.there.refuse(it.page, {subject}, refusal[0], **refusal[1])

    def keeper(self, org):
        """Returns who keeps an organisation: in the registry that may be another by now."""
        return self.registry.orgs[org.slug]["keeper"] if org.slug in self.registry.orgs else org.keeper

    def sort_org(self, org):
        known = self.registry.orgs.get(org.slug)
        if not known:
            self.enrolled.append(org)
        elif org.has_page and (known["title"], known["site"]) != (org.title, org.site):
            if self.was_said(org.slug, digits_of_org(org)):
                self.keep(org.page, "newer")
            elif self.may_change(org.slug, org.page):
                self.amended_orgs.append(org)
            else:
                self.keep(org.page, "both")

    def was_said(self, subject, digits):
        """Returns whether a request that a page makes was acted on before: the registry says otherwise since."""
        return any(self.registry.says(subject, it) for it in digits)

    def may_change(self, subject, page):
        """Returns whether the registry says what an earlier page said, so that the page of now is newer."""
        return self.registry.was_moved(subject)

    def keep(self, page, kind):
        """Reports why a page changes nothing."""
        self.there.report.tell(page, kind)

    def sort_number(self, subject, number, slug):
        """Sorts a number. Returns why its page is not taken, or None."""
        known = self.registry.entries.get(subject)
        if known:
            return self.sort_known(subject, number, known, slug)
        reserved = self.registry.reservation(subject)
        if reserved is not None:
            if not self.may_release(reserved):
                return "reserved there", {}
            self.released.add(subject)
        self.put_new(number, slug)
        return None

    def may_release(self, key):
        """Returns whether the request with this key, which reserved a number, was one of a move."""
        return MOVED.fullmatch(key) is not None

    def put_new(self, number, slug):
        if number.by_list:
            self.lists[slug].append(number)
        else:
            self.asked.append(number)
        if number.withdrawn:
            self.back.append(number)

    def sort_known(self, subject, number, known, slug):
        """Sorts a number that has an owner."""
        said = self.was_said(subject, digits_of_number(number, slug))
        if known["org"] != slug:
            return "owned there", {"org": known["org"]}
        if not known["held"]:
            if not number.withdrawn and (number.by_list or said):
                return "returned there", {}
            if not number.withdrawn:
                self.asked.append(number)
        elif number.withdrawn:
            self.back.append(number)
        else:
            self.sort_held(subject, number, known, said)
        return None

    def sort_held(self, subject, number, known, said):
        page = {"title": number.title, **(dict.fromkeys(TERMS[1:]) if number.by_list else number.terms())}
        if page == {name: known.get(name) for name in TERMS}:
            self.kept += 1
        elif said or (number.by_list and known.get("licence")):
            self.keep(number.page, "newer")
        elif number.by_list:
            self.keep(number.page, "list only")
        elif self.may_change(subject, number.page):
            self.amended.append(number)
        else:
            self.keep(number.page, "both")
