"""What a screen reader is told of the page: the tree of roles, names and states that Chromium makes of each view, beside
the one in cases/heard.txt."""

import difflib
import json
import re
import sys
import time

from lib.staging import CURATOR
from lib.usbreg import TOP, content, same, write

HEARD = f"{TOP}/cases/heard.txt"
# The seconds for which the proxy keeps a report, and one more.
KEPT = 11
HEAD = """\
# What a screen reader is told of each view of the page, as Chromium says it: a line for each part, with its role, its name, its
# value, its states and what describes it. A text that the name above has already is left out, and so are the digits of a digest,
# which are others in each run. The first view has what stands around all of them; of the others the main part is here, and a
# question that is asked.
# `scripts/use_the_page.py --heard` writes this file anew: read what it changes, as somebody hears it who sees nothing.
"""
# The views of a maker and of a curator. What a name is about keeps a form apart from the ones that others began.
MAKERS = (
    "numbers?q=serial", "numbers/cafe?state=held", "map?at=0033", "orgs", "record/3", "me", "number/1209/0011", "number/1209/0033", "org/acme", "petition/2",
    "do", "do/enrol?org=new", "do/ask?number=0123&org=acme", "do/amend?number=0011", "do/hand-over?org=acme", "do/return?number=0011", "do/withdraw?petition=19", "nowhere",
)
CURATORS = (
    "decide?q=thermometer", "number/1209/0011", "org/bobs-boards", "petition/2", "petition/5", "do/grant?petition=2", "do/decline?petition=2",
    "do/correct?number=0011", "do/correct-org?org=bobs-boards", "do/revoke?number=0011", "do/reserve?first=0100&last=0101", "do/add-vendor?vendor=beef",
)
# What has no meaning of its own: its parts are told in its place.
PASSED = {"InlineTextBox", "LabelText", "LineBreak", "ListMarker", "MenuListPopup", "caption", "generic", "none", "paragraph", "rowgroup"}
DIGEST = re.compile("[0-9a-f]{64}")
STATES = ("checked", "disabled", "expanded", "focused", "invalid", "level", "modal", "readonly", "required", "selected")


def told(node):
    """Returns the line of a part: its role, and what else is there of it."""
    role, name, value, description = (node.get(it, {}).get("value") for it in ("role", "name", "value", "description"))
    states = {it["name"]: it["value"].get("value") for it in node.get("properties", ())}
    here = [f"level={states[it]}" if it == "level" else it for it in STATES if states.get(it) not in (None, False, "false")]
    if role in ("RootWebArea", "listitem"):
        here = []
    quoted = [json.dumps(DIGEST.sub("…", it.strip()), ensure_ascii=False) if it else "" for it in (name, value, description)]
    parts = (role.replace("StaticText", "text"), quoted[0], quoted[1] and f"= {quoted[1]}", here and f"[{', '.join(here)}]", quoted[2] and f"({quoted[2]})")
    return " ".join(it for it in parts if it)


class Tree:
    """The tree of a page, as its driver tells it."""

    def __init__(self, driver):
        nodes = driver.execute_cdp_cmd("Accessibility.getFullAXTree", {})["nodes"]
        self.nodes = {it["nodeId"]: it for it in nodes}

    def lines(self, node, above="", depth=0):
        """Yields the lines of a part and of those within it. `above` is what is told above it already."""
        role, name, value = (node.get(it, {}).get("value") or "" for it in ("role", "name", "value"))
        is_told = not node["ignored"] and role not in PASSED
        if role == "StaticText" and (not any(it.isalnum() for it in name) or name.strip() in above):
            return
        if is_told:
            yield "  " * depth + told(node)
            above = f"{name}\n{value}"
        for it in (self.nodes[it] for it in node.get("childIds", ()) if it in self.nodes and role != "StaticText"):
            # a label is the name of its box
            if role != "LabelText" or it["ignored"] or it["role"]["value"] != "StaticText":
                yield from self.lines(it, above, depth + is_told)

    def of_role(self, role):
        """Yields the lines of the parts that have this role."""
        for it in self.nodes.values():
            if not it["ignored"] and it["role"]["value"] == role:
                yield from self.lines(it)


def heard(page, role):
    return list(Tree(page.driver).of_role(role))


def opened(page, view):
    page.open(view)
    page.until(lambda: not any(it in page.text() for it in ("is read …", "are read …")), f"all of {view}")


def views(page):
    """Yields each view with what is told of it, and a function that asks for it anew. The proxy keeps reports for a while, and the
    page what it read for a minute, so no report is to be older than the last order."""
    time.sleep(KEPT)
    for who, of in (("ann", MAKERS), (CURATOR, CURATORS)):
        page.load()
        page.sign_in(who)
        for view in of:
            def again(view=view):
                opened(page, view)
                return heard(page, "RootWebArea" if view == MAKERS[0] else "main")
            yield f"{view}, as {who}", again
    opened(page, "do/revoke?number=0011")
    page.fill(reason="No product uses it")
    page.submit()
    page.one("dialog[open] button.main")
    yield "the question of do/revoke", lambda: heard(page, "dialog")
    page.button("Cancel", "dialog")


def sections():
    """Returns the lines of each view in the file, by its name."""
    parts = content(HEARD).decode().split("\n== ")[1:]
    return {name: lines for name, *lines in (it.rstrip("\n").split("\n") for it in parts)}


def is_heard(page, stage):
    """A screen reader is told what cases/heard.txt says."""
    wanted, names = sections(), []
    for name, again in views(page):
        names.append(name)
        end, there = time.monotonic() + page.patience, wanted.get(name, [])
        # the proxy keeps a report for ten seconds
        while (got := again()) != there and time.monotonic() < end:
            time.sleep(1)
        if got != there:
            sys.exit(f"what is heard of {name}:\n" + "\n".join(difflib.unified_diff(there, got, HEARD, "the page", lineterm="")))
    same("the views that are heard", names, list(wanted))


def writes_heard(page, stage):
    """Writes what a screen reader is told."""
    found = [(name, again()) for name, again in views(page)]
    write(HEARD, HEAD + "".join(f"\n== {name}\n" + "".join(f"{line}\n" for line in lines) for name, lines in found))
