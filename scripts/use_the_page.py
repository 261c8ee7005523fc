#!/usr/bin/env python3
"""Uses the page in `web/` in Chromium, as `make install` puts it, behind the proxy of contrib/nginx.conf and in front of
`usbreg serve`. It looks, searches, enrols, asks, is refused, grants and declines as people do. Responses are lost, the server
is killed, passwords change, and two windows send one order: it takes effect once. Titles and links are hostile.
lib/page_story.py has each part.

Looked at are each view and form; refusals in words; the queue, by keys and on several petitions, and the reason of a decline;
the days of entries, and where the record ends; questions and what means no; the addresses of searches; forms that were begun;
that the files of the record say the same as the record, with what came since; what a browser keeps of the page, and an
upgrade of it; a server that is down; responses that are lost, cut or 503, a killed server, a reload, a changed password, two
windows; hostile titles, links and rules; the keyboard alone; what a screen reader is told of each view (cases/heard.txt);
contrast and widths; the content security policy.

Usage: scripts/use_the_page.py [OPTION] [PROGRAM], by default the one that `make` builds. What is missing is named, and the
script skipped. The exit status is 0 if all of this holds. Each option does something else instead:

  --pictures FOLDER  takes pictures of the main views
  --many             times the table and the search over all 65,535 numbers, and compares the times with the limits
  --slow             times the first views of 60,000 numbers over a slow line on a slow machine, and compares them with the aims
  --heard            writes cases/heard.txt, what a screen reader is told of each view
  --planted [WORDS]  puts bugs into the page, those whose names have the words, some side by side, and sees that a part
                     notices each"""

import argparse
import concurrent.futures
import contextlib
import json
import os
import sys
import tempfile
import threading
import time

from lib.browsing import Browser, Page, missing
from lib.in_node import failed_in_node
from lib.page_heard import is_heard, writes_heard
from lib.page_story import STORY
from lib.page_times import imported, time_many, time_slow
from lib.planted import PLANTED
from lib.proxy import Recipe
from lib.serving import HOST
from lib.staging import BEFORE, CURATOR, Stage
from lib.usbreg import copy, folder, program

# The seconds that a person waits for what the page should show, and for what a bug may keep from being shown; in these
# parts the proxy itself waits for the server.
PATIENCE, HASTE = 30, 10
LONG = ("finds_the_server_down",)
# So many bugs are planted side by side, beside the story: most of the time a browser waits.
SIDE_BY_SIDE = 8


def tell(usbreg, keep=lambda part, stage: None, parts=STORY):
    """Tells the story, and calls `keep` before each part. Returns the name of the part that failed and why; None if all
    parts passed."""
    with folder() as room, Stage(usbreg, room, Recipe) as stage, Browser(room) as browser:
        page = Page(browser, f"http://{HOST}:{stage.recipe.port}/", PATIENCE)
        for part, _ in parts:
            keep(part.__name__, stage)
            began = time.monotonic()
            try:
                part(page, stage)
            except SystemExit as why:
                return part.__name__, why
            print(f"{time.monotonic() - began:5.1f} s  {part.__name__}", file=sys.stderr)
    return None


class Planting:
    """Parts of the story, each by itself from the store that it begins with, over a page with a bug. One browser is used
    for all; each stage has a port of its own, so the browser keeps nothing from the one before. `stores` has the stores."""

    def __init__(self, usbreg, stores, room, browser):
        self.usbreg, self.stores, self.room, self.browser, self.count = usbreg, stores, room, browser, 0
        self.parts = {part.__name__: (part, who) for part, who in STORY}

    def act(self, name, edits=()):
        """Returns why the part failed, or nothing."""
        self.count += 1
        room = f"{self.room}/{self.count}"
        os.mkdir(room)
        part, who = self.parts[name]
        with Stage(self.usbreg, room, Recipe, edits, store=f"{self.stores}/{name}.db") as stage:
            page = Page(self.browser, f"http://{HOST}:{stage.recipe.port}/", PATIENCE if name in LONG else HASTE)
            self.in_new_window()
            try:
                if who:
                    page.load()
                    page.sign_in(who)
                part(page, stage)
            except (SystemExit, Exception) as why:
                return str(why).splitlines()[0][:100]
        return ""

    def in_new_window(self):
        """Goes on in a new window, and closes those before."""
        driver = self.browser.driver
        before = driver.window_handles
        driver.switch_to.new_window("tab")
        new = driver.current_window_handle
        for it in before:
            driver.switch_to.window(it)
            driver.close()
        driver.switch_to.window(new)
        self.browser.prepare()


class Side:
    """Several plantings side by side, for a `with`, each in a thread of its own."""

    def __init__(self, usbreg, stores):
        self.usbreg, self.stores, self.own, self.opened = usbreg, stores, threading.local(), contextlib.ExitStack()
        self.pool = concurrent.futures.ThreadPoolExecutor(SIDE_BY_SIDE)

    def __enter__(self):
        return self

    def planting(self):
        """Returns that of this thread."""
        if not hasattr(self.own, "planting"):
            room = tempfile.mkdtemp(dir=self.stores)
            # the workers of nginx are another user
            os.chmod(room, 0o755)
            self.own.planting = Planting(self.usbreg, self.stores, room, self.opened.enter_context(Browser(room)))
        return self.own.planting

    def __exit__(self, *_):
        self.pool.shutdown(cancel_futures=True)
        self.opened.close()

    def act(self, catcher, changes=()):
        """Returns why a part of the story failed, or the tests without a browser, or nothing."""
        if catcher == "node":
            return failed_in_node(changes)
        return self.planting().act(catcher, changes)

    def begin(self, catcher, bugs):
        """Begins to try each of these bugs, and their catcher without one. Returns what will have the results, by their names."""
        alone = {} if catcher == "node" else {catcher: self.pool.submit(self.act, catcher)}
        return alone | {what: self.pool.submit(self.act, catcher, changes) for what, _, *changes in bugs}


def plant(usbreg, some):
    """Puts each bug into the page by itself, of those whose name has these words, several side by side. A part of the story is
    tried as soon as the story comes to it, since it begins with the store of then."""
    bugs, began = [it for it in PLANTED if some in it[0]], time.monotonic()
    caught_by = {catcher: [it for it in bugs if it[1] == catcher] for _, catcher, *_ in bugs}
    last = max((at for at, (part, _) in enumerate(STORY) if part.__name__ in caught_by), default=-1)
    with folder() as room, Side(usbreg, room) as side:
        os.chmod(room, 0o755)
        tried = side.begin("node", caught_by.get("node", ()))

        def keep(part, stage):
            if part in caught_by:
                copy(stage.store, f"{room}/{part}.db")
                tried.update(side.begin(part, caught_by[part]))

        if failed := tell(usbreg, keep, STORY[: last + 1]):
            sys.exit(f"{failed[0]}: {failed[1]}")
        for it in caught_by:
            if it in tried and (why := tried[it].result()):
                sys.exit(f"{it} by itself, without a bug: {why}")
        left = []
        for what, catcher, *_ in bugs:
            why = tried[what].result()
            print(f"{what}: {f'noticed by {catcher}: {why}' if why else 'NOT NOTICED'}", flush=True)
            left += [] if why else [what]
    print(f"{len(bugs) - len(left)} of {len(bugs)} bugs noticed, in {(time.monotonic() - began) / 60:.1f} minutes")
    sys.exit("\n".join(left) or None)


def lines(*requests):
    return "".join(f"{json.dumps(it)}\n" for it in requests)


def pictured():
    """Returns requests after which there is something to see."""
    terms = {"licence": "MIT", "site": "https://acme.example/product", "source": "https://git.example/acme"}
    asks = (("0011", "Blinker"), ("00ab", "Logic analyser"), (None, "Clock \u202egpj.exe"), ("0c0c", "Motor driver"))
    yield {"caller": "ann", "key": "a0", "order": "enrol", "org": "acme", "title": "Acme Tools", "site": "https://acme.example/"}
    for at, (number, title) in enumerate(asks):
        yield {"caller": "ann", "key": f"a{at + 1}", "order": "ask", "org": "acme", "title": title, **terms} | ({"number": number} if number else {})
    for petition in (3, 4):
        yield {"caller": CURATOR, "key": f"g{petition}", "order": "grant", "petition": petition}
    yield {"caller": "ann", "key": "a9", "order": "return", "number": "00ab"}
    yield {"caller": CURATOR, "key": "r1", "order": "reserve", "first": "8000", "last": "8fff"}


def picture(usbreg, into):
    """Takes pictures of the main views."""
    with folder() as room, Stage(usbreg, room, Recipe, before=BEFORE + lines(*pictured())) as stage:
        stage.kill()
        imported(usbreg, stage.store, room, "bobs-boards", range(0x3000, 0x5000, 3), "Board {:04x} of an older list")
        stage.start()
        with Browser(room) as browser:
            page = Page(browser, f"http://{HOST}:{stage.recipe.port}/", PATIENCE)
            page.load()
            for name, view, width, dark in (("numbers", "numbers", 1100, False), ("map", "map?at=3000", 1100, True), ("number", "number/1209/0011", 1100, False)):
                page.open(view)
                page.until(lambda: "is read …" not in page.text(), "the record")
                page.picture(f"{into}/web-{name}.png", width, dark, 900)
            page.sign_in("ann")
            page.open("do/ask?number=0033")
            page.fill(title="Lamp", licence="MIT")
            page.picture(f"{into}/web-ask.png", 420)
            page.sign_in(CURATOR)
            page.open("decide")
            page.has("Keeper", "[aria-label='Petition 6']")
            page.picture(f"{into}/web-decide.png", 1100, False, 900)


def main():
    options = argparse.ArgumentParser(usage=__doc__)
    options.add_argument("program", nargs="?")
    options.add_argument("--pictures", metavar="FOLDER")
    options.add_argument("--many", action="store_true")
    options.add_argument("--slow", action="store_true")
    options.add_argument("--heard", action="store_true")
    options.add_argument("--planted", nargs="?", const="", metavar="WORDS")
    given = options.parse_args()
    usbreg = program(*filter(None, [given.program]))
    if lacking := missing():
        print(f"SKIPPED: not installed: {', '.join(lacking)}; so the page was not used")
    elif given.pictures:
        picture(usbreg, os.path.abspath(given.pictures))
    elif given.many:
        time_many(usbreg)
    elif given.slow:
        time_slow(usbreg)
    elif given.planted is not None:
        plant(usbreg, given.planted)
    elif given.heard:
        parts = [(writes_heard if part is is_heard else part, who) for part, who in STORY]
        if failed := tell(usbreg, parts=parts):
            sys.exit(f"{failed[0]}: {failed[1]}")
    elif failed := tell(usbreg):
        sys.exit(f"{failed[0]}: {failed[1]}")
    else:
        print(f"web: the {len(STORY)} parts of the story are as they should be")


if __name__ == "__main__":
    main()
