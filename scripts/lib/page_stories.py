"""What the page makes of the files that contrib/publish-stories writes: the same as of the record, with few questions; and its links
to the feeds of contrib/publish-feed."""

import urllib.request

from lib.page_decides import card
from lib.serving import HOST
from lib.staging import CURATOR, OTHER
from lib.usbreg import content, same, write

# Without the files each takes two pages of the record, of which the proxy gives one a second.
VIEWS = ("number/1209/0011", "number/1209/0033", "number/1209/0055", "number/1209/0100", "number/cafe/1001", "petition/5")
ASKED = "return performance.getEntriesByType('resource').map(it => new URL(it.name).pathname).filter(it => it.startsWith(arguments[0]))"


def imported(stage):
    """Sends a list as a curator does, past the proxy."""
    head = {"registry-caller": CURATOR, "registry-key": "list-1"}
    body = b"1209  x\n\t0100  Imported\n\t0101  Another\n"
    with urllib.request.urlopen(urllib.request.Request(f"http://{HOST}:{stage.port}/imports/bobs-boards", body, head)) as response:
        response.read()


def story(page, view):
    """Returns what the record says of a thing, as its page shows it."""
    page.open(view)
    page.until(lambda: page.text(".story") not in ("", "The record is read …"), f"the story of {view}")
    return page.text(".story")


def queue(page):
    page.open("decide")
    page.until(lambda: page.all(".card") and "It is read …" not in page.text(".cards"), "the queue")
    return page.text(".cards")


def stories(page):
    told = {view: story(page, view) for view in VIEWS}
    page.open("org/acme")
    page.button("Show all its petitions")
    page.until(lambda: page.text(".story") not in ("", "The record is read …"), "all petitions")
    return told | {"org/acme": page.text(".story")}


def feeds(page):
    """Returns where the links to feeds lead that are shown."""
    return page.run("return [...document.querySelectorAll('a[href^=\"/feeds/\"]')].filter(it => it.checkVisibility()).map(it => it.getAttribute('href'))")


def loaded(page):
    page.load()
    page.sign_in(CURATOR)


def reads_the_files_of_the_record(page, stage):
    """With the files the page says the same of each thing as by the record, and the queue the same as by its petitions, and
    asks for the end of the record alone. What came since is there, and what a file leaves out on request."""
    imported(stage)
    loaded(page)
    # The proxy keeps the report from before the import for up to ten seconds.
    page.until(lambda: "1209  0101" in page.run("return fetch('/reports/numbers').then(it => it.text())"), "a report with the import")
    told, cards = stories(page), queue(page)
    same("links to feeds where there are none", feeds(page), [])
    stage.publish()
    loaded(page)
    page.open("org/acme")
    page.until(lambda: feeds(page) == ["/feeds/orgs/acme.xml", "/feeds/all.xml"], "links to the feeds")
    asked = "return Promise.all(arguments[0].map(it => fetch(it).then(it => `${it.status} ${it.headers.get('content-type')}`)))"
    same("what the links lead to", page.run(asked, feeds(page)), ["200 application/atom+xml"] * 2)
    same("what the files say", stories(page), told)
    head = page.run("return fetch('/stories/head').then(it => it.text())").strip()
    same("what is asked of the record", set(page.run(ASKED, "/history/")), {f"/history/{head}"})
    page.run("performance.clearResourceTimings()")
    same("the queue by the files", queue(page), cards)
    same("petitions that are asked for one by one", page.run(ASKED, "/petitions/"), [])
    tag = page.run("return fetch('/stories/1209/0011').then(it => it.headers.get('etag'))")
    same("the tag of a file", bool(tag), True)
    sees_what_came_since(page, stage)
    looks_further_back(page, stage, told)
    stage.unpublish()
    page.sign_in("ann")


def sees_what_came_since(page, stage):
    """A grant since has the petition that was there before; a petition that is closed since is asked for."""
    stage.orders(OTHER, "z1", {"order": "grant", "petition": 2})
    told = story(page, "number/1209/beef")
    same("a grant since", ("asked: petition 2: Thermometer" in told, f"{OTHER}\tgranted 1209:beef" in told), (True, True))
    stage.orders(OTHER, "z2", {"order": "reserve", "first": "1000", "last": "1001", "vendor": "cafe"})
    same("a reservation since", f"{OTHER}\treserved cafe:1000-1001" in story(page, "number/cafe/1001"), True)
    page.open("decide?q=thermometer")
    page.until(lambda: not page.all(card(2)) or "It is granted." in page.text(card(2)), "a petition that is closed")


def looks_further_back(page, stage, told):
    path = f"{stage.recipe.folder}/usbreg-list/stories/1209/0011"
    _, *lines = content(path).decode().splitlines(keepends=True)
    left = lines[0].split()[0]
    write(path, f"{left}\n{''.join(lines[1:])}")
    page.load()
    there = story(page, "number/1209/0011")
    same("entries that are left out", (f"{left} older entries not looked through." in there, "petition 3: Blinker" in there), (True, False))
    page.button("Look further back")
    page.until(lambda: page.text(".story") == told["number/1209/0011"], lambda: f"{told['number/1209/0011']!r} in {page.text('.story')!r}")
