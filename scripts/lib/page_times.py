"""How long the page takes: over a registry in which each number has an owner, and over a slow line on a slow machine."""

import json
import statistics
import subprocess
import sys
import time

from lib.browsing import Browser, Page
from lib.proxy import Recipe
from lib.serving import HOST
from lib.staging import CURATOR, Stage
from lib.usbreg import done, folder, write

# The milliseconds until the table of all numbers stands there, and until a search is on the screen.
TABLE, SEARCH = 1000, 100
# A store takes lists of so many devices.
LIST = 8190
# The seconds that the page may take for its first view.
PATIENCE = 120
RUNS = 3

# Resolves to the milliseconds since the page was asked for, once the table stands there.
UNTIL_TABLE = """const done = arguments[0], look = () => document.querySelector('#rows tbody tr') ? setTimeout(() => done(performance.now())) : requestAnimationFrame(look); look()"""
# Resolves to the milliseconds until a search is on the screen, and to what it found.
UNTIL_FOUND = """const [words, done] = arguments, box = document.querySelector('#query'), began = performance.now();
box.value = words; box.dispatchEvent(new Event('input'));
requestAnimationFrame(() => setTimeout(() => done([performance.now() - began, document.querySelector('#count').textContent])))"""

# A line of 1.6 Mbit/s, in bytes a second, also with the round trip of a telephone, and a processor four times as slow.
LINE, TRIPS, SLOWER = 200_000, (0, 150), 4
# The numbers of the registry, of which each organisation has so many; and the petitions that were there before.
NUMBERS, EACH, BEFORE = 60_000, 20, 2
# What is timed: the address, what stands there once it is shown, and its aims in milliseconds: for who comes for the first time,
# and for who comes again.
LINK, STORY, ROWS = "#/number/1209/3abc", "main .story td", "#rows tbody td"
TIMED = (("a link to a number", LINK, "main dl", 1500, 500), ("and what the record says of it", LINK, STORY, None, None), ("the first table", "", ROWS, 4000, 500))
# Notes when each of the selectors first has something, in milliseconds since the page was asked for.
NOTES = """
window.firstSeen = {};
const look = () => {
  for (const it of %s) if (!(it in firstSeen) && document.querySelector(it)) firstSeen[it] = performance.now();
};
new MutationObserver(look).observe(document, { childList: true, subtree: true });
"""
WORDS = (
    "Logic Motor Serial Thermal Open Tiny Dual Radio Audio Power Badge Clock Field Garden Weather Light Pocket Desk Rack Lab Signal Pulse Stepper Servo Keyboard Mouse Midi "
    "Synth Camera Sensor Relay Display Printer Scanner Reader Writer Programmer Debugger Analyser Adapter Bridge Hub Switch Driver Board Shield Module Kit Controller Monitor"
).split()


def imported(usbreg, store, room, org, pids, title):
    """Imports numbers with titles for an organisation, as a curator does."""
    lines = "".join(f"\t{pid:04x}  {title.format(pid)}\n" for pid in pids)
    done([usbreg, "import", store, write(f"{room}/list.ids", f"1209  x\n{lines}"), "--caller", CURATOR, "--key", f"i{pids[0]}", "--org", org])


def time_many(usbreg):
    """Times the page over a registry in which each number has an owner or is reserved."""
    with folder() as room, Stage(usbreg, room, Recipe) as stage:
        stage.kill()
        for first in range(1, 65536, LIST):
            imported(usbreg, stage.store, room, "bobs-boards", range(first, min(first + LIST, 65536)), "Logic analyser board {:04x}")
        stage.start()
        with Browser(room) as browser:
            page = Page(browser, f"http://{HOST}:{stage.recipe.port}/", PATIENCE)
            page.load()
            times = []
            for _ in range(RUNS):
                page.driver.get("about:blank")
                page.driver.get(page.address)
                times.append(page.driver.execute_async_script(UNTIL_TABLE))
            page.until(lambda: "are read" not in page.text("#count"), "all numbers")
            searches = [page.driver.execute_async_script(UNTIL_FOUND, words) for words in ("logic", "board 7f0", "nothing", "bob's", "a", "")]
    for taken, found in searches:
        print(f"a search takes {taken:.0f} ms: {found}")
    print(f"the table stands there after {statistics.median(times):.0f} ms ({', '.join(f'{it:.0f}' for it in times)})")
    if statistics.median(times) > TABLE or statistics.median(it for it, _ in searches) > SEARCH:
        sys.exit(f"more than {TABLE} ms for the table, or {SEARCH} ms for a search")


def titled(number):
    """Returns a title as people write them, another one for each number."""
    first, second, third = (WORDS[number * step // 7 % len(WORDS)] for step in (11, 31, 73))
    return f"{first} {second} {third.lower()} {number % 977}"


def full_record():
    """Yields requests after which all these numbers are held, each by a petition of its own, and amended once."""
    for it in range(NUMBERS):
        org, keeper, pid = f"o{it // EACH}", f"k{it // EACH}", f"{it + 0x1000 if it < 0xE000 else it - 0xE000 + 0x40:04x}"
        if it % EACH == 0:
            yield {"caller": keeper, "key": "e", "order": "enrol", "org": org, "title": f"{titled(it)} makers", "site": f"https://{org}.example/"}
        site = f"https://{org}.example/{titled(it).replace(' ', '-').lower()}"
        card = {"title": titled(it), "licence": "MIT", "site": site, "source": f"https://git.example/{org}/{it:04x}"}
        yield {"caller": keeper, "key": f"a{it}", "order": "ask", "org": org, "number": pid} | card
        yield {"caller": CURATOR, "key": f"g{it}", "order": "grant", "petition": it + BEFORE + 1}
        yield {"caller": keeper, "key": f"m{it}", "order": "amend", "number": pid} | card


def filled(usbreg, store, room):
    requests = write(f"{room}/full.jsonl", "".join(f"{json.dumps(it)}\n" for it in full_record()))
    subprocess.run([usbreg, "apply", store, requests], stdout=subprocess.DEVNULL, check=True)


class Slow:
    """A browser on a slow machine behind a slow line, in front of a page."""

    def __init__(self, browser, address):
        self.driver, self.address = browser.driver, address
        self.driver.execute_cdp_cmd("Network.enable", {})
        self.driver.execute_cdp_cmd("Page.addScriptToEvaluateOnNewDocument", {"source": NOTES % json.dumps([it for _, _, it, _, _ in TIMED])})

    def visit(self, view, selector, trip, is_first):
        """Returns the milliseconds until something is shown, and the bytes that came."""
        self.driver.execute_cdp_cmd("Emulation.setCPUThrottlingRate", {"rate": 1})
        self.driver.get("about:blank")
        if is_first:
            self.driver.execute_cdp_cmd("Network.clearBrowserCache", {})
        conditions = {"offline": False, "latency": trip, "downloadThroughput": LINE, "uploadThroughput": LINE}
        self.driver.execute_cdp_cmd("Network.emulateNetworkConditions", conditions)
        self.driver.execute_cdp_cmd("Emulation.setCPUThrottlingRate", {"rate": SLOWER})
        self.driver.get(f"{self.address}{view}")
        until = time.monotonic() + PATIENCE
        while not (at := self.driver.execute_script("return window.firstSeen?.[arguments[0]] ?? null", selector)):
            if time.monotonic() > until:
                sys.exit(f"{selector} of {view}: not after {PATIENCE} seconds")
            time.sleep(0.1)
        sizes = "return performance.getEntries().filter(it => 'transferSize' in it && it.responseEnd <= arguments[0]).reduce((sum, it) => sum + it.transferSize, 0)"
        return at, self.driver.execute_script(sizes, at)


def time_slow(usbreg):
    """Times the first views over a slow line on a slow machine, with all files as the timers write them."""
    missed = []
    with folder() as room, Stage(usbreg, room, Recipe) as stage:
        stage.kill()
        filled(usbreg, stage.store, room)
        stage.start()
        began = time.monotonic()
        stage.publish()
        print(f"the files are written in {time.monotonic() - began:.1f} s")
        began = time.monotonic()
        stage.publish()
        print(f"and looked at again in {time.monotonic() - began:.1f} s")
        sizes = subprocess.run(["du", "-s", "-B1", f"{stage.recipe.folder}/usbreg-list/stories"], capture_output=True, text=True, check=True).stdout.split()[0]
        print(f"the files of the record take {int(sizes) / 1e6:.0f} MB of the disk")
        with Browser(room) as browser:
            slow = Slow(browser, f"http://{HOST}:{stage.recipe.port}/")
            for trip in TRIPS:
                for what, view, selector, *aims in TIMED:
                    for is_first, aim in zip((True, False), aims):
                        visits = [slow.visit(view, selector, trip, is_first) for _ in range(RUNS)]
                        taken, came = (statistics.median(it) for it in zip(*visits))
                        who = "for the first time" if is_first else "again"
                        told = f"{what}, {who}, round trips of {trip} ms: {taken / 1000:.2f} s, {came / 1000:.0f} kB"
                        print(told + (f", {taken / aim:.2f} of the aim" if aim else ""), flush=True)
                        if aim and taken > aim and not trip:
                            missed.append(what)
    sys.exit(f"misses its aim: {', '.join(missed)}" if missed else None)
