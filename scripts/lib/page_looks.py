"""What anybody does with the page: look, search, read the rules, and come by an old link."""

import json
import os
import re
import time

from lib.staging import sent_by_proxy
from lib.usbreg import same, write

# Rules that mean harm, and what the page makes of them: the parts and the links.
RULES = """\
# Who gets a number

Makers of *open* hardware, <img src=x onerror=alert(1)>
and <script>window.ran = true</script>\u202egpj.exe.
- One for each product
- See [https://good.example/](https://evil.example/x), or [here](javascript:alert(1))
1. First [the form](#/do/ask)
### Whom to write to
https://acme:x@curators.example/?a=<b>.
"""
PARTS = [
    ["h2", "Who gets a number"],
    ["p", "Makers of *open* hardware, <img src=x onerror=alert(1)> and <script>window.ran = true</script>U+202Egpj.exe."],
    ["li", "One for each product"],
    ["li", "See https://good.example/ (https://evil.example/x at evil.example), or [here](javascript:alert(1))"],
    ["li", "First [the form](#/do/ask)"],
    ["h3", "Whom to write to"],
    ["p", "https://acme:x@curators.example/?a= leads to curators.example<b>."],
]
LINKS = ["https://evil.example/x", "https://acme:x@curators.example/?a="]


def looks(page, stage):
    """Anyone may look: the search, the pages and the map, by the mouse and by the keyboard."""
    page.load()
    same("the first view", page.text("h1"), "Numbers of Shared products")
    page.has("65,262 free, 272 reserved, 1 held, 0 returned.")
    same("what curators alone see", page.one("#to-decide").is_displayed(), False)
    for words, count in (("0033", 1), ("SERIAL", 1), ("boards adapter", 1), ("VID_1209&PID_0033", 1), ("0x0033", 1), ("cafe:0033", 0), ("nothing", 0)):
        page.search(words)
        same(f"a search for {words}", len(page.all("#rows tbody tr")), count)
    page.search("12")
    page.has("1209:0012 is free.", "#exact")
    page.open("number/1209/0033")
    for text in ("Serial adapter", "Bob's boards (bobs-boards), kept by bob", "https://bob.example/s at bob.example"):
        page.has(text)
    page.has("bob\tasked: petition 1: Serial adapter (MIT)", ".story")
    page.has("curator-1\tgranted 1209:0033 to bobs-boards by petition 1", ".story")
    page.open("number/cafe/0033")
    page.has("No entry is about this number.", ".story")
    page.open("org/bobs-boards")
    page.has("petition 2: Thermometer, 1209:beef")
    page.has("1209:0033\tSerial adapter\theld")
    page.open("record")
    page.has("5 entries; 5 down to 1 shown")
    ends = json.loads(page.run("return fetch('/head').then(it => it.text())"))
    page.has(f"Entries\n{ends['requests']}\nDigest\n{ends['digest']}")
    page.open("record/2")
    page.has("5 entries; 2 down to 1 shown")
    page.button("Newer")
    page.has("5 down to 1 shown")
    for view in ("number/1209/%00", "number/../../list", "org/A%2f", "petition/0", "do/constructor", "do/return?number=zz",
                 "do/return?vendor=beef&number=0011", "__proto__", "%", "numbers/beef"):
        page.open(view)
        same(f"the view {view}", page.text("h1"), "No such page")
    for view, words in (("org/nobody", "No such organisation is enrolled."), ("petition/9999", "There is no such petition.")):
        page.open(view)
        same(f"the view {view}", (page.text("h1"), page.text("main p")), ("No such page", words))
    on_the_map(page)
    same("a link to the list without a script", page.run("return fetch('/').then(it => it.text()).then(it => /<noscript>[^]*?href=.\\/list[^]*?<\\/noscript>/.test(it))"), True)


def on_the_map(page):
    from selenium.webdriver.common.action_chains import ActionChains
    from selenium.webdriver.common.keys import Keys

    page.open("map")
    # a square has three dots, below and beside 26 for the digits; the mouse is told where from the middle of the map
    middle, square = (26 + 256 * 3) / 2, lambda at: 26 + at * 3 + 1
    ActionChains(page.driver).move_to_element_with_offset(page.one("#map"), square(0x33) - middle, square(0) - middle).click().perform()
    page.has("Serial adapter", "#told")
    page.one("#map").send_keys(Keys.HOME, *[Keys.ARROW_RIGHT] * 0x32)
    page.has("Serial adapter", "#told")
    page.one("#map").send_keys(Keys.SHIFT, Keys.ARROW_DOWN)
    page.has("257 numbers: 256 free, 1 held", "#told")
    page.one("#map").send_keys(Keys.ARROW_UP, Keys.ENTER)
    page.until(lambda: page.text("h1") == "Number 1209:0033", "the number by the keyboard")


def goes_through_pages(page, stage):
    """A search, its filter and its page are in the address: no number is left out, and Back and a link find them again."""
    reserved = [f"1209:{it:04x}" for it in (*range(1, 0x11), *range(0xF00, 0x1000))]
    shown = lambda: page.run("return [...document.querySelectorAll('#rows tbody a')].map(it => it.innerText)")
    page.load("#/numbers/1209?state=reserved")
    same("the first page", shown(), reserved[:50])
    page.has("272 numbers; 1 to 50 shown", "#count")
    page.button("Next")
    page.has("51 to 100 shown", "#count")
    same("the second page", shown(), reserved[50:100])
    page.search("0f")
    page.has("257 numbers; 1 to 50 shown", "#count")
    same("the address of a search", page.run("return location.hash"), "#/numbers/1209?q=0f&state=reserved")
    page.button("1209:0f05")
    page.has("Number 1209:0f05", "h1")
    page.driver.back()
    page.has("257 numbers; 1 to 50 shown", "#count")
    page.driver.back()
    page.has("272 numbers; 1 to 50 shown", "#count")
    page.load("#/numbers/1209?q=0f&state=reserved&page=6")
    same("the last page", shown(), [it for it in reserved if "0f" in it][250:])


def comes_by_a_link(page, stage):
    """A link to one number asks for that alone. Those of pid.codes lead to the page. A question that must wait is asked
    again. The reports are files, and are fetched once."""
    asked = lambda: page.run("return performance.getEntriesByType('resource').map(it => new URL(it.name).pathname)")
    stage.relay.reads = {"/numbers/1209/0033": [sent_by_proxy(429, 1), sent_by_proxy(503)]}
    page.load("1209/0033/")
    page.until(lambda: page.text("h1") == "Number 1209:0033", "the number of an old link")
    page.has("asked: petition 1", ".story")
    same("questions that waited", stage.relay.reads["/numbers/1209/0033"], [])
    same("reports for one number", [it for it in asked() if it.startswith("/reports")], [])
    page.load("org/bobs-boards/")
    page.until(lambda: page.text("h1") == "Bob's boards", "the organisation of an old link")
    for path in ("cafe/", "CAFE"):
        page.load(path)
        page.until(lambda: page.text("h1") == "Numbers of Cafe boards", "the vendor of an old link")
    stage.publish()
    heads = page.run("return fetch('/reports/numbers').then(it => Object.fromEntries(it.headers))")
    same("a report that is a file", (heads.get("content-encoding"), "etag" in heads), ("gzip", True))
    page.load()
    page.has("1 held")
    sizes = page.run("return performance.getEntriesByType('resource').filter(it => it.name.includes('/reports/')).map(it => it.encodedBodySize > 0 && it.transferSize < 400)")
    same("reports that were there already", sizes, [True, True])
    stage.unpublish()


def comes_again(page, stage):
    """Who comes again asks for none of the page's files but the first, until they are other ones: then these are there at
    once."""
    asked = "return performance.getEntriesByType('resource').filter(it => it.name.includes('/web/')).map(it => [it.name, it.transferSize])"
    page.load("#/nowhere")
    page.load("#/nowhere")
    files = page.run(asked)
    same("files that are asked for again", (len(files) > 20, [name for name, came in files if came]), (True, []))
    for old, new in (("'No such page'", "'No such view'"), ("'No such view'", "'No such page'")):
        # the tag of a file has its time in seconds
        time.sleep(1)
        stage.install((("page.js", old, new),))
        page.load("#/nowhere")
        same("the page after an upgrade", page.text("h1"), new.strip("'"))


def reads_the_rules(page, stage):
    """The rules that the operators wrote are texts and links, whatever is in them. Without any there is no link to them."""
    is_there = lambda: page.one("#to-rules").is_displayed()
    page.load("#/rules")
    same("the rules that nobody wrote", (page.text("h1"), page.run("return fetch('/rules').then(it => it.status)"), is_there()), ("No such page", 204, False))
    path = write(f"{stage.recipe.folder}/rules.md", RULES)
    page.load()
    page.until(is_there, "a link to the rules")
    page.button("Rules", "nav")
    page.until(lambda: page.text("h1") == "Rules", "the rules")
    parts = page.run("return [...document.querySelectorAll('main :is(h2, h3, p, li)')].map(it => [it.localName, it.innerText])")
    same("what the rules say", parts, PARTS)
    same("the links of the rules", page.run("return [...document.querySelectorAll('main a')].map(it => it.href)"), LINKS)
    same("other elements of the rules", [it.tag_name for it in page.all("main :not(h1, h2, h3, p, ul, ol, li, a, bdi, span)")], [])
    same("what ran", page.run("return window.ran ?? null"), None)
    os.remove(path)


def finds_the_server_down(page, stage):
    """With the server down what nginx has is shown, and the page says that orders have to wait."""
    page.load("#/numbers")
    page.has("1 held")
    stage.publish()
    stage.kill()
    page.load("#/number/1209/0033")
    page.has("Serial adapter")
    page.has("The registry is down: this is what the last reports said.")
    same("whether it is said to be down", page.one("#down").is_displayed(), True)
    same("what is said of orders", re.sub(r"\s+", " ", page.text("#down")),
         "The registry is down for the moment. What is shown may be old, and orders have to wait.")
    page.open("numbers")
    page.has("1 held")
    page.open("org/bobs-boards")
    for text in ("Keeper\nbob", "The registry is down: this is what the last reports said.", "1209:0033\tSerial adapter\theld"):
        page.has(text)
    stage.start()
    page.open("number/1209/0033")
    page.has("https://bob.example/s at bob.example")
    same("whether it is said to be down", page.one("#down").is_displayed(), False)
    stage.unpublish()
