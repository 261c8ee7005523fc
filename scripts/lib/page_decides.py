"""What curators do with the page."""

import time

from lib.page_orders import SHOWN
from lib.staging import CURATOR, DAY, OTHER, done
from lib.usbreg import same


def card(petition):
    return f"[aria-label='Petition {petition}']"


def counts(page):
    """Returns what the queue counts, and opens it anew for a later time: the proxy keeps its report for ten seconds."""
    page.until(lambda: "open petition" in page.text("#count"), "a count")
    count = page.text("#count")
    if not count.startswith("17 "):
        time.sleep(2)
        page.open("decide")
    return count


def focused(page):
    return page.run("return document.activeElement.getAttribute('aria-label')")


def decides(page, stage):
    """The queue shows what one needs to decide, to curators alone; what is granted is what was pressed."""
    page.sign_in(CURATOR)
    stands_in_one_line(page)
    page.press("#to-decide")
    page.until(lambda: counts(page) == "17 open petitions.", "all petitions in the queue")
    for text in ("1209:0011, now free", "https://acme.example/src at acme.example", "Acme Tools (acme)", "Keeper\nann",
                 "Also wanted by petition 18 of acme."):
        page.has(text, card(3))
    page.has("1209:0033\tSerial adapter\theld", card(2))
    decide(page, stage, 3, "Grant", "Blinker", "granted 0011 to acme by petition 3", "granted 1209:0011 to acme by petition 3")
    page.has("1209:0011 is not free: it is held.", card(18))
    same("who else wants it", "Also wanted" in page.text(card(18)), False)
    page.until(lambda: focused(page) == "Grant petition 4", "the next petition")
    page.has("16 open petitions; 1 petition closed since.", "#count")
    page.press("[aria-label='Grant petition 4']")
    page.one("dialog input").send_keys("1209:00Ab")
    same("the hostile title in a question", SHOWN in page.yes(), True)
    page.has("Done: granted 1209:00ab", card(4))
    page.press("[aria-label='Decline petition 5']")
    too_long(page)
    decide(page, stage, 5, "Decline", "Lost", "declined petition 5", "declined petition 5", "It came twice")
    decide(page, stage, 17, "Grant", "Second", "granted cafe:00ab to acme by petition 17", "granted cafe:00ab to acme by petition 17")
    page.open("decide")
    page.has("13 open petitions.", "#count")
    page.has("1209:0011 is not free: it is held.", card(18))
    page.open("petition/5")
    page.has("State\ndeclined\nReason\nIt came twice")
    page.has(f"{DAY}\tcurator-1\tdeclined petition 5: It came twice", ".story")


def too_long(page):
    """A reason that the registry would not take is not sent."""
    page.one("dialog input").send_keys("ä" * 101)
    page.press("dialog[open] button.main")
    wrong = page.run("return document.querySelector('dialog[open] input')?.validationMessage")
    same("what is wrong with a long reason", wrong, "This has 202 bytes; at most 200 are kept.")
    page.button("Cancel", "dialog")
    page.until(lambda: not page.all("dialog[open]"), "the end of the question")


def stands_in_one_line(page):
    """On a screen of 1,100 dots all links of the page stand in one line, also that to the rules."""
    page.browser.look(1100)
    tops = page.run("document.querySelector('#to-rules').hidden = false; return [...document.querySelectorAll('header nav a')].map(it => it.offsetTop)")
    same("the lines of the links", (len(tops), len(set(tops))), (8, 1))
    page.run("document.querySelector('#to-rules').hidden = true")
    page.browser.look(1280)


def decide(page, stage, petition, words, title, reply, shown, reason=""):
    page.press(f"[aria-label='{words} petition {petition}']")
    if reason:
        page.one("dialog input").send_keys(reason)
    same("the title in the question", title in page.yes(), True)
    page.has(f"Done: {shown}.", card(petition))
    given = f',"reason":"{reason}"' if reason else ""
    body = f'{{"order":"{words.lower()}","petition":{petition}{given}}}'
    same("what was sent", [it.strip() for it in stage.relay.tries[-1][1:]], [body, done(reply)])


def decides_on_many(page, stage):
    """A filter and a sequence; keys; several in one go, each under its own key; what somebody else decided."""
    page.open("decide?sort=new")
    page.one(card(18))
    cards = lambda: page.run("return [...document.querySelectorAll('.card')].map(it => it.getAttribute('aria-label'))")
    same("the newest first", cards()[:2], ["Petition 18", "Petition 16"])
    page.search("thermometer")
    same("a filter", (cards(), page.run("return location.hash")), (["Petition 2"], "#/decide?q=thermometer&sort=new"))
    page.open("decide")
    page.one("[aria-label='Grant petition 11']")
    page.one("[aria-label='Grant petition 10']").send_keys("xjx")
    same("where j leads", focused(page), "Grant petition 11")
    page.has("2 petitions chosen:", "#chosen")
    before = len(stage.relay.tries)
    page.button("Decline them", "#chosen")
    page.one("dialog input").send_keys("Not now")
    asked = page.yes()
    same("what the question names", [it for it in ("Killed later", "Kept") if it not in asked], [])
    for petition in (10, 11):
        page.has(f"Done: declined petition {petition}.", card(petition))
    tries = stage.relay.tries[before:]
    same("what was sent", [body for _, body, _ in tries], [f'{{"order":"decline","petition":{it},"reason":"Not now"}}' for it in (10, 11)])
    same("the keys", len({key for key, _, _ in tries}), 2)
    same("where the keys are heard after several", focused(page), "Petition 10")
    stage.orders(OTHER, "y12", {"order": "grant", "petition": 12})
    page.has(f"It was granted by {OTHER}.", card(12))
    stage.orders(OTHER, "y14", {"order": "decline", "petition": 14, "reason": "Ask elsewhere"})
    page.has(f"It was declined by {OTHER}: Ask elsewhere", card(14))
    page.has("9 open petitions; 4 petitions closed since.", "#count")
    by_its_form(page)
    page.open("petition/13")
    page.one("[aria-label='Grant petition 13']")
    stage.orders(OTHER, "y13", {"order": "decline", "petition": 13})
    page.press("[aria-label='Grant petition 13']")
    page.yes()
    page.answer("This petition is closed already.")
    same("how it is shown", page.one(".answer").get_attribute("class"), "answer fault")
    page.has("State\ndeclined")
    same("what is offered then", [it.text for it in page.all("main .buttons button")], [])


def by_its_form(page):
    page.open("do/decline?petition=15")
    page.fill(reason="Ask later")
    page.submit()
    page.one("dialog[open] button.main")
    same("the reason in the question", "Reason\nAsk later" in page.text("dialog"), True)
    page.button("Cancel", "dialog")


def corrects(page, stage):
    """What is wrong with a number or an organisation is corrected, a number is revoked with a reason, and an organisation
    is handed over, each from its page."""
    page.open("number/1209/0033")
    page.button("Correct it")
    page.until(lambda: page.run("return document.querySelector('#f-title')?.value === 'Serial adapter'"), "what it says now")
    page.fill(title="Serial adaptor")
    page.submit()
    page.answer("Done: corrected 1209:0033.")
    page.open("org/bobs-boards")
    page.button("Correct the organisation")
    page.until(lambda: page.run("return document.querySelector('#f-title')?.value === \"Bob's boards\""), "what it says now")
    page.fill(title="Bob's Boards")
    page.submit()
    page.answer("Done: corrected organisation bobs-boards.")
    page.open("org/bobs-boards")
    page.button("Hand it over")
    page.fill(keeper="mallory")
    page.submit()
    asked = page.yes()
    same("what the question says", [it for it in ("Bob's Boards (bobs-boards)", "bob", "mallory") if it not in asked], [])
    page.answer("Done: handed bobs-boards over to mallory.")
    page.open("number/1209/0033")
    page.has("Bob's Boards (bobs-boards), kept by mallory")
    page.button("Revoke it")
    page.fill(reason="No product uses it")
    page.submit()
    asked = page.yes()
    same("what the question says", [it for it in ("1209:0033", "Serial adaptor", "No product uses it") if it not in asked], [])
    page.answer("Done: revoked 1209:0033.")
    same("what was sent", stage.relay.tries[-1][1], '{"order":"revoke","number":"0033","reason":"No product uses it"}')
    page.open("number/1209/0033")
    page.has("Only its owner can get it again.")
    page.has("curator-1\trevoked 1209:0033: No product uses it", ".story")
    days = page.run("return [...document.querySelectorAll('.story tbody tr')].map(it => it.children[1].innerText)")
    same("the days of entries, of which the first ones have no time", days, ["", "", DAY, DAY])


def curates(page, stage):
    """Numbers are reserved and released on the map, and a licence is added."""
    from selenium.webdriver.common.keys import Keys

    page.open("map/cafe")
    for words, state in (("Reserve", "reserved"), ("Release", "free")):
        page.one("#map").send_keys(Keys.HOME, Keys.PAGE_DOWN, Keys.SHIFT, Keys.ARROW_DOWN)
        page.button(words)
        same("the span in the question", f"{words} cafe:1001 to 1101?" in page.yes(), True)
        page.answer(f"Done: {words.lower()}d cafe:1001-1101.")
        page.has(f"257 numbers: 257 {state}", "#told")
    page.open("do/add-licence")
    page.fill(licence="Apache-2.0")
    page.submit()
    page.yes()
    page.answer("Done: added licence Apache-2.0.")
    page.open("do/amend?number=0011")
    same("the licences", page.run("return [...document.querySelectorAll('#f-licence option')].map(it => it.value).sort()"),
         ["Apache-2.0", "GPL-3.0-only", "MIT"])
