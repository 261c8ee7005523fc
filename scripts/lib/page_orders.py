"""What makers do with the page: enrol, ask, amend and return."""

from lib.staging import CURATOR, DAY, TIME, done
from lib.usbreg import same

HOSTILE = "<script>document.title='owned'</script><img src=x onerror=alert(1)> \u202egpj.exe"
SHOWN = HOSTILE.replace("\u202e", "U+202E")
EVIL = "http://acme.example:x@evil.example/?<script>"


def signs_in(page, stage):
    """Nothing of a password stays in the page."""
    page.load()
    page.try_to_sign_in("ann", "wrong")
    page.has("The name or the password is wrong.", "dialog")
    page.sign_in("ann")
    same("passwords in the page", len(page.all("[type=password]")), 0)
    same("what curators alone see", page.one("#to-decide").is_displayed(), False)
    page.open("decide")
    page.has("This page is for curators.")


def enrols(page, stage):
    """The simple rules are checked while one types, and nothing is sent against them."""
    page.open("me")
    page.button("enrol one")
    page.one("#f-org")
    page.fill(org="Acme", title=" Acme", site="acme.example")
    page.submit()
    same("what is wrong with the fields", page.run("return [...document.querySelectorAll('small.fault')].map(it => it.textContent)"),
         ["Use 1 to 32 of the characters a to z, 0 to 9 and -.", "This begins or ends with a space.",
          "This is not a whole web address. It begins with https:// or http://."])
    same("what was sent", stage.relay.tries, [])
    page.fill(org="bobs-boards", title="Acme Tools", site="HTTPS://Acme.example")
    page.has("Kept as https://acme.example/.")
    page.submit()
    page.has("This short name is taken by another organisation.", "#e-org")
    page.fill(org="acme")
    page.submit()
    page.answer("Done: enrolled acme.")
    page.button("Ask for a number for it")
    page.until(lambda: page.text("h1") == "Ask for a number", "the next form")


def asks(page, stage):
    """Free numbers are offered, and a refusal stands beside the field that it is about."""
    page.open("do/ask?org=acme")
    same("the licences", page.run("return [...document.querySelectorAll('#f-licence option')].map(it => it.value)"), ["", "GPL-3.0-only", "MIT"])
    page.has("Free:\n0011\n0012", ".free")
    page.fill(number="0033")
    page.has("0033 is held and belongs to bobs-boards.", "#its-state")
    page.fill(number="beef")
    page.has("beef is free. Also petition 2 of bobs-boards asks for it.", "#its-state")
    page.fill(number="0010", title="Blinker", licence="MIT", site="https://acme.example/blinker", source="https://acme.example/src")
    page.submit()
    page.has("This number is reserved.", "#e-number")
    same("an answer to a refusal", page.one(".answer").get_attribute("class"), "answer fault")
    page.button("0011", ".free")
    page.submit()
    page.answer("Done: petition 3.")
    asks_anew(page)
    page.fill(title=HOSTILE, licence="GPL-3.0-only", site="https://acme.example/blinker", source=EVIL)
    page.submit()
    page.answer("Done: petition 4.")
    # also by the link to the view that is shown
    asks_anew(page)
    page.open("me")
    page.has("petition 3: Blinker, 1209:0011")
    same("what is kept", page.kept(), [])


def asks_anew(page):
    page.press("header a[href='#/do/ask']")
    page.until(lambda: page.run("return document.querySelector('#f-title')?.disabled === false"), "the form anew")


def goes_on_with_a_form(page, stage):
    """A form that was begun is there again, until it is thrown away."""
    page.open("do/ask")
    page.fill(title="Half", number="0x0077")
    page.driver.refresh()
    page.one("#begun")
    written = lambda: page.run("return ['title', 'number'].map(it => document.querySelector(`#f-${it}`).value)")
    same("what was written", written(), ["Half", "0x0077"])
    page.button("Throw it away")
    page.until(lambda: not page.all("#begun"), "the form anew")
    same("what was thrown away", written(), ["", ""])
    page.sign_in("ann")


def asks_of_another_vendor(page, stage):
    """A number that is written with its vendor is one of that vendor."""
    page.open("do/ask?org=acme")
    page.fill(number="VID_CAFE&PID_00AB", title="Second", licence="MIT", site="https://acme.example/2", source="https://acme.example/2")
    page.has("00ab is free.", "#its-state")
    page.submit()
    page.answer("Done: petition 17.")
    same("what was asked for", stage.relay.tries[-1][1], '{"order":"ask","org":"acme","vendor":"cafe","number":"00ab","title":"Second",'
         '"licence":"MIT","site":"https://acme.example/2","source":"https://acme.example/2"}')


def amends(page, stage):
    """What one keeps can be changed, returned and withdrawn. What is not changed stays."""
    page.sign_in("ann")
    page.open("number/1209/0011")
    page.button("Change what it says")
    page.until(lambda: page.run("return document.querySelector('#f-title')?.value === 'Blinker'"), "what it says now")
    page.fill(title="Blinker 2")
    page.submit()
    page.answer("Done: amended 1209:0011.")
    same("what was sent", stage.relay.tries[-1][1], '{"order":"amend","number":"0011","title":"Blinker 2","licence":"MIT",'
         '"site":"https://acme.example/blinker","source":"https://acme.example/src"}')
    page.open("number/1209/0011")
    page.has("Blinker 2")
    page.has("ann\tamended 1209:0011: Blinker 2", ".story")
    times = page.run("return [...document.querySelectorAll('.story time')].map(it => [it.dateTime, it.title, it.innerText])")
    same("the times of the entries", times, [[TIME, TIME, DAY]] * 3)
    page.open("record")
    page.has(f"Newest\n{DAY}")
    page.open("petition/6")
    page.button("Withdraw it")
    page.one("#f-petition")
    page.submit()
    same("the title in the question", "Cut" in page.yes(), True)
    page.answer("Done: withdrawn petition 6.")


def returns_what_it_names(page, stage):
    """The order is about the number of the address, and the question says which that is. Escape and Cancel mean no."""
    from selenium.webdriver.common.action_chains import ActionChains
    from selenium.webdriver.common.keys import Keys

    page.open("number/CAFE/00AB")
    same("the number of an address in upper case", page.text("h1"), "Number cafe:00ab")
    page.button("Return it")
    for no in (lambda: ActionChains(page.driver).send_keys(Keys.ESCAPE).perform(), lambda: page.button("Cancel", "dialog"),
               lambda: ActionChains(page.driver).send_keys(Keys.ENTER).perform()):
        before = len(stage.relay.tries)
        page.submit()
        page.one("dialog[open]")
        same("what has the focus in a question", page.run("return document.activeElement.innerText"), "Cancel")
        no()
        page.until(lambda: not page.all("dialog[open]"), "the end of the question")
        same("what was sent without a yes", len(stage.relay.tries), before)
    page.submit()
    asked = page.yes()
    same("what the question says", [it for it in ("cafe:00ab", "Second", "Acme Tools") if it not in asked], [])
    page.answer("Done: returned cafe:00ab.")
    same("what was sent", [it.strip() for it in stage.relay.tries[-1][1:]],
         ['{"order":"return","vendor":"cafe","number":"00ab"}', done("returned cafe:00ab")])
    page.open("number/cafe/00ab")
    page.has("ann\treturned cafe:00ab", ".story")
    page.open("numbers/1209")
    page.has("1209:00ab", "#rows")
    page.search("00ab")
    page.has("held", "#rows")


def sees_a_grant_at_once(page, stage):
    """What somebody else granted stands on one's page, with what was declined, which can be asked for again."""
    page.sign_in("ann")
    page.open("me")
    page.has("petition 8: Too many")
    stage.orders(CURATOR, "x8", {"order": "grant", "petition": 8})
    page.open("petition/8")
    page.has("granted")
    page.open("me")
    page.has("1209:0025\tToo many\theld")
    page.has(f"declined by curator-1, {DAY}: Not now", ".story")
    page.button("Ask again")
    same("what is asked for again", page.run("return [...document.querySelectorAll('form.order :is(input, select)')].map(it => it.value)"),
         ["acme", "1209", "0049", "Told", "MIT", "https://acme.example/blinker", "https://acme.example/src"])
