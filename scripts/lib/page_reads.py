"""Who reads the page how: by keys, on narrow screens, in the dark; and what it is kept in."""

import sys

from lib.page_orders import SHOWN
from lib.usbreg import same


def shows_texts_as_texts(page, stage):
    """Titles and links that mean harm are shown as what they are."""
    for view, selector in (("numbers", "#rows"), ("number/1209/00ab", "main"), ("petition/4", "main"), ("org/acme", "main"), ("record", "#entries")):
        page.open(view)
        page.has(SHOWN, selector)
        same(f"elements made from a title in {view}", [it.tag_name for it in page.all("main script, main img")], [])
    marks = "return import(arguments[0]).then(it => it.written(`a${'\\u0301'.repeat(9)}b`).textContent)"
    same("a letter with nine marks", page.run(marks, page.file("elements.js")), "a" + "\u0301" * 3 + "…b")
    page.open("number/1209/00ab")
    page.has("http://acme.example:x@evil.example/?%3Cscript%3E leads to evil.example")
    same("the title of the window", page.driver.title, "Number 1209:00ab – Shared products")


def by_keyboard(page, stage):
    """From the start to a petition without a mouse."""
    from selenium.webdriver.common.action_chains import ActionChains
    from selenium.webdriver.common.keys import Keys

    def press(*keys):
        ActionChains(page.driver).send_keys(*keys).perform()

    def tab_to(selector):
        for _ in range(60):
            if page.run("return document.activeElement.matches(arguments[0])", selector):
                return
            press(Keys.TAB)
        sys.exit(f"the key Tab does not come to {selector}")

    page.load()
    tab_to("#sign-in")
    press(Keys.ENTER)
    page.one("dialog[open]")
    press("ann", Keys.TAB, "ann", Keys.ENTER)
    page.has("Signed in as ann", "#me")
    page.until(lambda: not page.all("dialog[open]"), "the end of the dialog")
    press(Keys.ENTER)
    page.has("Signed in as ann", "#me")
    page.until(lambda: page.text("h1"), "the view")
    page.run("document.activeElement.blur()")
    tab_to("nav a[href='#/do/ask']")
    press(Keys.ENTER)
    page.one("#f-number")
    tab_to(".free button")
    number = page.run("return document.activeElement.innerText")
    press(Keys.SPACE)
    for name, text in (("title", "Keys"), ("licence", "MIT"), ("site", "https://acme.example/k"), ("source", "https://acme.example/k")):
        tab_to(f"#f-{name}")
        press(text)
    press(Keys.ENTER)
    page.answer("Done: petition 19.")
    same("the number that was taken", f'"number":"{number}"' in stage.relay.tries[-1][1], True)


def can_be_read(page, stage):
    """Each text has enough contrast, each control a name, and nothing is wider than the screen."""
    for width, dark in ((1280, False), (1280, True), (320, False)):
        page.browser.look(width, dark)
        for view in ("numbers", "orgs", "map", "record", "me", "number/1209/00ab", "org/acme", "petition/4", "do/ask", "do/grant", "do"):
            page.open(view)
            same(f"what of {view} at {width} cannot be read", page.unreadable(), ([], [], False))
    page.browser.look(1280)
    page.open("numbers")
    page.browser.force_colours(True)
    seen = page.run("return [...document.querySelectorAll('header nav a')].filter(it => getComputedStyle(it).borderBottomColor"
                    " !== getComputedStyle(document.body).backgroundColor).map(it => it.innerText)")
    same("links that look current in forced colours", seen, ["Numbers"])
    page.browser.force_colours(False)


def is_kept_in(page, stage):
    """The page broke no rule of its policy, and the policy stops what a bug would let in."""
    same("what the policy had to stop", page.run("return sessionStorage.getItem('broken')"), None)
    same("what the browser complained of", page.complaints(), [])
    page.run("""
        const script = document.createElement('script');
        try { script.textContent = 'window.ran = true'; } catch { /* trusted types */ }
        document.body.append(script);
        try { document.body.insertAdjacentHTML('beforeend', '<b>x</b>'); window.ran = true; } catch { /* trusted types */ }
        fetch('http://127.0.0.1:9/').catch(() => {});
        document.createElement('p').setAttribute('style', 'color: red');
    """)
    page.until(lambda: "connect-src" in (page.run("return sessionStorage.getItem('broken')") or ""), "the policy")
    same("what ran", page.run("return window.ran ?? null"), None)
    page.complaints()
    for path in ("/", page.file("page.js"), page.file("style.css")):
        headers = page.run("return fetch(arguments[0]).then(it => Object.fromEntries(it.headers))", path)
        same(f"{path} sniffed", headers["x-content-type-options"], "nosniff")
        same(f"{path} in a frame", "frame-ancestors 'none'" in headers["content-security-policy"], True)
