"""What `use_the_page.py` needs of a browser: Chromium without a window, and what a person does with a page and sees of
it."""

import importlib.util
import os
import shutil
import sys
import time

from lib.serving import HOST

DEBIAN = "/usr/bin/python3"
# The driver and the browser by their paths, so that selenium fetches none.
BROWSER, DRIVER = "chromium", "chromedriver"


def missing():
    """Returns the packages that are not there. Debian's selenium is one of Debian's Python, which then runs the script."""
    if importlib.util.find_spec("selenium") is None and os.path.exists(DEBIAN) and os.path.realpath(sys.executable) != os.path.realpath(DEBIAN):
        os.execv(DEBIAN, [DEBIAN, *sys.argv])
    tools = {BROWSER: "chromium", DRIVER: "chromium-driver", "nginx": "nginx"}
    lacking = [package for tool, package in tools.items() if not shutil.which(tool)]
    return lacking + ["python3-selenium"] * (importlib.util.find_spec("selenium") is None)


# Where the browser is: nine hours ahead of UTC.
ZONE = "Asia/Tokyo"

# Counts what the content security policy forbids, on each page that is opened.
COUNT_VIOLATIONS = """
addEventListener('securitypolicyviolation', it => sessionStorage.setItem('broken', `${sessionStorage.getItem('broken') ?? ''}${it.effectiveDirective} `));
"""

# Whether a text has a contrast of 4.5 to what is behind it, by the formula of the Web Content Accessibility Guidelines.
TOO_PALE = """
const rgb = it => it.match(/[0-9.]+/g).map(Number);
const light = ([r, g, b]) => [r, g, b].map(it => (it /= 255) <= 0.04045 ? it / 12.92 : ((it + 0.055) / 1.055) ** 2.4).reduce((all, it, at) => all + it * [0.2126, 0.7152, 0.0722][at], 0);
const behind = it => { for (; it; it = it.parentElement) { const c = rgb(getComputedStyle(it).backgroundColor); if (c[3] !== 0) return c; } return [255, 255, 255]; };
return [...document.querySelectorAll('body *')].filter(it => it.checkVisibility() && !it.disabled && [...it.childNodes].some(n => n.nodeType === 3 && n.data.trim())).filter(it => {
  const [a, b] = [light(rgb(getComputedStyle(it).color)), light(behind(it))].sort((x, y) => y - x);
  return (a + 0.05) / (b + 0.05) < 4.5;
}).map(it => it.outerHTML.slice(0, 120));
"""
NAMELESS = "return [...document.querySelectorAll('input, select, button, canvas:not([aria-hidden])')].filter(it => !(it.labels?.length || it.innerText || it.getAttribute('aria-label'))).map(it => it.outerHTML)"


class Browser:
    """Chromium, for a `with`. It resolves no names, so nothing but the registry can be asked."""

    def __init__(self, room, width=1280, dark=False):
        from selenium import webdriver
        from selenium.webdriver.chrome.options import Options
        from selenium.webdriver.chrome.service import Service

        options = Options()
        options.binary_location = shutil.which(BROWSER)
        for it in (
            "--headless=new", "--no-sandbox", "--disable-gpu", "--disable-dev-shm-usage", "--disable-background-networking",
            "--disable-component-update", "--no-first-run", "--hide-scrollbars", "--lang=en",
            f"--host-resolver-rules=MAP * ~NOTFOUND, EXCLUDE {HOST}", f"--user-data-dir={room}/browser", "--window-size=1280,1000",
        ):
            options.add_argument(it)
        options.set_capability("goog:loggingPrefs", {"browser": "ALL"})
        options.set_capability("unhandledPromptBehavior", "ignore")
        self.driver = webdriver.Chrome(service=Service(shutil.which(DRIVER)), options=options)
        self.prepare(width, dark)

    def prepare(self, width=1280, dark=False):
        """Makes a new window one of the story."""
        self.driver.execute_cdp_cmd("Page.addScriptToEvaluateOnNewDocument", {"source": COUNT_VIOLATIONS})
        self.driver.execute_cdp_cmd("Emulation.setTimezoneOverride", {"timezoneId": ZONE})
        self.look(width, dark)

    def look(self, width, dark=False, height=1000):
        """Makes the page so wide and, if asked for, dark."""
        self.driver.execute_cdp_cmd("Emulation.setDeviceMetricsOverride", {"width": width, "height": height, "deviceScaleFactor": 1, "mobile": width < 600})
        self.dark, self.width = dark, width
        self.force_colours(False)

    def force_colours(self, is_forced):
        """Has the page shown in the colours of the system, as people with weak sight do, or in its own."""
        scheme = {"name": "prefers-color-scheme", "value": "dark" if self.dark else "light"}
        forced = {"name": "forced-colors", "value": "active" if is_forced else "none"}
        self.driver.execute_cdp_cmd("Emulation.setEmulatedMedia", {"features": [scheme, forced]})

    def __enter__(self):
        return self

    def __exit__(self, *_):
        self.driver.quit()


class Page:
    """What a person does with the page, and sees of it."""

    def __init__(self, browser, address, patience):
        self.browser, self.driver, self.address, self.patience = browser, browser.driver, address, patience

    def run(self, script, *given):
        return self.driver.execute_script(script, *given)

    def until(self, holds, what):
        """Waits until this holds, and returns it. Ends the script if it doesn't."""
        end = time.monotonic() + self.patience
        while not (got := holds()):
            if time.monotonic() > end:
                sys.exit(f"{what if isinstance(what, str) else what()}: not after {self.patience} seconds")
            time.sleep(0.02)
        return got

    def load(self, path=""):
        """Opens the page anew, at a path and what follows it."""
        self.driver.get("about:blank")
        self.driver.get(f"{self.address}{path}")
        self.until(lambda: self.all("main h1"), "the page")

    def file(self, name):
        """Returns the address of a file of the page."""
        return self.run("return [...document.querySelectorAll('[href], [src]')].map(it => it.src || it.href).find(it => it.endsWith(arguments[0]))", f"/{name}")

    def search(self, words):
        """Writes into the box of a search."""
        box = self.one("#query")
        self.run("arguments[0].value = arguments[1]; arguments[0].dispatchEvent(new Event('input'))", box, words)

    def open(self, view):
        """Opens a view as a link does."""
        self.run("document.querySelector('main').replaceChildren(); if (location.hash === arguments[0]) dispatchEvent(new Event('hashchange')); else location.hash = arguments[0]", f"#/{view}")
        self.until(lambda: self.all("main h1"), f"the view {view}")

    def all(self, selector):
        return self.driver.find_elements("css selector", selector)

    def one(self, selector):
        return self.until(lambda: self.all(selector), selector)[0]

    def text(self, selector="main"):
        return self.run("return document.querySelector(arguments[0])?.innerText ?? ''", selector)

    def has(self, text, selector="main"):
        """Waits until a part of the page shows a text."""
        self.until(lambda: text in self.text(selector), lambda: f"{text!r} in {selector}, which is {self.text(selector)!r}")

    def press(self, selector):
        self.one(selector).click()

    def button(self, words, within="main"):
        """Presses the first button or link with these words."""
        script = "return [...document.querySelectorAll(arguments[0])].find(it => it.innerText === arguments[1])"
        self.until(lambda: self.run(script, f"{within} :is(button, a)", words), f"a button {words!r} in {self.text(within)!r}").click()

    def fill(self, **fields):
        """Types into the fields of a form, or chooses. A blank is cleared with the keys, as people do."""
        from selenium.webdriver.common.keys import Keys

        for name, value in fields.items():
            box = self.one(f"#f-{name}")
            if box.tag_name == "select":
                self.run("arguments[0].value = arguments[1]; arguments[0].dispatchEvent(new Event('input', {bubbles: true}))", box, value)
            else:
                box.send_keys(Keys.CONTROL, "a", Keys.NULL, Keys.DELETE, value)

    def submit(self):
        self.press("form.order > button.main")

    def answer(self, text):
        self.has(text, "main .answer")

    def settles(self, reply):
        """Waits until an order has its reply. Once the page gives up, it is sent again from the top of the page."""
        def is_there():
            if self.run("return document.querySelector('#pending button.main')?.disabled === false"):
                self.press("#pending button.main")
            return f"Done: {reply}." in self.text("main .answer") + self.text("#pending")

        self.until(is_there, lambda: f"{reply} in {self.text('main .answer')!r}, {self.text('#pending')!r}")

    def write(self, **fields):
        """Writes a petition of an organisation. The proxy may not know yet that it is there."""
        self.open("do/ask?org=acme")
        self.fill(**fields, licence="MIT", site="https://acme.example/blinker", source="https://acme.example/src")

    def ask(self, **fields):
        self.write(**fields)
        self.submit()

    def yes(self):
        """Says yes in the dialog, and returns what it asked."""
        self.one("dialog[open] button.main")
        asked = self.text("dialog")
        self.press("dialog[open] button.main")
        return asked

    def try_to_sign_in(self, name, password):
        if not self.all("dialog[open]"):
            self.press("#sign-in")
        for box, value in (("name", name), ("password", password)):
            it = self.one(f"dialog [name={box}]")
            if it.get_attribute("readonly") is None:
                it.clear()
                it.send_keys(value)
        self.press("dialog button.main")

    def sign_out(self):
        if self.one("#sign-out").is_displayed():
            self.press("#sign-out")

    def sign_in(self, name, password=None):
        self.sign_out()
        self.try_to_sign_in(name, password or name)
        self.has(f"Signed in as {name}", "#me")
        self.until(lambda: not self.all("dialog[open]"), "the end of the dialog")

    def unreadable(self):
        """Returns texts that are too pale, controls without a name, and whether the page is wider than the screen."""
        # on a narrow screen the browser makes its own width fit what is wider
        is_wider = self.run("return document.documentElement.scrollWidth > arguments[0]", self.browser.width)
        return self.run(TOO_PALE), self.run(NAMELESS), is_wider

    def kept(self):
        """Returns the orders that the browser keeps."""
        return self.run("return Object.keys(localStorage).filter(it => it.startsWith('usbreg-order-')).map(it => JSON.parse(localStorage[it]))")

    def complaints(self):
        """Returns what the browser complained of, but for statuses that the script causes."""
        return [it["message"] for it in self.driver.get_log("browser") if "Failed to load resource" not in it["message"]]

    def picture(self, path, width=1280, dark=False, most=1600):
        """Takes a picture of the whole page."""
        self.browser.look(width, dark)
        height = self.run("return document.documentElement.scrollHeight")
        self.browser.look(width, dark, min(max(height, 600), most))
        time.sleep(0.3)
        self.driver.save_screenshot(path)
        self.browser.look(1280)
