"""Orders whose responses are lost: each takes effect once."""

import contextlib

from lib.serving import refused
from lib.staging import done, sent_by_proxy
from lib.usbreg import same


def loses_responses(page, stage):
    """A response is lost, cut in its head and in its body, or memory ran out: the same bytes go again under the same key."""
    stage.relay.losses = [0, 20]
    _, body = stage.tried("responses that are lost", page, lambda: page.ask(number="0022", title="Lost"), [done("petition 5")] * 3)
    same("the order", body, '{"order":"ask","org":"acme","number":"0022","title":"Lost","licence":"MIT","site":"https://acme.example/blinker","source":"https://acme.example/src"}')
    page.answer("Done: petition 5.")
    same("what is kept after the answer", page.kept(), [])
    stage.relay.losses = [-5, refused(31)]
    stage.tried("a response that is cut, and status 503", page, lambda: page.ask(number="0023", title="Cut"), [done("petition 6")] * 3)
    page.answer("Done: petition 6.")


def is_refused_by_the_proxy(page, stage):
    """What the proxy refuses itself says nothing of a try before."""
    stage.relay.losses = [0, sent_by_proxy(429), sent_by_proxy(413)]
    key, _ = stage.tried("refusals by the proxy", page, lambda: page.ask(number="0024", title="Limited"), [done("petition 7")] * 3)
    page.answer("This is too long. It may have been acted on.")
    same("orders that are kept", [it["doubts"] for it in page.kept()], [1])
    same("the key of the same order", stage.tried("the same order again", page, page.submit, [done("petition 7")])[0], key)
    page.answer("Done: petition 7.")
    same("what is kept at the end", page.kept(), [])
    stage.relay.losses = [sent_by_proxy(429, 60)]
    stage.tried("a long wait", page, lambda: page.ask(number="0025", title="Too many"), [done("petition 8")])
    page.answer("There were too many messages from you. Wait 60 seconds. It was not acted on.")
    page.has("It was not acted on.", "#pending")
    page.button("Send it again", "#pending")
    page.has("Done: petition 8.", "#pending")


def outlives_the_server(page, stage):
    """The server is killed before an order is acted on, and after that."""
    page.write(number="0044", title="Killed")
    stage.stop(True)
    page.submit()
    page.until(lambda: stage.relay.waiting, "the order on its way")
    same("orders that are kept before an answer", len(page.kept()), 1)
    stage.kill()
    page.answer("Sending it again under the same key")
    stage.start()
    page.settles("petition 9")
    stage.relay.losses = [stage.kill]
    page.ask(number="0045", title="Killed later")
    page.answer("Sending it again under the same key")
    # it is not sent by another person who signs in meanwhile
    page.sign_in("bob")
    page.has("It may have been acted on. Sending it again cannot do it twice. The order is kept", "#news")
    page.button("Close", "#news")
    stage.start()
    page.button("Send it again", "#pending")
    page.try_to_sign_in("ann", "ann")
    page.has("Signed in as ann", "#me")
    page.settles("petition 10")
    same("the last tries", {reply.strip() for _, _, reply in stage.relay.tries[-2:]} - {""}, {done("petition 10")})
    same("who sent all orders", set(stage.relay.callers), {"ann"})


def outlives_a_reload(page, stage):
    """The page ends with an order unanswered, and the password is another one by the time it is sent again."""
    stage.relay.losses = [stage.kill]
    page.ask(number="0046", title="Kept")
    page.answer("Sending it again")
    page.driver.refresh()
    with contextlib.suppress(Exception):
        page.driver.switch_to.alert.accept()
    page.has("This order has no answer yet. It may have been acted on.", "#pending")
    page.has("ann: Ask for a number", "#pending")
    page.open("me")
    stage.start()
    key = page.kept()[0]["key"]
    stage.password("ann", "new")
    page.button("Send it again", "#pending")
    page.try_to_sign_in("ann", "ann")
    page.has("The name or the password is wrong.", "dialog")
    page.try_to_sign_in("ann", "new")
    page.settles("petition 11")
    # the view below waited for a person, and the answer stays where it is
    page.has("All orders")
    page.has("Done: petition 11.", "#pending")
    same("the key of the order", stage.relay.tries[-1][0], key)
    same("what is kept", page.kept(), [])


def has_the_password_changed(page, stage):
    """The proxy refuses the password at a second try: the first one may have been acted on, so the order is kept."""
    stage.password("ann", "new")
    page.sign_in("ann", "new")
    stage.relay.losses = [lambda: stage.password("ann", "ann")]
    stage.tried("an order with an old password", page, lambda: page.ask(number="0047", title="Unsure"), [done("petition 12")])
    page.answer("The name or the password is wrong. It may have been acted on.")
    same("an order that is kept", [it["doubts"] for it in page.kept()], [1])
    same("whether one is signed in", page.one("#sign-in").is_displayed(), True)
    page.button("Send it again", "#pending")
    page.try_to_sign_in("ann", "ann")
    page.has("Done: petition 12.", "#pending")


def has_two_windows(page, stage):
    """Two windows know of one order; one sends it at a time, and the answer in one is the answer in both."""
    first = page.driver.current_window_handle
    page.driver.switch_to.new_window("tab")
    second = page.driver.current_window_handle
    page.load()
    page.sign_in("ann")
    page.driver.switch_to.window(first)
    page.write(number="0048", title="Two windows")
    stage.stop(True)
    page.submit()
    before = len(stage.relay.tries)
    page.until(lambda: stage.relay.waiting, "the order on its way")
    page.driver.switch_to.window(second)
    page.has("This order has no answer yet.", "#pending")
    page.button("Send it again", "#pending")
    page.has("Another window is sending this order.", "#pending")
    stage.stop(False)
    page.until(lambda: not page.text("#pending"), "the answer in the other window")
    same("tries of two windows", [reply.strip() for _, _, reply in stage.relay.tries[before:]], [done("petition 13")])
    page.driver.close()
    page.driver.switch_to.window(first)
    page.answer("Done: petition 13.")


def pending(key):
    return f"#pending [data-key='{key}']"


def is_told_by_what_is_kept(page, stage):
    """What is said of a kept order follows what it met in another window. Only that one is forgotten which one names."""
    first = page.driver.current_window_handle
    stage.relay.losses = [sent_by_proxy(429, 60)] * 2
    for number, title in (("0049", "Told"), ("004a", "Other")):
        page.ask(number=number, title=title)
        page.answer("It was not acted on.")
    told, other = (next(it["key"] for it in page.kept() if title in it["body"]) for title in ("Told", "Other"))
    page.driver.switch_to.new_window("tab")
    second = page.driver.current_window_handle
    page.load()
    page.has("It was not acted on.", pending(told))
    page.driver.switch_to.window(first)
    stage.relay.losses = [0, sent_by_proxy(429, 60)]
    page.button("Send it again", pending(told))
    page.has("Wait 60 seconds. It may have been acted on.", pending(told))
    page.driver.switch_to.window(second)
    page.has("This order has no answer yet. It may have been acted on.", pending(told))
    page.button("Forget it", pending(other))
    same("what is said of an order that was never sent", "It was not acted on." in page.yes(), True)
    page.until(lambda: [it["key"] for it in page.kept()] == [told], "the order that is still kept")
    page.driver.close()
    page.driver.switch_to.window(first)
    page.button("Send it again", pending(told))
    page.has("Done: petition 14.", pending(told))


def gives_an_equal_order(page, stage):
    """Somebody else gives the order that waits: it goes out in his name, under a key of its own."""
    stage.relay.losses = [sent_by_proxy(429, 60)]
    page.ask(number="004b", title="Same")
    page.answer("It was not acted on.")
    (waiting,) = page.kept()
    page.sign_in("bob")
    page.open("do/ask?org=acme")
    page.fill(number="004b", title="Same", licence="MIT", site="https://acme.example/blinker", source="https://acme.example/src")
    page.submit()
    page.has("Only the keeper of the organisation can do this.", "#e-org")
    same("who gave the equal order", stage.relay.callers[-1], "bob")
    same("its bytes", stage.relay.tries[-1][1], waiting["body"])
    same("whether it has a key of its own", stage.relay.tries[-1][0] != waiting["key"], True)
    same("what still waits", [it["key"] for it in page.kept()], [waiting["key"]])
    page.sign_in("ann")
    page.button("Send it again", pending(waiting["key"]))
    page.has("Done: petition 16.", pending(waiting["key"]))


def tells_wherever_one_is(page, stage):
    """The answer to an order whose view is gone stands at the top."""
    page.write(number="0011", title="Elsewhere")
    stage.stop(True)
    page.submit()
    page.until(lambda: stage.relay.waiting, "the order on its way")
    page.open("do/enrol")
    stage.stop(False)
    page.has("Done: petition 18.", "#news")
    page.button("Close", "#news")
    same("what is told after that", page.text("#news"), "")
