"""Orders of a maker over HTTP, as request lines, and the limits of a message."""

from lib.serving import done

LINK = "https://acme.example/"
ENROL = {"caller": "ann", "key": "k1", "order": "enrol", "org": "acme", "title": "Acme Tools", "site": LINK}
ENROLLED = done("enrolled acme")
# The greatest numbers of bytes of a message's head, of an order and of a list.
HEAD, ORDER, LIST = 8192, 16384, 4194304


def asked(key, order, caller="ann", **fields):
    return {"caller": caller, "key": key, "order": order, **fields}


def ask(key, **fields):
    return asked(key, "ask", **{"org": "acme", "title": "Lamp", "licence": "MIT", "site": LINK, "source": LINK, **fields})
