"""The order of messages by its definition, as a second opinion: which neighbours are free, the keys, and the list in order.

A message is a pair: its side, "client" or "adapter", and its JSON value. A rule is a pair of halves, and a half is a kind and a name, or
None for any name. The definitions are those of crates/dap_order/specs/Free.antt and MessageOrder.antt."""
import json
import os
import sys

from tests.report import TOP

sys.path.insert(0, os.path.join(TOP, "scripts"))
from normalise_reference import MARKERS
from one_direction import records

# The order of classes by their first part.
RANKS = {"response": 0, "event": 1, "request": 2, "client": 3}


def swap_rules(text):
    """Returns the rules of the lines that begin with `swap`, as (kind, name) pairs. Names in quotes are not read."""
    rules = []
    for line in text.splitlines():
        words = line.split("#")[0].split()
        if words[:1] == ["swap"]:
            _, kind, name, other_kind, other_name = words
            rules.append(tuple((k, None if n == "*" else n) for k, n in ((kind, name), (other_kind, other_name))))
    return rules


def messages(recording):
    return [(side, json.loads(content)) for side, _, content in records(recording)]


def recorded(found):
    """Returns the text of messages as records, each with its canonical content."""
    contents = ((side, json.dumps(message, sort_keys=True, separators=(",", ":"), ensure_ascii=False).encode()) for side, message in found)
    return b"".join(b"%sContent-Length: %d\r\n\r\n%s\n" % (MARKERS[side], len(content), content) for side, content in contents)


def name_of(message):
    return message["event" if message["type"] == "event" else "command"]


def is_named(half, message):
    kind, name = half
    return message["type"] == kind and name in (None, name_of(message))


def is_declared(rules, x, y):
    """Some rule names one of the two by each half."""
    return any(is_named(one, a) and is_named(another, b) for one, another in rules for a, b in ((x, y), (y, x)))


def class_of(side, message):
    """Messages of one class keep their order."""
    if side == "client":
        return ("client",)
    if message["type"] == "response":
        return ("response", message["request_seq"])
    return (message["type"], name_of(message).encode())


def is_answer(x, y):
    """x is a response to the request y."""
    (side, response), (other, request) = x, y
    kinds = (response["type"], request["type"])
    return side != other and kinds == ("response", "request") and response["request_seq"] == request["seq"]


def is_exchange(x, side, kind, name):
    return x[0] == side and (x[1]["type"], name_of(x[1])) == (kind, name)


def depends(x, y):
    """The order of x and y is fixed, whatever the rules declare."""
    (_, message), (_, other) = x, y
    initializes = is_exchange(x, "client", "request", "initialize") or is_exchange(x, "adapter", "response", "initialize")
    farewell = is_exchange(x, "adapter", "response", "disconnect") and message["success"]
    return (
        class_of(*x) == class_of(*y)
        or is_answer(x, y)
        or initializes and not is_exchange(y, "adapter", "event", "output")
        or (message["type"], name_of(message)) == ("event", "initialized") and is_exchange(y, "client", "request", "configurationDone")
        or farewell and y[0] == "client" and other["type"] == "request"
    )


def is_free(rules, x, y):
    """x and y may change places if they are neighbours."""
    return is_declared(rules, x[1], y[1]) and not depends(x, y) and not depends(y, x)


def keys(found):
    """Returns the key of each message: a response to a request of the client has the number of that request, and every other message
    its class and its number in it."""
    counts, asked, listed = {}, {}, []
    for side, message in found:
        own = class_of(side, message)
        number = counts[own] = counts.get(own, -1) + 1
        if own[0] == "response" and message["request_seq"] in asked:
            listed.append((0, asked[message["request_seq"]]))
        else:
            listed.append((1, RANKS[own[0]], own[1:], number))
        if side == "client" and message["type"] == "request":
            asked.setdefault(message["seq"], number)
    return listed


def ordered(rules, found):
    """Returns the messages in order: again and again the one with the least key among those that are free with all messages before them
    that are left."""
    before = [{i for i in range(j) if not is_free(rules, found[i], found[j])} for j in range(len(found))]
    left, written, by_key = set(range(len(found))), [], keys(found)
    while left:
        least = min((j for j in left if not before[j] & left), key=by_key.__getitem__)
        left.remove(least)
        written.append(found[least])
    return written
