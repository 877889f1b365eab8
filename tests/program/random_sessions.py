"""Sessions made at random that obey the rules of a session, rules for their order, and other forms of them. Equal seeds give equal sessions."""
import itertools
import json
import os
import re
import sys

from tests.program.order_reference import is_free
from tests.report import TOP

sys.path.insert(0, os.path.join(TOP, "scripts"))
from normalise_reference import places, rename

# The names of requests of each side and of events. Some name more than one kind of message, or no message of the protocol.
REQUESTS = {
    "client": [
        "threads", "stackTrace", "scopes", "variables", "continue", "next", "pause", "evaluate", "setBreakpoints", "cancel", "launch",
        "output", "stopped", "a b", "\u00e9tat",
    ],
    "adapter": ["runInTerminal", "startDebugging", "threads", "disconnect", "configurationDone", "a b"],
}
EVENTS = [
    "stopped", "continued", "output", "thread", "breakpoint", "exited", "terminated", "initialized", "process", "continue", "initialize",
    "configurationDone", "disconnect", "a b", "\u00e9tat",
]
PLAIN = re.compile(r"[A-Za-z0-9_$-]+")


class Session:
    """A session as it grows. `found` has its messages, each with its side."""

    def __init__(self, dice, marked):
        self.dice, self.marked = dice, marked
        self.found, self.open = [], {"client": [], "adapter": []}
        step = dice.choice([1, 1, 2, 7, -1])
        self.numbers = {side: itertools.count(dice.randrange(3000, 9000), step) for side in self.open}
        # Some adapters number all events and responses 0.
        self.counts = dice.random() < 0.7
        self.configured = self.ended = False

    def number(self, side, kind):
        return next(self.numbers[side]) if side == "client" or kind == "request" or self.counts else 0

    def send(self, side, kind, name, **more):
        message = {"seq": self.number(side, kind), "type": kind, "event" if kind == "event" else "command": name, **more}
        if self.marked:
            message["mark"] = f"message {len(self.found)}"
        self.found.append((side, message))
        return message

    def ask(self, side, name):
        self.open[side].append(self.send(side, "request", name, arguments=self.arguments(side, name)))

    def answer(self, side, success=True):
        """The other side answers an open request of this side."""
        asked = self.open[side].pop(self.dice.randrange(len(self.open[side])))
        other, body = {"client": "adapter", "adapter": "client"}[side], {"body": self.body(asked["command"])} if success else {}
        self.send(other, "response", asked["command"], request_seq=asked["seq"], success=success, **body)
        self.ended |= success and side == "client" and asked["command"] == "disconnect"

    def tell(self, name):
        self.send("adapter", "event", name, body=self.event(name))

    # ---- the parts of a message

    def thread(self):
        return self.dice.randrange(1, 4)

    def frame(self):
        return self.dice.randrange(1000, 1003)

    def reference(self):
        return self.dice.choice([0, 1, 2, 3])

    def breakpoint(self):
        return {"id": self.dice.randrange(1, 4), "verified": True}

    def arguments(self, side, name):
        if name in ("stackTrace", "continue", "next", "pause"):
            return {"threadId": self.thread()}
        if name == "cancel" and self.open[side]:
            return {"requestId": self.dice.choice(self.open[side])["seq"]}
        return {
            "initialize": {"adapterID": "mock"}, "scopes": {"frameId": self.frame()}, "variables": {"variablesReference": self.reference()},
            "evaluate": {"expression": "x", "frameId": self.frame()}, "setBreakpoints": {"source": {}, "breakpoints": [{"line": 3}]},
            "runInTerminal": {"args": ["sh"], "cwd": "/"},
        }.get(name, {})

    def body(self, name):
        if name in ("initialize", "runInTerminal"):
            return {}
        return {
            "threads": {"threads": [{"id": self.thread(), "name": "t"}]},
            "stackTrace": {"stackFrames": [{"id": self.frame(), "name": "f", "line": 3, "column": 1}]},
            "scopes": {"scopes": [{"name": "s", "variablesReference": self.reference()}]},
            "variables": {"variables": [{"name": "v", "value": "1", "variablesReference": self.reference()}]},
            "evaluate": {"result": "1", "variablesReference": self.reference()},
            "setBreakpoints": {"breakpoints": [self.breakpoint()]},
        }.get(name, {})

    def event(self, name):
        return {
            "stopped": {"reason": "step", "threadId": self.thread()}, "continued": {"threadId": self.thread()}, "output": {"output": "x"},
            "thread": {"reason": "started", "threadId": self.thread()}, "breakpoint": {"reason": "changed", "breakpoint": self.breakpoint()},
            "exited": {"exitCode": 0},
        }.get(name, {})


def begin(session):
    dice = session.dice
    for _ in range(dice.choice([0, 0, 1, 2])):
        session.tell("output")
    session.ask("client", "initialize")
    for _ in range(dice.choice([0, 0, 1, 2])):
        session.tell("output")
    session.answer("client")


def step(session):
    """Sends one more message that the rules of a session allow."""
    dice, chance = session.dice, session.dice.random()
    asker = dice.choice(["client", "client", "client", "adapter"])
    if chance < 0.4 and session.open[asker]:
        session.answer(asker, success=dice.random() < 0.8)
    elif chance < 0.7:
        session.tell(dice.choice(EVENTS))
    elif asker == "adapter":
        session.ask("adapter", dice.choice(REQUESTS["adapter"]))
    elif not session.ended:
        ask_client(session)


def ask_client(session):
    dice, initialized = session.dice, any(message.get("event") == "initialized" for _, message in session.found)
    if initialized and not session.configured and dice.random() < 0.5:
        session.configured = True
        session.ask("client", "configurationDone")
    else:
        session.ask("client", "disconnect" if dice.random() < 0.04 else dice.choice(REQUESTS["client"]))


def session_of(dice, marked):
    """Returns the messages of a session. If it is marked, each of them has a member that no other has."""
    session = Session(dice, marked)
    begin(session)
    for _ in range(dice.randrange(4, 36)):
        step(session)
    return session.found


# ---- rules

def half_of(dice, found):
    """Returns the kind of a message, and its name, any name, or sometimes a name of another one."""
    (_, message), (_, other) = dice.choice(found), dice.choice(found)
    named = other if dice.random() < 0.1 else message
    name = None if dice.random() < 0.35 else named.get("event", named.get("command"))
    return message["type"], name


def rules_of(dice, found):
    """Returns some rules, no two of them the same."""
    rules = []
    for _ in range(dice.choice([0, 1, 2, 3, 4, 6])):
        one, another = half_of(dice, found), half_of(dice, found)
        if (one, another) not in rules and (another, one) not in rules:
            rules.append((one, another))
    return rules


def word_of(name):
    if name is None:
        return "*"
    return name if PLAIN.fullmatch(name) else json.dumps(name)


def lines_of(rules):
    return "".join(f"swap {one[0]} {word_of(one[1])} {another[0]} {word_of(another[1])}\n" for one, another in rules).encode()


# ---- other forms of a session

def exchanged(dice, rules, found):
    """Returns the session after random exchanges of free neighbours."""
    other = list(found)
    for _ in range(4 * len(other)):
        place = dice.randrange(len(other) - 1)
        if is_free(rules, *other[place:place + 2]):
            other[place:place + 2] = reversed(other[place:place + 2])
    return other


def forbidden(dice, rules, found):
    """Returns the session after one exchange of neighbours that are not free, or None if there are none."""
    fixed = [place for place in range(len(found) - 1) if not is_free(rules, *found[place:place + 2])]
    if not fixed:
        return None
    place = dice.choice(fixed)
    return [*found[:place], found[place + 1], found[place], *found[place + 2:]]


class Others(dict):
    """Gives each number below 100,003 another number, not 0, in another order."""

    def __init__(self, salt):
        super().__init__()
        self.salt = salt

    def setdefault(self, number, _):
        return (number * 7919 + self.salt) % 100_003 + 1


def renamed(dice, found):
    """Returns the session with other ids, by a one-to-one renaming for each kind of id."""
    names = {sort: Others(dice.randrange(100_003)) for sort in ("client", "adapter", "frame", "reference", "thread", "breakpoint")}
    return [(side, rename(names, dict(places(message, first_rows=False)), side, "", message)) for side, message in found]
