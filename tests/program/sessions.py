"""Checks the rules of a session, each alone and against the rules that come after it, and the numbers of open requests."""
import sys

from tests.program.asked import asks, judged, refuses
from tests.program.worked_runs import (
    BEGUN, CONFIGURED, DISCONNECT, DISCONNECTED, DONE, DONE_RESPONSE, INITIALIZE, INITIALIZED, OUTPUT, RESPONSE, STOPPED, TERMINAL,
    TERMINAL_RESPONSE, THREADS, recording, renumbered,
)

INITIALIZE_AGAIN = renumbered(INITIALIZE, seq=(1, 2))
THREADS_FIRST, THREADS_THIRD = renumbered(THREADS, seq=(2, 1)), renumbered(THREADS, seq=(2, 3))
RUN_IN_TERMINAL, RUN_IN_TERMINAL_RESPONSE = TERMINAL % 0, TERMINAL_RESPONSE % 0
DISCONNECT_FAILED = DISCONNECTED.replace('"success":true', '"success":false')
CLIENT_INITIALIZED = '>{"event":"initialized","seq":2,"type":"event"}'
CLIENT_OUTPUT = '>{"body":{"output":"hi"},"event":"output","seq":1,"type":"event"}'
CLIENT_RUN_IN_TERMINAL = '>{"arguments":{"args":["sh"],"cwd":"/"},"command":"runInTerminal","seq":0,"type":"request"}'
ADAPTER_INITIALIZE = '<{"arguments":{"adapterID":"mock"},"command":"initialize","seq":1,"type":"request"}'
CONFIGURED_AGAIN = '>{"command":"configurationDone","seq":3,"type":"request"}'
TO_NONE = '<{"command":"initialize","request_seq":9,"seq":1,"success":true,"type":"response"}'
CLIENT_TO_ITSELF = '>{"command":"threads","request_seq":2,"seq":3,"success":false,"type":"response"}'
OTHER_AGAIN = '<{"command":"threads","request_seq":1,"seq":2,"success":false,"type":"response"}'
ANSWERED_OTHERWISE = '<{"command":"initialize","request_seq":2,"seq":1,"success":true,"type":"response"}'
ENDED = [*BEGUN, DISCONNECT, DISCONNECTED]

RULES = [
    "EventFromClient", "NotInitialized", "StillInitializing", "InitializeTwice", "AfterDisconnect", "SeqUsed", "ConfiguredEarly",
    "ConfiguredTwice", "NoRequest", "AnsweredTwice", "OtherCommand",
]

# Lines of which the last breaks this rule, and the others break none.
BROKEN = {
    "event of the client": [
        ([CLIENT_INITIALIZED], "EventFromClient"),
        ([*BEGUN, CLIENT_INITIALIZED], "EventFromClient"),
        ([*BEGUN, CLIENT_OUTPUT], "EventFromClient"),
    ],
    "before initialize": [
        ([STOPPED], "NotInitialized"),
        ([THREADS], "NotInitialized"),
        ([RUN_IN_TERMINAL], "NotInitialized"),
        ([ADAPTER_INITIALIZE], "NotInitialized"),
        # It also answers no request, which is a later rule.
        ([RESPONSE], "NotInitialized"),
    ],
    "while initialize has no response": [
        ([INITIALIZE, THREADS], "StillInitializing"),
        ([INITIALIZE, STOPPED], "StillInitializing"),
        ([INITIALIZE, INITIALIZED], "StillInitializing"),
        ([INITIALIZE, RUN_IN_TERMINAL], "StillInitializing"),
        # A second `initialize`, and a response to no request, also break a later rule.
        ([INITIALIZE, INITIALIZE_AGAIN], "StillInitializing"),
        ([INITIALIZE, RUN_IN_TERMINAL_RESPONSE], "StillInitializing"),
        # A response of the adapter is checked by the rules on responses.
        ([INITIALIZE, DONE_RESPONSE], "NoRequest"),
    ],
    "initialize twice": [
        ([*BEGUN, INITIALIZE_AGAIN], "InitializeTwice"),
        # Its `seq` is used, which is a later rule.
        ([*BEGUN, INITIALIZE], "InitializeTwice"),
        ([*BEGUN, ADAPTER_INITIALIZE], "InitializeTwice"),
    ],
    "after disconnect": [
        ([*ENDED, THREADS_THIRD], "AfterDisconnect"),
        # Its `seq` is used, which is a later rule.
        ([*ENDED, THREADS_FIRST], "AfterDisconnect"),
    ],
    "number of an earlier request": [
        ([*BEGUN, THREADS_FIRST], "SeqUsed"),
        # It comes too early, or for the second time, which are later rules.
        ([*BEGUN, THREADS, DONE], "SeqUsed"),
        ([*BEGUN, INITIALIZED, DONE, DONE], "SeqUsed"),
    ],
    "configured too early and twice": [
        ([*BEGUN, DONE], "ConfiguredEarly"),
        ([*CONFIGURED, CONFIGURED_AGAIN], "ConfiguredTwice"),
    ],
    "response to no request": [
        ([*BEGUN, TO_NONE], "NoRequest"),
        # The request of that number is one of its own side.
        ([*BEGUN, THREADS, CLIENT_TO_ITSELF], "NoRequest"),
    ],
    "second response": [
        ([*BEGUN, RESPONSE], "AnsweredTwice"),
        # Its command is another, which is a later rule.
        ([*BEGUN, OTHER_AGAIN], "AnsweredTwice"),
    ],
    "response with another command": [([*BEGUN, THREADS, ANSWERED_OTHERWISE], "OtherCommand")],
}

# Lines that are accepted, and how many requests of the client and of the adapter are open after them.
OPEN = {
    "after disconnect": [
        ([*BEGUN, DISCONNECT, DISCONNECT_FAILED, THREADS_THIRD], 1, 0),
        ([*ENDED, STOPPED, RUN_IN_TERMINAL], 0, 1),
    ],
    # Each side counts its own messages, and events and responses may repeat a number.
    "repeated numbers": [([*BEGUN, STOPPED, STOPPED, RUN_IN_TERMINAL, CLIENT_RUN_IN_TERMINAL], 1, 1)],
    "output at any time": [
        ([OUTPUT], 0, 0),
        ([OUTPUT, INITIALIZE, OUTPUT, RESPONSE, OUTPUT, DISCONNECT, DISCONNECTED, OUTPUT], 0, 0),
    ],
    "open requests": [
        ([], 0, 0),
        ([INITIALIZE], 1, 0),
        ([*BEGUN, THREADS], 1, 0),
        (CONFIGURED, 0, 0),
        ([*BEGUN, THREADS, RUN_IN_TERMINAL], 1, 1),
        ([*BEGUN, THREADS, RUN_IN_TERMINAL, RUN_IN_TERMINAL_RESPONSE], 1, 0),
    ],
}


def broken_rules(report):
    for name, rows in BROKEN.items():
        for number, (lines, rule) in enumerate(rows, 1):
            refuses(report, f"{name}, row {number}", ["check"], recording(lines), f"record {len(lines)}: {rule}")
    named = {rule for rows in BROKEN.values() for _, rule in rows}
    report.check("each rule is broken", named == set(RULES), repr(named))


def accepts(report, name, lines, client, adapter):
    """Checks that the lines are accepted, and that `--complete` refuses them if a request is open."""
    told = b"accepted records=%d open=%d,%d\n" % (len(lines), client, adapter)
    asks(report, name, ["check"], recording(lines), (0, told, b""))
    if client + adapter == 0:
        asks(report, f"{name}, complete", ["check", "--complete"], recording(lines), (0, told, b""))
    else:
        refuses(report, f"{name}, complete", ["check", "--complete"], recording(lines), f"incomplete: {client} client, {adapter} adapter")


def open_requests(report):
    for name, rows in OPEN.items():
        for number, (lines, client, adapter) in enumerate(rows, 1):
            accepts(report, f"{name}, accepted row {number}", lines, client, adapter)


def number_at(place):
    """Returns even numbers up from 2, and odd ones down from -1."""
    return place + 2 if place % 2 == 0 else -place


def many_requests(report):
    """Sends a hundred thousand requests, and then the number of the last one or of the first one again."""
    asked = [f'>{{"command":"threads","seq":{number_at(place)},"type":"request"}}' for place in range(100_000)]
    lines = [*BEGUN, *asked]
    report.check("each request has a number of its own", len(set(asked)) == 100_000 and asked[0] == THREADS)
    asks(report, "many requests", ["check"], recording(lines), (0, b"accepted records=100002 open=100000,0\n", b""))
    for name, again in (("the last number", asked[99_999]), ("the first number", THREADS)):
        refuses(report, f"many requests, {name} again", ["check"], recording([*lines, again]), "record 100003: SeqUsed")


if __name__ == "__main__":
    sys.exit(judged(broken_rules, open_requests, many_requests))
