"""Checks which row of the profile a message breaks first, which of its numbers are ids, and what its normal form fills in.

In a row, `<frame 5>` is the number 5 at a place where the profile has a frame id. The program renames these numbers and no other."""
import re
import sys

from tests.program.asked import asks, asks_of_files, judged, refuses
from tests.program.worked_runs import (
    BEGUN, CAPABILITY, FAILED, FALSE, FILLED, INITIALIZE, NORMAL_BEGUN, NULL_CAPABILITY, RESPONSE, STACK, normal_of, recording,
)

KINDS = ["client-seq", "adapter-seq", "frame", "reference", "thread", "breakpoint"]
ID = re.compile(f"<({'|'.join(KINDS)}) (-?[0-9]+)>")

# Messages, and the fault of each.
REFUSED = {
    "no message": [
        (">[]", "NotObject"),
        (">{}", "UnknownType"),
        ('>{"type":"reply"}', "UnknownType"),
        ('>{"type":"request"}', "Missing row 1"),
        ('>{"seq":9223372036854775808,"type":"event"}', "WrongType row 1"),
    ],
    "least broken row": [
        (
            '<{"body":{"variables":[{"name":"a","value":1,"variablesReference":0},{"value":"1"}]},"command":"variables",'
            '"request_seq":2,"seq":2,'
            '"success":true,"type":"response"}',
            "Missing row 75",
        ),
        (
            '<{"body":{"result":"1"},"command":"evaluate","request_seq":2,"seq":2,"success":true,"type":"response"}',
            "Missing row 80",
        ),
    ],
    # A row that is reached later, in a later element or after a later member, may have a lower number.
    "least of several broken rows": [
        (
            '>{"arguments":{"breakpoints":[{"line":"1"},2],"source":{}},"command":"setBreakpoints","seq":1,"type":"request"}',
            "WrongType row 15",
        ),
        (
            '>{"arguments":{"breakpoints":[{"line":"1"},2]},"command":"setBreakpoints","type":"request"}',
            "Missing row 1",
        ),
        (
            '<{"body":{"stackFrames":[{"column":"1","id":1,"line":1,"name":"a"},{"column":1,"line":1,"name":"b"}],"totalFrames":"2"},'
            '"command":"stackTrace","request_seq":2,"seq":2,"success":true,"type":"response"}',
            "Missing row 62",
        ),
        (
            '<{"body":{"stackFrames":[{"column":1,"id":1,"line":1,"name":"a"}],"totalFrames":"2"},"command":"stackTrace",'
            '"request_seq":2,"seq":2,'
            '"success":true,"type":"response"}',
            "WrongType row 66",
        ),
        (
            '<{"body":{"supportSuspendDebuggee":1,"supportsLogPoints":1},"command":"initialize","message":1,"request_seq":1,"seq":1,'
            '"success":true,"type":"response"}',
            "WrongType row 7",
        ),
    ],
    "arguments of scopes": [
        ('>{"command":"scopes","seq":2,"type":"request"}', "Missing row 20"),
        ('>{"arguments":null,"command":"scopes","seq":2,"type":"request"}', "WrongType row 20"),
        ('>{"arguments":{},"command":"scopes","seq":2,"type":"request"}', "Missing row 21"),
    ],
    "breakpoints to set": [
        ('>{"arguments":{"breakpoints":[null],"source":{}},"command":"setBreakpoints","seq":2,"type":"request"}', "WrongType row 15"),
        ('>{"arguments":{"breakpoints":[{"line":3}]},"command":"setBreakpoints","seq":2,"type":"request"}', "Missing row 13"),
    ],
    "ids of threads": [
        ('>{"arguments":{},"command":"stackTrace","seq":2,"type":"request"}', "Missing row 141"),
        ('>{"command":"next","seq":2,"type":"request"}', "Missing row 144"),
        ('>{"arguments":{"threadId":null},"command":"continue","seq":2,"type":"request"}', "WrongType row 143"),
        (
            '<{"body":{"threads":[{"id":7,"name":"m"},{"name":"w"}]},"command":"threads","request_seq":2,"seq":2,"success":true,'
            '"type":"response"}',
            "Missing row 140",
        ),
        ('>{"arguments":{"threadId":"1"},"command":"goto","seq":2,"type":"request"}', "WrongType row 161"),
        ('>{"arguments":{"threadIds":[1,null]},"command":"terminateThreads","seq":2,"type":"request"}', "WrongType row 166"),
    ],
    "ids of breakpoints": [
        ('<{"body":{"breakpoint":{"id":"9"}},"event":"breakpoint","seq":2,"type":"event"}', "WrongType row 172"),
        ('<{"body":{"breakpoint":[]},"event":"breakpoint","seq":2,"type":"event"}', "WrongType row 171"),
        (
            '<{"body":{"hitBreakpointIds":[null],"reason":"breakpoint"},"event":"stopped","seq":3,"type":"event"}',
            "WrongType row 169",
        ),
        (
            '<{"body":{"breakpoints":[{"id":1},2]},"command":"setFunctionBreakpoints","request_seq":2,"seq":3,"success":true,'
            '"type":"response"}',
            "WrongType row 175",
        ),
        (
            '<{"body":{"breakpoints":[{"id":1},{"id":9223372036854775808}]},"command":"setInstructionBreakpoints","request_seq":2,'
            '"seq":3,'
            '"success":true,"type":"response"}',
            "WrongType row 184",
        ),
        (
            '<{"body":{"breakpoints":[{"id":"5"}]},"command":"setExceptionBreakpoints","request_seq":2,"seq":3,"success":true,'
            '"type":"response"}',
            "WrongType row 188",
        ),
    ],
    "capabilities of an adapter": [
        ('<{"body":[],"command":"initialize","request_seq":1,"seq":1,"success":true,"type":"response"}', "WrongType row 50"),
        (
            '<{"body":{"supportsStepBack":1},"command":"initialize","request_seq":1,"seq":1,"success":true,"type":"response"}',
            "WrongType row 133",
        ),
    ],
}

MARKED_BEGUN = [
    '>{"arguments":{"adapterID":"mock"},"command":"initialize","seq":<client-seq 1>,"type":"request"}',
    '<{"command":"initialize","request_seq":<client-seq 1>,"seq":<adapter-seq 1>,"success":true,"type":"response"}',
]


def request(command, arguments="{}"):
    """Returns a request of the client that the response of a row answers."""
    return f'>{{"arguments":{arguments},"command":"{command}","seq":<client-seq 2>,"type":"request"}}'


MARKED_STACK = request("stackTrace", '{"threadId":<thread 1>}')
MARKED_VARIABLES = request("variables", '{"variablesReference":<reference 9>}')
MARKED_EVALUATE = request("evaluate", '{"expression":"x"}')
MARKED_TERMINAL = '<{"arguments":{"args":["sh"],"cwd":"/"},"command":"runInTerminal","seq":<adapter-seq 0>,"type":"request"}'

# Lines that come between the response to `initialize` and a message, and the message.
MARKED = {
    "least broken row": [
        (
            [MARKED_VARIABLES],
            '<{"body":{"variables":[{"name":"a","value":1,"variablesReference":0},{"value":"1"}]},"command":"variables",'
            '"request_seq":<client-seq 2>,"seq":<adapter-seq 2>,"success":false,"type":"response"}',
        ),
    ],
    # Each element of a list, and each of two members side by side.
    "ids of several places": [
        (
            [],
            '>{"arguments":{"frameId":<frame 5>,"name":"a","variablesReference":<reference 6>},"command":"dataBreakpointInfo",'
            '"seq":<client-seq 2>,"type":"request"}',
        ),
        (
            [MARKED_STACK],
            '<{"body":{"stackFrames":[{"column":1,"id":<frame 8>,"line":1,"name":"a"},{"column":1,"id":<frame 0>,"line":1,"name":"b"},'
            '{"column":1,"id":<frame 9>,"line":1,"name":"c"}],"totalFrames":3},"command":"stackTrace","request_seq":<client-seq 2>,'
            '"seq":<adapter-seq 3>,"success":true,"type":"response"}',
        ),
        (
            [MARKED_VARIABLES],
            '<{"body":{"variables":[{"name":"a","value":"1","variablesReference":0},{"name":"b","value":"2",'
            '"variablesReference":<reference 7>}]},'
            '"command":"variables","request_seq":<client-seq 2>,"seq":<adapter-seq 3>,"success":true,"type":"response"}',
        ),
    ],
    "ids in the order of the text": [
        (
            [],
            '>{"arguments":{"expression":"x","frameId":<frame 5>},"command":"evaluate","seq":<client-seq 2>,"type":"request"}',
        ),
        (
            [MARKED_EVALUATE],
            '<{"body":{"result":"1","variablesReference":<reference 6>},"command":"evaluate","request_seq":<client-seq 2>,'
            '"seq":<adapter-seq 2>,'
            '"success":true,"type":"response"}',
        ),
        (
            [],
            '>{"arguments":{"expression":"x","frameId":null},"command":"evaluate","seq":<client-seq 2>,"type":"request"}',
        ),
        (
            [],
            '>{"arguments":{"requestId":<client-seq 40>},"command":"cancel","seq":<client-seq 41>,"type":"request"}',
        ),
        (
            [MARKED_TERMINAL],
            '>{"command":"runInTerminal","request_seq":<adapter-seq 0>,"seq":<client-seq 2>,"success":true,"type":"response"}',
        ),
        (
            [],
            '<{"body":{"requestId":<client-seq 7>},"event":"progressStart","seq":<adapter-seq 3>,"type":"event"}',
        ),
    ],
    "a reference of zero is no id": [
        (
            [MARKED_VARIABLES],
            '<{"body":{"variables":[{"name":"a","value":"1","variablesReference":0},{"name":"b","value":"1",'
            '"variablesReference":<reference 5>},'
            '{"name":"c","value":"1","variablesReference":0},{"name":"d","value":"1","variablesReference":<reference 5>},'
            '{"name":"e","value":"1","variablesReference":<reference 3>}]},"command":"variables","request_seq":<client-seq 2>,'
            '"seq":<adapter-seq 2>,"success":true,"type":"response"}',
        ),
    ],
    "ids of threads": [
        (
            [request("threads")],
            '<{"body":{"threads":[{"id":<thread 7>,"name":"m"},{"id":<thread 4>,"name":"w"}]},"command":"threads",'
            '"request_seq":<client-seq 2>,'
            '"seq":<adapter-seq 2>,"success":true,"type":"response"}',
        ),
        ([], '>{"arguments":{"threadId":<thread 4>},"command":"pause","seq":<client-seq 3>,"type":"request"}'),
        ([], '>{"arguments":{"threadId":<thread 0>},"command":"next","seq":<client-seq 3>,"type":"request"}'),
        (
            [],
            '>{"arguments":{"threadIds":[<thread 3>,<thread 0>,<thread -1>]},"command":"terminateThreads","seq":<client-seq 3>,'
            '"type":"request"}',
        ),
        ([], '<{"body":{"reason":"started","threadId":<thread 7>},"event":"thread","seq":<adapter-seq 3>,"type":"event"}'),
        ([], '<{"body":{"threadId":null},"event":"continued","seq":<adapter-seq 3>,"type":"event"}'),
        ([], '>{"command":"stepBack","seq":<client-seq 3>,"type":"request"}'),
    ],
    "ids of breakpoints": [
        (
            [],
            '<{"body":{"breakpoint":{"id":<breakpoint 9>,"verified":true},"reason":"changed"},"event":"breakpoint","seq":<adapter-seq 2>,'
            '"type":"event"}',
        ),
        (
            [],
            '<{"body":{"hitBreakpointIds":[<breakpoint 9>,<breakpoint 12>],"reason":"breakpoint","threadId":<thread 7>},'
            '"event":"stopped",'
            '"seq":<adapter-seq 3>,"type":"event"}',
        ),
        (
            [request("setBreakpoints", '{"source":{}}')],
            '<{"body":{"breakpoints":[{"id":<breakpoint 0>,"verified":true},{"verified":false}]},"command":"setBreakpoints",'
            '"request_seq":<client-seq 2>,"seq":<adapter-seq 3>,"success":true,"type":"response"}',
        ),
        (
            [request("setExceptionBreakpoints")],
            '<{"body":{"breakpoints":[{"id":<breakpoint 5>}]},"command":"setExceptionBreakpoints","request_seq":<client-seq 2>,'
            '"seq":<adapter-seq 3>,"success":true,"type":"response"}',
        ),
        (
            [request("setDataBreakpoints")],
            '<{"command":"setDataBreakpoints","request_seq":<client-seq 2>,"seq":<adapter-seq 3>,"success":true,"type":"response"}',
        ),
        (
            [],
            '<{"body":{"breakpoint":{"verified":true},"reason":"removed"},"event":"breakpoint","seq":<adapter-seq 2>,"type":"event"}',
        ),
    ],
    "members and messages that no row names": [
        ([], '>{"arguments":{"frameId":[1,2]},"command":"ownRequest","extra":null,"seq":<client-seq -3>,"type":"request"}'),
    ],
}

LEAST = '>{"arguments":{"adapterID":"mock"},"command":"initialize","seq":<client-seq -9223372036854775808>,"type":"request"}'

# Sessions, and the normal form of each: the program fills in the capabilities of a successful response to `initialize`, and nothing else.
FILLED_AND_MORE = FILLED.replace(FALSE, FALSE + ',"x":1')
FAILED_INITIALIZE = RESPONSE.replace('"success":true', '"success":false')
NO_BREAKPOINTS = '>{"arguments":{"breakpoints":null,"source":{}},"command":"setBreakpoints","seq":2,"type":"request"}'
NORMAL = {
    "no body": ([INITIALIZE, RESPONSE], [INITIALIZE, FILLED]),
    "a body of null": ([INITIALIZE, RESPONSE.replace("<{", '<{"body":null,')], [INITIALIZE, FILLED]),
    "a capability of null": ([INITIALIZE, NULL_CAPABILITY], [INITIALIZE, FILLED_AND_MORE]),
    "a failed response": ([INITIALIZE, FAILED_INITIALIZE], [INITIALIZE, FAILED_INITIALIZE]),
    "a capabilities event": ([*BEGUN, CAPABILITY], [*NORMAL_BEGUN, CAPABILITY]),
    "breakpoints of null": ([*BEGUN, NO_BREAKPOINTS], [*NORMAL_BEGUN, NO_BREAKPOINTS]),
    "members that no row names": ([*BEGUN, STACK, FAILED], [*NORMAL_BEGUN, STACK, FAILED]),
}


def refused_messages(report):
    for name, rows in REFUSED.items():
        for number, (line, fault) in enumerate(rows, 1):
            refuses(report, f"{name}, refused row {number}", ["check"], recording([line]), f"record 1: {fault}")


def raw(line):
    """Returns the line with its ids as plain numbers."""
    return ID.sub(r"\2", line)


def named(lines):
    """Returns the lines with a name in place of each id, and the names, which count from 1 for each kind by first appearance."""
    names = {kind: {} for kind in KINDS}

    def name(found):
        numbers = names[found[1]]
        return str(numbers.setdefault(int(found[2]), len(numbers) + 1))

    return [ID.sub(name, line) for line in lines], names


def has_ids(report, title, lines):
    """Checks that `normalise` renames the ids of the lines alone, and that `compare` prints each one once, by its kind."""
    session = recording(map(raw, lines))
    texts, names = named(lines)
    asks(report, f"{title}, normal form", ["normalise"], session, (0, recording(normal_of(texts)), b""))
    pairs = "same\n" + "".join(f"{kind} {number} {number}\n" for kind in KINDS for number in names[kind])
    asks_of_files(report, f"{title}, ids", ["compare", "a", "b"], {"a": session, "b": session}, b"", (0, pairs.encode(), b""))


def marked_messages(report):
    for name, rows in MARKED.items():
        for number, (before, line) in enumerate(rows, 1):
            has_ids(report, f"{name}, row {number}", [*MARKED_BEGUN, *before, line])
    has_ids(report, "the least sequence number", [LEAST])


def kept_and_filled_in(report):
    lengths = len(FILLED) - 1, len(FILLED_AND_MORE) - 1
    report.check("the filled responses have 1,315 and 1,321 bytes", lengths == (1315, 1321), repr(lengths))
    for name, (lines, normal) in NORMAL.items():
        asks(report, f"{name}, normal form", ["normalise"], recording(lines), (0, recording(normal), b""))


if __name__ == "__main__":
    sys.exit(judged(refused_messages, marked_messages, kept_and_filled_in))
