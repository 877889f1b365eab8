"""Recordings and traces that are written out by hand, and what the engines make of them by their rules. A refusal is written as Rust
writes it. No answer here comes from the program."""
from tests.program.worked_runs import (
    BEGUN, BREAKPOINTS, CANCEL, CAPABILITY, CONFIGURED, DISCONNECT, DISCONNECTED, DONE, EVALUATE, EXCHANGED_LINES, FAILED, FALSE,
    FILLED, FRAME, FRAMES, FRAMES_LINES, INITIALIZE, INITIALIZED, LAUNCH, LISTED, NEW_FRAME, NORMAL_BEGUN, NORMAL_CONFIGURED,
    NORMAL_STOPS, NORMAL_UNNUMBERED, NULL_CAPABILITY, OUTPUT, RESPONSE, RESULT, STACK, STOPPED, TERMINAL, TERMINAL_RESPONSE,
    THREADS, TWO_STOPS, UNNUMBERED, VARIABLES, frame, recording, renumbered,
)

LOOSE, CANONICAL = frame('{ "b":1,"a":2 }'), frame('{"a":2,"b":1}')
SESSION, NORMAL = recording(CONFIGURED), recording(NORMAL_CONFIGURED)
TWICE_LINES = [*BEGUN, RESPONSE]
TWICE = recording(TWICE_LINES)
STALE_FRAME = TWO_STOPS
NORMAL_PER_STOP = [*NORMAL_STOPS, FRAME % (1, 3, 5)]
NORMAL_WHOLE = [*NORMAL_STOPS, FRAME % (2, 3, 5)]

# After how many bytes each record of the configured session ends, how many requests of the client are open there, and after how many
# bytes the record of its normal form ends.
ENDS = [(0, 0, 0), (106, 1, 106), (211, 0, 1447), (281, 0, 1517), (361, 1, 1597), (473, 0, 1709)]


def last_end(place):
    """The number of records that end within so many bytes of the configured session, and their row of ENDS."""
    number = sum(at <= place for at, _, _ in ENDS) - 1
    return number, ENDS[number]


def accepted(records, client_open=0, adapter_open=0):
    """What `check` answers of a recording that it accepts."""
    return f"Ok(Checked {{ records: {records}, client_open: {client_open}, adapter_open: {adapter_open} }})"


THREE_FRAMES = [*BEGUN, STACK, (
    '<{"body":{"stackFrames":[{"column":1,"id":1000,"line":3,"name":"f"},{"column":1,"id":1001,"line":9,"name":"g"},'
    '{"column":1,"id":1002,"line":9,"name":"g"}]},"command":"stackTrace","request_seq":2,"seq":2,"success":true,"type":"response"}'
)]

THREAD_LIST = (
    '<{"body":{"threads":[{"id":%d,"name":"m"},{"id":%d,"name":"w"}]},"command":"threads","request_seq":2,"seq":2,"success":true,'
    '"type":"response"}'
)
PAUSE = '>{"arguments":{"threadId":%d},"command":"pause","seq":3,"type":"request"}'
CHANGED = '<{"body":{"breakpoint":{"id":%d,"verified":true},"reason":"changed"},"event":"breakpoint","seq":2,"type":"event"}'
STOPPED_AT = (
    '<{"body":{"hitBreakpointIds":[%d,%d],"reason":"breakpoint","threadId":%d},"event":"stopped","seq":3,"type":"event"}'
)

# Recordings and their normal forms.
NORMAL_FORMS = [
    # The example of docs/NORMAL-FORM.md.
    ([renumbered(INITIALIZE, seq=(1, 7)), renumbered(OUTPUT, seq=(1, 0))], [INITIALIZE, OUTPUT]),
    # Sequence numbers that count already, and an adapter that numbers nothing.
    (CONFIGURED, NORMAL_CONFIGURED),
    (UNNUMBERED, NORMAL_UNNUMBERED),
    # Frame ids, and the same exchanged.
    (FRAMES_LINES, [*NORMAL_BEGUN, STACK, FRAMES % (1, 2)]),
    (EXCHANGED_LINES, [*NORMAL_BEGUN, STACK, FRAMES % (1, 2)]),
    # Variables references: 0 stays.
    ([*BEGUN, VARIABLES % 9, LISTED % (5, 5, 3)], [*NORMAL_BEGUN, VARIABLES % 1, LISTED % (2, 2, 3)]),
    # A frame and a reference with names of their own.
    ([*BEGUN, EVALUATE % 5, RESULT % 6], [*NORMAL_BEGUN, EVALUATE % 1, RESULT % 1]),
    # The request that is cancelled.
    ([*BEGUN, renumbered(THREADS, seq=(2, 40)), CANCEL % (40, 41)], [*NORMAL_BEGUN, THREADS, CANCEL % (2, 3)]),
    # An event of capabilities stays; those of a response are filled in beside what no row names.
    ([*BEGUN, CAPABILITY], [*NORMAL_BEGUN, CAPABILITY]),
    ([INITIALIZE, NULL_CAPABILITY], [INITIALIZE, FILLED.replace(FALSE, FALSE + ',"x":1')]),
    # A failed response keeps what no row names.
    ([*BEGUN, STACK, FAILED], [*NORMAL_BEGUN, STACK, FAILED]),
    # Ids of threads, and of breakpoints.
    ([*BEGUN, THREADS, THREAD_LIST % (7, 4), PAUSE % 4], [*NORMAL_BEGUN, THREADS, THREAD_LIST % (1, 2), PAUSE % 2]),
    ([*BEGUN, CHANGED % 9, STOPPED_AT % (9, 12, 7)], [*NORMAL_BEGUN, CHANGED % 1, STOPPED_AT % (1, 2, 1)]),
    # No record, output before all else, and a request of the adapter.
    ([], []),
    ([OUTPUT], [OUTPUT]),
    ([*BEGUN, TERMINAL % 0, TERMINAL_RESPONSE % 0], [*NORMAL_BEGUN, TERMINAL % 2, TERMINAL_RESPONSE % 2]),
    # The least number.
    ([renumbered(INITIALIZE, seq=(1, -2**63))], [INITIALIZE]),
]

NO_THREAD = '>{"arguments":{},"command":"stackTrace","seq":2,"type":"request"}'
TOO_LARGE = '>{"seq":9223372036854775808,"type":"event"}'

# Recordings that are refused, the lines of the normal text that is written, and why.
REFUSED_CONTENTS = [
    ([*BEGUN, LAUNCH % "0.5"], NORMAL_BEGUN, "Fraction(3)"),
    # A number with an exponent, though it is whole.
    ([*BEGUN, BREAKPOINTS % "1e3"], NORMAL_BEGUN, "Fraction(3)"),
    # The same with a whole number has no source.
    ([*BEGUN, BREAKPOINTS % "3"], NORMAL_BEGUN, "Message(3, Missing(13))"),
    # A stack is asked for, and of no thread.
    ([*BEGUN, NO_THREAD], NORMAL_BEGUN, "Message(3, Missing(141))"),
    (TWICE_LINES, NORMAL_BEGUN, "Rule(3, AnsweredTwice)"),
    # An event before all else.
    ([STOPPED], [], "Rule(1, NotInitialized)"),
    # Contents that are no messages.
    ([">[]"], [], "Message(1, NotObject)"),
    ([">{}"], [], "Message(1, UnknownType)"),
    (['>{"type":"request"}'], [], "Message(1, Missing(1))"),
    ([TOO_LARGE], [], "Message(1, WrongType(1))"),
]

# Bytes that are no record, and why. A content that is too long is reported without waiting for it.
TOO_LONG = b">Content-Length: 16777217\r\n\r\n"
NO_LINE_END = b">" + frame("{}") + b"x"
REFUSED_RECORDS = [
    (b">", "Cut"), (TOO_LONG, "Frame(ContentTooLong)"), (b"<X: 1\r\n\r\n", "Frame(NoLength)"), (b"!", "BadMarker"),
    (NO_LINE_END, "NoLineEnd"),
]

# Lines that are refused after the start of a session, and why.
REFUSED_LINES = [
    (LAUNCH % "0.5", "Fraction(3)"), (BREAKPOINTS % "1e3", "Fraction(3)"), (BREAKPOINTS % "3", "Message(3, Missing(13))"),
    (">", "Json(3)"), ('>{"seq":2,]', "Json(3)"), ('>{"command":7,"seq":2,"type":"request"}', "Message(3, WrongType(2))"),
]

# Contents of the client that are no messages, and why.
REFUSED_ENVELOPES = [
    (">[]", "NotObject"), (">{}", "UnknownType"), ('>{"type":"request"}', "Missing(1)"), (TOO_LARGE, "WrongType(1)"),
]

# Sessions that are accepted.
OPEN = [*BEGUN, THREADS]
OPEN_ON_BOTH_SIDES = [*OPEN, TERMINAL % 0]
FAILED_LINES = [*BEGUN, STACK, FAILED]
LEAST = [renumbered(INITIALIZE, seq=(1, -2**63))]
CONFIGURING = [*BEGUN, INITIALIZED, DONE]
SESSIONS = [
    OPEN, OPEN_ON_BOTH_SIDES, FAILED_LINES, LEAST, FRAMES_LINES, EXCHANGED_LINES, UNNUMBERED, STALE_FRAME, NEW_FRAME, THREE_FRAMES,
    CONFIGURING,
]

# Lines that break no rule of a session, and a line that breaks one after them.
BROKEN_ALONE = [
    (BEGUN, ">" + INITIALIZED[1:]),
    ([], STOPPED),
    ([INITIALIZE], THREADS),
    (BEGUN, renumbered(INITIALIZE, seq=(1, 3))),
    ([*BEGUN, DISCONNECT, DISCONNECTED], renumbered(THREADS, seq=(2, 3))),
    (BEGUN, renumbered(THREADS, seq=(2, 1))),
    (BEGUN, DONE),
    (CONFIGURED, renumbered(DONE, seq=(2, 3))),
    (BEGUN, RESPONSE.replace('"request_seq":1', '"request_seq":9')),
    (BEGUN, RESPONSE),
    (OPEN, RESPONSE.replace('"request_seq":1', '"request_seq":2')),
]

# A recording that differs from the configured session at the third record, and is no recording after it.
FAULTY_AFTER_A_DIFFERENCE = recording(UNNUMBERED[:4]) + b"!"
# A recording whose second record is no message, whose third breaks a rule, and bytes after that are no record.
SEVERAL_FAULTS = recording([INITIALIZE, "<[]", RESPONSE]) + b"!"


def nested(levels, lines=BEGUN):
    """A recording whose third record has so many lists in one another."""
    return recording([*lines, LAUNCH % ("[" * levels + "]" * levels)])


def worked():
    """The recordings of the tests of `normalise`, `check` and `compare`."""
    lines = [each for both in NORMAL_FORMS for each in both]
    lines += [each for each, _, _ in REFUSED_CONTENTS]
    lines += [[*BEGUN, line] for line, _ in REFUSED_LINES]
    lines += [[line] for line, _ in REFUSED_ENVELOPES]
    later = [[*before, line] for before, line in BROKEN_ALONE] + SESSIONS
    texts = [text for text, _ in REFUSED_RECORDS]
    return [
        *map(recording, lines), *texts, *map(recording, later), FAULTY_AFTER_A_DIFFERENCE, SEVERAL_FAULTS, nested(125), nested(126),
    ]
