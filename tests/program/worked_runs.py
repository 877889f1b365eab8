"""Worked runs of each command: sessions, frames and traces written out by hand, and what the program makes of each by its rules. No answer
here comes from the program."""
import os
import sys
from typing import NamedTuple

from tests.report import TOP

sys.path.insert(0, os.path.join(TOP, "scripts"))
from normalise_reference import CAPABILITIES


class Run(NamedTuple):
    """The words of a command, its input, the files that it names, and its status, output and errors."""
    name: str
    arguments: list
    given: bytes
    files: dict
    answer: tuple


def frame(content):
    return b"Content-Length: %d\r\n\r\n%s" % (len(content.encode()), content.encode())


def record(line):
    """The record of a line: a marker and a content."""
    return line[:1].encode() + frame(line[1:]) + b"\n"


def recording(lines):
    return b"".join(map(record, lines))


def refusal(text):
    return f"dapnorm: {text}\n".encode()


FALSE = ",".join(f'"{name}":false' for name in CAPABILITIES)
INITIALIZE = '>{"arguments":{"adapterID":"mock"},"command":"initialize","seq":1,"type":"request"}'
RESPONSE = '<{"command":"initialize","request_seq":1,"seq":1,"success":true,"type":"response"}'
FILLED = '<{"body":{%s},"command":"initialize","request_seq":1,"seq":1,"success":true,"type":"response"}' % FALSE
INITIALIZED = '<{"event":"initialized","seq":2,"type":"event"}'
DONE = '>{"command":"configurationDone","seq":2,"type":"request"}'
DONE_RESPONSE = '<{"command":"configurationDone","request_seq":2,"seq":3,"success":true,"type":"response"}'
THREADS = '>{"command":"threads","seq":2,"type":"request"}'
STACK = '>{"arguments":{"threadId":1},"command":"stackTrace","seq":2,"type":"request"}'
FRAMES = (
    '<{"body":{"stackFrames":[{"column":1,"id":%d,"line":3,"name":"f"},{"column":1,"id":%d,"line":9,"name":"g"}]},'
    '"command":"stackTrace","request_seq":2,"seq":2,"success":true,"type":"response"}'
)
FRAME = (
    '<{"body":{"stackFrames":[{"column":1,"id":%d,"line":3,"name":"f"}]},"command":"stackTrace","request_seq":%d,"seq":%d,'
    '"success":true,"type":"response"}'
)
STOPPED = '<{"body":{"reason":"step"},"event":"stopped","seq":2,"type":"event"}'
OUTPUT = '<{"body":{"output":"hi"},"event":"output","seq":1,"type":"event"}'
VARIABLES = '>{"arguments":{"variablesReference":%d},"command":"variables","seq":2,"type":"request"}'
LISTED = (
    '<{"body":{"variables":[{"name":"a","value":"1","variablesReference":0},{"name":"b","value":"1","variablesReference":%d},'
    '{"name":"c","value":"1","variablesReference":0},{"name":"d","value":"1","variablesReference":%d},'
    '{"name":"e","value":"1","variablesReference":%d}]},"command":"variables","request_seq":2,"seq":2,"success":true,"type":"response"}'
)
EVALUATE = '>{"arguments":{"expression":"x","frameId":%d},"command":"evaluate","seq":2,"type":"request"}'
RESULT = '<{"body":{"result":"1","variablesReference":%d},"command":"evaluate","request_seq":2,"seq":2,"success":true,"type":"response"}'
CANCEL = '>{"arguments":{"requestId":%d},"command":"cancel","seq":%d,"type":"request"}'
CAPABILITY = '<{"body":{"capabilities":{"supportsStepBack":true}},"event":"capabilities","seq":2,"type":"event"}'
NULL_CAPABILITY = (
    '<{"body":{"supportsStepBack":null,"x":1},"command":"initialize","request_seq":1,"seq":1,"success":true,"type":"response"}'
)
FAILED = (
    '<{"body":{"error":{"format":"gone","id":7}},"command":"stackTrace","message":"gone","request_seq":2,"seq":2,"success":false,'
    '"type":"response"}'
)
TERMINAL = '<{"arguments":{"args":["sh"],"cwd":"/"},"command":"runInTerminal","seq":%d,"type":"request"}'
TERMINAL_RESPONSE = '>{"command":"runInTerminal","request_seq":%d,"seq":2,"success":true,"type":"response"}'
DISCONNECT = '>{"command":"disconnect","seq":2,"type":"request"}'
DISCONNECTED = '<{"command":"disconnect","request_seq":2,"seq":2,"success":true,"type":"response"}'
LAUNCH = '>{"arguments":{"x":%s},"command":"launch","seq":2,"type":"request"}'
BREAKPOINTS = '>{"arguments":{"breakpoints":[{"line":%s}]},"command":"setBreakpoints","seq":2,"type":"request"}'
THREAD_LIST = (
    '<{"body":{"threads":[{"id":%d,"name":"m"},{"id":%d,"name":"w"}]},"command":"threads","request_seq":2,"seq":2,"success":true,'
    '"type":"response"}'
)
PAUSE = '>{"arguments":{"threadId":%d},"command":"pause","seq":3,"type":"request"}'
PAUSED = '%s{"command":"pause","request_seq":%d,"seq":%d,"success":true,"type":"response"}'
CHANGED = '<{"body":{"breakpoint":{"id":%d,"verified":true},"reason":"changed"},"event":"breakpoint","seq":2,"type":"event"}'
STOPPED_AT = '<{"body":{"hitBreakpointIds":[%d,%d],"reason":"breakpoint","threadId":%d},"event":"stopped","seq":3,"type":"event"}'
POINTERS = (
    '<{"body":{"variables":[{"name":"p","value":"%s","variablesReference":0},{"name":"q","value":"%s","variablesReference":0}]},'
    '"command":"variables","request_seq":2,"seq":2,"success":true,"type":"response"}'
)
PROCESS = '<{"body":{"name":"p","systemProcessId":%d},"event":"process","seq":%d,"type":"event"}'
SCOPES = (
    '<{"body":{"scopes":[{"name":"a \\"b\\"\\n","variablesReference":-7},{"name":"\u00e9","variablesReference":0}]},"command":"scopes",'
    '"request_seq":-2,"seq":0,"success":true,"type":"response"}'
)

BEGUN, NORMAL_BEGUN = [INITIALIZE, RESPONSE], [INITIALIZE, FILLED]
CONFIGURED = [*BEGUN, INITIALIZED, DONE, DONE_RESPONSE]
NORMAL_CONFIGURED = [*NORMAL_BEGUN, INITIALIZED, DONE, DONE_RESPONSE]
ENDED, NORMAL_ENDED = [*BEGUN, DISCONNECT, DISCONNECTED], [*NORMAL_BEGUN, DISCONNECT, DISCONNECTED]
IN_TERMINAL = [TERMINAL % 1, TERMINAL_RESPONSE % 1]
LISTED_THREADS = [THREADS, THREAD_LIST % (7, 4), PAUSE % 4]
NORMAL_THREADS = [*NORMAL_BEGUN, THREADS, THREAD_LIST % (1, 2), PAUSE % 2]
HIT_BREAKPOINTS = [CHANGED % 9, STOPPED_AT % (9, 12, 7)]
NORMAL_BREAKPOINTS = [*NORMAL_BEGUN, CHANGED % 1, STOPPED_AT % (1, 2, 1)]


def renumbered(line, **numbers):
    """The line with other numbers of these members of its envelope."""
    before, after = line.rsplit('"type"', 1)
    for name, (old, new) in numbers.items():
        wanted = f'"{name}":{old},'
        assert before.count(wanted) == 1
        before = before.replace(wanted, f'"{name}":{new},')
    return f'{before}"type"{after}'


UNNUMBERED = [
    renumbered(INITIALIZE, seq=(1, 7)), renumbered(RESPONSE, seq=(1, 0)).replace('"request_seq":1', '"request_seq":7'),
    renumbered(INITIALIZED, seq=(2, 0)), renumbered(DONE, seq=(2, 9)),
    renumbered(DONE_RESPONSE, seq=(3, 0)).replace('"request_seq":2', '"request_seq":9'),
]
NORMAL_UNNUMBERED = [
    *NORMAL_BEGUN, renumbered(INITIALIZED, seq=(2, 1)), DONE, renumbered(DONE_RESPONSE, seq=(3, 1)),
]
SECOND_STOP = [renumbered(STOPPED, seq=(2, 4)), renumbered(STACK, seq=(2, 3))]
TWO_STOPS = [*BEGUN, STOPPED, STACK, FRAME % (1000, 2, 3), *SECOND_STOP, FRAME % (1000, 3, 5)]
NEW_FRAME = [*TWO_STOPS[:-1], FRAME % (1002, 3, 5)]
NORMAL_STOPS = [*NORMAL_BEGUN, STOPPED, STACK, FRAME % (1, 2, 3), *SECOND_STOP]

# Sessions that are accepted: the lines, those of the normal form, and the open requests of the client and of the adapter.
SESSIONS = {
    "nothing": ([], [], (0, 0)),
    "a configuration": (CONFIGURED, NORMAL_CONFIGURED, (0, 0)),
    "an adapter that counts nothing": (UNNUMBERED, NORMAL_UNNUMBERED, (0, 0)),
    "frames": ([*BEGUN, STACK, FRAMES % (1000, 1001)], [*NORMAL_BEGUN, STACK, FRAMES % (1, 2)], (0, 0)),
    "frames the other way round": ([*BEGUN, STACK, FRAMES % (1001, 1000)], [*NORMAL_BEGUN, STACK, FRAMES % (1, 2)], (0, 0)),
    "two stops": (TWO_STOPS, [*NORMAL_STOPS, FRAME % (1, 3, 5)], (0, 0)),
    "a new frame": (NEW_FRAME, [*NORMAL_STOPS, FRAME % (2, 3, 5)], (0, 0)),
    "variables": (
        [*BEGUN, VARIABLES % 9, LISTED % (5, 5, 3)], [*NORMAL_BEGUN, VARIABLES % 1, LISTED % (2, 2, 3)], (0, 0),
    ),
    "an evaluation": ([*BEGUN, EVALUATE % 5, RESULT % 6], [*NORMAL_BEGUN, EVALUATE % 1, RESULT % 1], (0, 0)),
    "a cancel": (
        [*BEGUN, renumbered(THREADS, seq=(2, 40)), CANCEL % (40, 41)], [*NORMAL_BEGUN, THREADS, CANCEL % (2, 3)], (2, 0),
    ),
    "capabilities": ([*BEGUN, CAPABILITY], [*NORMAL_BEGUN, CAPABILITY], (0, 0)),
    "a capability that is null": (
        [INITIALIZE, NULL_CAPABILITY], [INITIALIZE, FILLED.replace(FALSE, FALSE + ',"x":1')], (0, 0),
    ),
    "a failure": ([*BEGUN, STACK, FAILED], [*NORMAL_BEGUN, STACK, FAILED], (0, 0)),
    "output first": ([OUTPUT], [OUTPUT], (0, 0)),
    "a request of the adapter": (
        [*BEGUN, TERMINAL % 0, TERMINAL_RESPONSE % 0], [*NORMAL_BEGUN, TERMINAL % 2, TERMINAL_RESPONSE % 2], (0, 0),
    ),
    "the least number": ([renumbered(INITIALIZE, seq=(1, -2**63))], [INITIALIZE], (1, 0)),
    "an open request": ([*BEGUN, THREADS], [*NORMAL_BEGUN, THREADS], (1, 0)),
    "lists 125 deep": ([*BEGUN, LAUNCH % ("[" * 125 + "]" * 125)], [*NORMAL_BEGUN, LAUNCH % ("[" * 125 + "]" * 125)], (1, 0)),
    "the first request": ([INITIALIZE], [INITIALIZE], (1, 0)),
    "a beginning": (BEGUN, NORMAL_BEGUN, (0, 0)),
    "a disconnect": (ENDED, NORMAL_ENDED, (0, 0)),
    "output between all messages": (
        [OUTPUT, INITIALIZE, OUTPUT, RESPONSE, OUTPUT], [OUTPUT, INITIALIZE, OUTPUT, FILLED, OUTPUT], (0, 0),
    ),
    "one number on both sides": ([*BEGUN, *IN_TERMINAL], [*NORMAL_BEGUN, *IN_TERMINAL], (0, 0)),
    "threads": ([*BEGUN, *LISTED_THREADS], NORMAL_THREADS, (1, 0)),
    "breakpoints": ([*BEGUN, *HIT_BREAKPOINTS], NORMAL_BREAKPOINTS, (0, 0)),
    # Golden files from before ids of threads and of breakpoints were renamed.
    "an old golden file with threads": ([*NORMAL_BEGUN, *LISTED_THREADS], NORMAL_THREADS, (1, 0)),
    "an old golden file with breakpoints": ([*NORMAL_BEGUN, *HIT_BREAKPOINTS], NORMAL_BREAKPOINTS, (0, 0)),
}

# Lines that are rejected as messages or for a rule after others, by everything that checks messages or sessions.
REFUSED_LINES = {
    "answered twice": (BEGUN, RESPONSE, "record 3: AnsweredTwice"),
    "not initialized": ([], STOPPED, "record 1: NotInitialized"),
    "an event of the client": ([], ">" + INITIALIZED[1:], "record 1: EventFromClient"),
    "still initializing": ([INITIALIZE], THREADS, "record 2: StillInitializing"),
    "initialized twice": (BEGUN, renumbered(INITIALIZE, seq=(1, 2)), "record 3: InitializeTwice"),
    "a number that is used": (BEGUN, renumbered(THREADS, seq=(2, 1)), "record 3: SeqUsed"),
    "configured early": (BEGUN, DONE, "record 3: ConfiguredEarly"),
    "configured twice": (CONFIGURED, renumbered(DONE, seq=(2, 3)), "record 6: ConfiguredTwice"),
    "no request": (BEGUN, RESPONSE.replace('"request_seq":1', '"request_seq":9'), "record 3: NoRequest"),
    "another command": ([*BEGUN, THREADS], RESPONSE.replace('"request_seq":1', '"request_seq":2'), "record 4: OtherCommand"),
    "behind the end": (ENDED, renumbered(THREADS, seq=(2, 3)), "record 5: AfterDisconnect"),
    "no source": (BEGUN, BREAKPOINTS % "3", "record 3: Missing row 13"),
    "no object": ([], ">[]", "record 1: NotObject"),
    "no type": ([], ">{}", "record 1: UnknownType"),
    "no number": ([], '>{"type":"request"}', "record 1: Missing row 1"),
    "a number too large": ([], '>{"seq":9223372036854775808,"type":"event"}', "record 1: WrongType row 1"),
    "a later event of the client": (BEGUN, ">" + INITIALIZED[1:], "record 3: EventFromClient"),
    "output of the client": ([], ">" + OUTPUT[1:], "record 1: EventFromClient"),
    "initialized twice with a new number": (BEGUN, renumbered(INITIALIZE, seq=(1, 3)), "record 3: InitializeTwice"),
    "a number that the adapter has used": ([*BEGUN, *IN_TERMINAL], TERMINAL % 1, "record 5: SeqUsed"),
    # Two rules are violated. The first one in the order of the rules is reported, and the name has the second one.
    "not initialized, and NoRequest": ([], RESPONSE, "record 1: NotInitialized"),
    "still initializing, and NoRequest": ([INITIALIZE], PAUSED % (">", 9, 2), "record 2: StillInitializing"),
    "still initializing, and InitializeTwice": ([INITIALIZE], renumbered(INITIALIZE, seq=(1, 3)), "record 2: StillInitializing"),
    "initialized twice, and AfterDisconnect": (ENDED, renumbered(INITIALIZE, seq=(1, 3)), "record 5: InitializeTwice"),
    "initialized twice, and SeqUsed": (BEGUN, INITIALIZE, "record 3: InitializeTwice"),
    "after the end, and SeqUsed": (ENDED, THREADS, "record 5: AfterDisconnect"),
    "a number that is used, and ConfiguredEarly": (BEGUN, renumbered(DONE, seq=(2, 1)), "record 3: SeqUsed"),
    "a number that is used, and ConfiguredTwice": (CONFIGURED, DONE, "record 6: SeqUsed"),
    "answered twice, and OtherCommand": (BEGUN, PAUSED % ("<", 1, 1), "record 3: AnsweredTwice"),
}

# Bytes that are rejected after lines, as records or contents, by everything that reads recordings.
REFUSED_BYTES = {
    "a cut content": ([], record(INITIALIZE)[:-2], "record 1: Cut"),
    "no line's end": ([], record(INITIALIZE)[:-1], "record 1: Cut"),
    "a content too long": ([], b">Content-Length: 16777217\r\n\r\n", "record 1: ContentTooLong"),
    "another marker": ([], b"!", "record 1: BadMarker"),
    "no line end behind a frame": ([], b">" + frame("{}") + b"x", "record 1: NoLineEnd"),
    "an exponent": (BEGUN, record(BREAKPOINTS % "1e3"), "record 3: Fraction"),
    "lists 126 deep": (BEGUN, record(LAUNCH % ("[" * 126 + "]" * 126)), "record 3: Json"),
    "a header too long": (
        BEGUN, b">Content-Length: 2\r\nX:" + b"a" * 4072 + b"\r\n\r\n{}\n", "record 3: HeaderTooLong",
    ),
}

# A mask, and what it makes of the texts above; it leaves `initialized` out.
RULES = b"""# What the worked sessions have.
blank  event    stopped    body.reason
digits response variables  body.variables[].value
blank  response evaluate   body.result
hex    response stackTrace body.stackFrames[].name
blank  request  launch     arguments.x   # also a fraction
drop   event    initialized
"""
MASKED = {
    '"reason":"step"': '"reason":""', '"reason":"breakpoint"': '"reason":""', '"value":"1"': '"value":"0"', '"result":"1"': '"result":""',
    '"x":0.5': '"x":0', "[" * 125 + "]" * 125: "[]",
}

# Files of rules that are refused, and why.
REFUSED_RULES = {
    "no place": (b"blank event stopped", "line 1: BadRule"),
    "a verb that is none": (b"drop event output\nhide event output\n", "line 2: BadRule"),
    "an id": (b"# ids stay\nblank response stackTrace body.stackFrames[].id\n", "line 2: BadPlace"),
    "the envelope": (b"\n\nblank request * seq\n", "line 3: BadPlace"),
    "a rule twice": (b"drop event *\r\ndrop event *\r\n", "line 2: Repeated"),
    "digits and uuid at one place": (b"uuid event output body.output\ndigits event * body.output\n", "line 2: Clash"),
    "no text": (b"\n# \xff\n", "line 2: NotUtf8"),
    "no label": (b"hex event a x as address\nhex event b x as Address\n", "line 2: BadLabel"),
    "two labels at one place": (b"hex event a x as address\nhex event * x as pointer\n", "line 2: Clash"),
}

LOOSE, CANONICAL = '{ "b":1,"a":2 }', '{"a":2,"b":1}'
DEEP = "[" * 127 + "]" * 127
PADDED = b"Content-Length: 2\r\nX:%s\r\n\r\n{}"

# Frames of one direction, and what `compact` writes of them, or why it refuses them.
COMPACTED = {
    "a loose frame": (frame(LOOSE), frame(CANONICAL)),
    "a canonical frame": (frame(CANONICAL), frame(CANONICAL)),
    "no frame": (b"", b""),
    "fields and case": (
        b"Content-Type: application/json\r\ncontent-length:0015\r\n\r\n" + LOOSE.encode(), frame(CANONICAL),
    ),
    "the largest number": (frame("18446744073709551615"), frame("18446744073709551615")),
    "escapes": (frame(r'{"a":"\u00e9\/\u0001"}'), frame('{"a":"\u00e9/\\u0001"}')),
    "lists 127 deep": (frame(DEEP), frame(DEEP)),
    "the longest header": (PADDED % (b"a" * 4071), frame("{}")),
    "minus nought": (frame("-0"), "record 1: Fraction"),
    "a number too large": (frame("18446744073709551616"), "record 1: Fraction"),
    "no content": (frame(""), "record 1: Json"),
    "lists 128 deep": (frame(f"[{DEEP}]"), "record 1: Json"),
    "a header too long": (PADDED % (b"a" * 4072), "record 1: HeaderTooLong"),
    "no header's end": (b"a" * 4096, "record 1: HeaderTooLong"),
    "a header cut": (b"a" * 4095, "record 1: Cut"),
    "no colon": (b"Content-Length 5\r\n\r\n", "record 1: HeaderLine"),
    "no length": (b"X: 1\r\n\r\n", "record 1: NoLength"),
    "two lengths": (b"Content-Length: 2\r\nContent-Length: 2\r\n\r\n", "record 1: TwoLengths"),
    "a sign": (b"Content-Length: +5\r\n\r\n", "record 1: BadLength"),
    "eleven digits": (b"Content-Length: 12345678901\r\n\r\n", "record 1: BadLength"),
    "two frames": (frame("{ }") + frame("[ 1,2]"), frame("{}") + frame("[1,2]")),
    "no JSON in the second frame": (frame("{}") + frame('{"a":.}'), "record 2: Json"),
    "another bracket in the second frame": (frame("{}") + frame("{]"), "record 2: Json"),
    "no UTF-8": (b'Content-Length: 3\r\n\r\n"\xff"', "record 1: Json"),
    "an exponent": (frame('{"a":1e3}'), "record 1: Fraction"),
    "a fault before another one": (frame("1.5") + frame("!"), "record 1: Fraction"),
    "two lengths before a content": (b"Content-Length: 2\r\nContent-Length: 2\r\n\r\n{}", "record 1: TwoLengths"),
    "a content too long": (b"Content-Length: 16777217\r\n\r\n", "record 1: ContentTooLong"),
    "a content cut": (b"Content-Length: 2\r\n\r\n{", "record 1: Cut"),
    "the name of a field cut": (b"Content-Le", "record 1: Cut"),
}

OF_ADAPTER = b"<25\n" + frame("null")
TRACE = b">10\nContent-Le" + OF_ADAPTER + b">12\nngth: 2\r\n\r\n{>1\n}"
FIRST_RECORD = record("<null")
RECORDED = FIRST_RECORD + record(">{}")

# Traces: what is recorded of each, and why it is refused.
TRACES = {
    "two sides": (TRACE, RECORDED, None),
    "nothing": (b"", b"", None),
    "a nought in front": (b">01\n", b"", "piece 1: BadCount"),
    "another marker": (b"x", b"", "piece 1: BadMarker"),
    "a cut piece": (b">10\nCont", b"", "piece 1: Cut"),
    "a cut frame": (OF_ADAPTER + b">10\nContent-Le", FIRST_RECORD, "piece 2: client Cut"),
    "a cut second piece": (OF_ADAPTER + b">10\nCont", FIRST_RECORD, "piece 2: Cut"),
    "a header too long": (OF_ADAPTER * 3 + b"<4096\n" + b"a" * 4096, FIRST_RECORD * 3, "piece 4: adapter HeaderTooLong"),
}

# Two recordings, and what `compare` prints or tells of them.
FRAME_PAIRS = b"same\nclient-seq 1 1\nclient-seq 2 2\nadapter-seq 1 1\nadapter-seq 2 2\nframe 1000 1001\nframe 1001 1000\nthread 1 1\n"
FRAMES_LINES, EXCHANGED_LINES = SESSIONS["frames"][0], SESSIONS["frames the other way round"][0]
TWICE = recording([*BEGUN, RESPONSE])
STEP, HIT = recording([*BEGUN, STOPPED]), recording([*BEGUN, STOPPED.replace("step", "breakpoint")])
COMPARED = {
    "nothing": (b"", b"", (0, b"same\n", b"")),
    "other numbers": (recording(CONFIGURED), recording(UNNUMBERED), (1, b"differ 3\n", b"")),
    "frames exchanged": (recording(FRAMES_LINES), recording(EXCHANGED_LINES), (0, FRAME_PAIRS, b"")),
    "a stale frame": (recording(TWO_STOPS), recording(NEW_FRAME), (1, b"differ 8\n", b"")),
    "an end": (recording(CONFIGURED), recording(CONFIGURED[:4]), (1, b"differ 5\n", b"")),
    "a refusal of the first": (TWICE, recording(CONFIGURED), (2, b"", refusal("A: record 3: AnsweredTwice"))),
    "a refusal of the second": (recording(CONFIGURED), TWICE, (2, b"", refusal("B: record 3: AnsweredTwice"))),
    "a fault behind a difference": (
        recording(CONFIGURED), recording(UNNUMBERED[:4]) + b"!", (1, b"differ 3\n", b""),
    ),
    "another reason": (STEP, HIT, (1, b"differ 3\n", b"")),
    "another kind": (STEP, recording([*BEGUN, THREADS]), (1, b"differ 3\n", b"")),
    "another event": (STEP, recording([*BEGUN, OUTPUT]), (1, b"differ 3\n", b"")),
    "an empty second recording": (STEP, b"", (1, b"differ 1\n", b"")),
    "an empty first recording": (b"", STEP, (1, b"differ 1\n", b"")),
}

# What `diff` prints of those that differ, or prints otherwise than `compare`.
LOWER_SEQ = b'differ 3\n< event "initialized"\nA seq 2\nB seq 1\n'
OTHER_REASON = b'differ 3\n< event "stopped"\nA body.reason "step"\nB body.reason "breakpoint"\n'
DIFFERENCES = {
    "other numbers": LOWER_SEQ,
    "frames exchanged": b"same\n",
    "a stale frame": b'differ 8\n< response "stackTrace"\nA body.stackFrames[0].id 1\nB body.stackFrames[0].id 2\n',
    "an end": b'differ 5\nA < response "configurationDone"\nB ends\n',
    "a fault behind a difference": LOWER_SEQ,
    "another reason": OTHER_REASON,
    "another kind": b'differ 3\nA < event "stopped"\nB > request "threads"\n',
    "another event": b'differ 3\nA < event "stopped"\nB < event "output"\n',
    "an empty second recording": b'differ 1\nA > request "initialize"\nB ends\n',
    "an empty first recording": b'differ 1\nA ends\nB > request "initialize"\n',
}

# The same with `--per-stop`: normal forms of sessions above, and what `compare` prints of two.
NORMAL_PER_STOP = [*NORMAL_STOPS, FRAME % (1, 3, 5)]
PER_STOP = {"two stops": NORMAL_PER_STOP, "a new frame": NORMAL_PER_STOP, "frames": SESSIONS["frames"][1]}
STOP_PAIRS = (
    b"same\nclient-seq 1 1\nclient-seq 2 2\nclient-seq 3 3\nadapter-seq 1 1\nadapter-seq 2 2\nadapter-seq 3 3\nadapter-seq 4 4\n"
    b"adapter-seq 5 5\nframe@1 1000 1000\nframe@2 1000 1002\nthread 1 1\n"
)
COMPARED_PER_STOP = {
    "frames exchanged": (0, FRAME_PAIRS.replace(b"frame ", b"frame@0 "), b""),
    "a stale frame": (0, STOP_PAIRS, b""),
    "an end": (1, b"differ 5\n", b""),
    "a refusal of the second": (2, b"", refusal("B: record 3: AnsweredTwice")),
    "another reason": (1, b"differ 3\n", b""),
}

SHOWN_BEGUN = '1 > request "initialize" seq=1\n2 < response "initialize" seq=1 request_seq=1 ok\n'
SHOWN_VARIABLES = '  variable 0 "a" "1"\n  variable 5 "b" "1"\n  variable 0 "c" "1"\n  variable 5 "d" "1"\n  variable 3 "e" "1"\n'
SHOWN_STACK = SHOWN_BEGUN + '3 > request "stackTrace" seq=2\n4 < response "stackTrace" seq=2 request_seq=2 '

# What `show` prints of sessions above.
SHOWN = {
    "frames": SHOWN_STACK + 'ok\n  frame 1000 3:1 "f"\n  frame 1001 9:1 "g"\n',
    "a failure": SHOWN_STACK + "failed\n",
    "variables": SHOWN_BEGUN + '3 > request "variables" seq=2\n4 < response "variables" seq=2 request_seq=2 ok\n' + SHOWN_VARIABLES,
    "output first": '1 < event "output" seq=1\n',
    "nothing": "",
}

# Lines that `check` refuses, and the output of `show`, which checks no rule of a session.
SHOWN_LINES = {
    "variables alone": ([LISTED % (5, 5, 3)], '1 < response "variables" seq=2 request_seq=2 ok\n' + SHOWN_VARIABLES),
    "scopes": (
        [OUTPUT, SCOPES],
        '1 < event "output" seq=1\n2 < response "scopes" seq=0 request_seq=-2 ok\n  scope -7 "a \\"b\\"\\n"\n  scope 0 "\u00e9"\n',
    ),
    "a failure alone": ([STACK, FAILED], '1 > request "stackTrace" seq=2\n2 < response "stackTrace" seq=2 request_seq=2 failed\n'),
    "a second response": ([*BEGUN, RESPONSE], SHOWN_BEGUN + '3 < response "initialize" seq=1 request_seq=1 ok\n'),
    "an event": ([INITIALIZED], '1 < event "initialized" seq=2\n'),
}

# Recordings that `show` refuses.
REFUSED_TO_SHOW = {
    "a header cut": (b">Content", "record 1: Cut"),
    "no JSON": (record(">{"), "record 1: Json"),
    "a fraction alone": (record(">0.5"), "record 1: Fraction"),
    "no object": (record(">[]"), "record 1: NotObject"),
    "no number": (recording([INITIALIZED, '<{"type":"event"}']), "record 2: Missing row 1"),
}


def masked(lines):
    """The lines that the mask leaves."""
    left = []
    for line in lines:
        for old, new in MASKED.items():
            line = line.replace(old, new)
        if '"event":"initialized"' not in line:
            left.append(line)
    return left


def normal_of(lines):
    """The normal form of lines that begin sessions and are numbered as there."""
    return [FILLED if line == RESPONSE else line for line in lines]


def stream(name, command, given, answer, files=None):
    return Run(f"{' '.join(command)} of {name}", command, given, files or {}, answer)


def of_mask(name, given, answer):
    return stream(name, ["mask", "rules"], given, answer, {"rules": RULES})


def of_sessions():
    for name, (lines, normal, (client, adapter)) in SESSIONS.items():
        given, text = recording(lines), recording(normal)
        told = b"accepted records=%d open=%d,%d\n" % (len(lines), client, adapter)
        whole = (0, told, b"") if client + adapter == 0 else (2, b"", refusal(f"incomplete: {client} client, {adapter} adapter"))
        yield stream(name, ["normalise"], given, (0, text, b""))
        yield stream(f"{name}, normal", ["normalise"], text, (0, text, b""))
        yield stream(name, ["check"], given, (0, told, b""))
        yield stream(name, ["check", "--complete"], given, whole)
        yield of_mask(name, given, (0, recording(masked(lines)), b""))
    for name, shown in SHOWN.items():
        yield stream(name, ["show"], recording(SESSIONS[name][0]), (0, shown.encode(), b""))
    for name, (lines, shown) in SHOWN_LINES.items():
        yield stream(name, ["show"], recording(lines), (0, shown.encode(), b""))
    fraction = [*BEGUN, LAUNCH % "0.5"]
    yield stream("a fraction", ["check"], recording(fraction), (2, b"", refusal("record 3: Fraction")))
    yield of_mask("a fraction", recording(fraction), (0, recording(masked(fraction)), b""))


def of_refusals():
    for name, (lines, line, told) in REFUSED_LINES.items():
        given = recording([*lines, line])
        yield stream(name, ["normalise"], given, (2, recording(normal_of(lines)), refusal(told)))
        yield stream(name, ["check"], given, (2, b"", refusal(told)))
        yield stream(name, ["check", "--complete"], given, (2, b"", refusal(told)))
        yield of_mask(name, given, (0, recording(masked([*lines, line])), b""))
    for name, (lines, rest, told) in REFUSED_BYTES.items():
        given = recording(lines) + rest
        yield stream(name, ["normalise"], given, (2, recording(normal_of(lines)), refusal(told)))
        yield stream(name, ["check"], given, (2, b"", refusal(told)))
        yield stream(name, ["show"], given, (2, b"", refusal(told)))
        yield of_mask(name, given, (2, recording(masked(lines)), refusal(told)))
    for name, (given, told) in REFUSED_TO_SHOW.items():
        yield stream(name, ["show"], given, (2, b"", refusal(told)))


def of_others():
    for name, (given, wanted) in COMPACTED.items():
        answer = (0, wanted, b"") if isinstance(wanted, bytes) else (2, b"", refusal(wanted))
        yield stream(name, ["compact"], given, answer)
    for name, (given, written, told) in TRACES.items():
        yield stream(name, ["record"], given, (0, written, b"") if told is None else (2, written, refusal(told)))
    for name, (a, b, answer) in COMPARED.items():
        yield stream(name, ["compare", "a", "b"], b"", answer, {"a": a, "b": b})
        status, printed, told = answer
        yield stream(name, ["diff", "a", "b"], b"", (status, DIFFERENCES.get(name, printed), told), {"a": a, "b": b})


def of_stops():
    """The same sessions and pairs with `--per-stop`."""
    for name, normal in PER_STOP.items():
        lines, whole, _ = SESSIONS[name]
        told = b"accepted records=%d open=0,0\n" % len(lines)
        yield stream(name, ["normalise", "--per-stop"], recording(lines), (0, recording(normal), b""))
        yield stream(f"{name}, normal", ["normalise", "--per-stop"], recording(normal), (0, recording(normal), b""))
        of_whole = f"{name}, with the names of the whole, normal"
        yield stream(of_whole, ["normalise", "--per-stop"], recording(whole), (0, recording(normal), b""))
        yield stream(name, ["check", "--per-stop"], recording(lines), (0, told, b""))
        yield stream(name, ["check", "--complete", "--per-stop"], recording(lines), (0, told, b""))
    for name, answer in COMPARED_PER_STOP.items():
        a, b, _ = COMPARED[name]
        status, printed, told = answer
        of_diff = b"same\n" if status == 0 else DIFFERENCES.get(name, printed)
        yield stream(name, ["compare", "--per-stop", "a", "b"], b"", answer, {"a": a, "b": b})
        yield stream(name, ["diff", "a", "b", "--per-stop"], b"", (status, of_diff, told), {"a": a, "b": b})


def of_rules():
    for name, (rules, told) in REFUSED_RULES.items():
        yield stream(name, ["mask", "rules"], recording(CONFIGURED), (2, b"", refusal(f"rules: {told}")), {"rules": rules})
    yield stream("no rules", ["mask", "rules"], recording(CONFIGURED), (0, recording(CONFIGURED), b""), {"rules": b"# nothing\n"})
    worded = [line.replace("mock", "<m>") for line in CONFIGURED]
    yield stream("a word", ["mask", "--word", "mock=<m>", "rules"], recording(CONFIGURED), (0, recording(worded), b""), {"rules": b"# nothing"})
    wrong = (3, b"", b"error: --word mock=mo: a WORD and a TEXT overlap: take another WORD, such as <home>\n")
    yield stream("a wrong word", ["compare", "--word", "x=<w>", "--word", "mock=mo", "a", "a"], b"", wrong, {"a": recording(CONFIGURED)})


def of_suggestions():
    """Rules that are suggested, and a record that prevents them."""
    comment = b"# A record 3: 17\n# B record 3: 4\n"
    suggested = comment + b"blank  event    process body.systemProcessId  as process\n\n# with these rules: same\n"
    files = {"a": recording([*BEGUN, PROCESS % (17, 2)]), "b": recording([*BEGUN, PROCESS % (4, 2)])}
    yield stream("a process id", ["suggest", "a", "b"], b"", (0, suggested, b""), files)
    start = '<{"body":{"name":"p","startTime":%s},"event":"process","seq":2,"type":"event"}'
    blanked = b"# A record 3: 1.5\nblank  event    process body.startTime\n\n# with these rules: same\n"
    files = {"a": recording([*BEGUN, start % "1.5"]), "b": recording([*BEGUN, start % "3"])}
    yield stream("a fraction", ["suggest", "a", "b"], b"", (0, blanked, b""), files)
    told = b'no rules can: record 3 of B, request "threads", has no counterpart in A\n'
    yield stream("a request more", ["suggest", "a", "b"], b"", (1, b"", told), {"a": recording(BEGUN), "b": recording([*BEGUN, THREADS])})


def of_options():
    """All differences of two recordings, and the options of `show`."""
    other_reason = (
        b'differ: 1 paired, 0 only in A, 0 only in B\n3/3 < event "stopped"\nA body.reason "step"\nB body.reason "breakpoint"\n'
    )
    yield stream("another reason", ["diff", "--all", "a", "b"], b"", (1, other_reason, b""), {"a": STEP, "b": HIT})
    yield stream("one recording", ["diff", "--all", "a", "a"], b"", (0, b"same\n", b""), {"a": STEP})
    yield stream("the first records", ["normalise", "--explain"], recording(BEGUN), (0, recording(NORMAL_BEGUN), b""))
    shown, given = b'1 < event "initialized" seq=2\n', recording([INITIALIZED])
    yield stream("an event", ["show", "--full"], given, (0, shown + b'  event "initialized"\n  seq 2\n  type "event"\n', b""))
    told = refusal("record 1: NotInitialized")
    yield stream("an event", ["show", "--faulty"], given, (2, shown + b"  fault: NotInitialized\n", told))
    content = b'{\n  "event": "initialized",\n  "seq": 2,\n  "type": "event"\n}\n'
    yield stream("an event", ["show", "--record", "1"], given, (0, content, b""))


def of_order():
    """A session whose adapter stops and then answers, put in order."""
    lines = [
        INITIALIZE, FILLED, '>{"arguments":{"threadId":1},"command":"continue","seq":2,"type":"request"}',
        '<{"body":{"reason":"step"},"event":"stopped","seq":2,"type":"event"}',
        '<{"command":"continue","request_seq":2,"seq":3,"success":true,"type":"response"}',
    ]
    rules = {"rules": b"swap response continue event stopped\n"}
    yield stream("a stop", ["order", "rules"], recording(lines), (0, recording([*lines[:3], lines[4], lines[3]]), b""), rules)


# Rules that declare ids, and a session with an address in two spellings, another one, a null pointer and a process id.
NAMES = b"hex response variables body.variables[].value as address\nblank event process body.systemProcessId as process\n"
WITH_IDS = [VARIABLES % 9, POINTERS % ("0x7f10 at 0x20", "0X07F10 and 0x0"), PROCESS % (28201, 3)]
WITH_NAMES = [VARIABLES % 9, POINTERS % ("<address 1> at <address 2>", "<address 1> and 0x0"), PROCESS % (1, 3)]


def of_names():
    """Ids that are replaced by names, alone and by the commands with rules."""
    files, names = {"rules": NAMES}, recording([*BEGUN, *WITH_NAMES])
    for name, given, answer in (
        ("a configuration", recording(CONFIGURED), (0, recording(CONFIGURED), b"")), ("ids", recording([*BEGUN, *WITH_IDS]), (0, names, b"")),
        ("names", names, (0, names, b"")), ("ids and a fraction", recording([*BEGUN, *WITH_IDS, LAUNCH % "0.5"]), (2, names, refusal("record 6: Fraction"))),
        ("ids and no record", recording([*BEGUN, *WITH_IDS]) + b"!", (2, names, refusal("record 6: BadMarker"))), ("nothing", b"", (0, b"", b"")),
    ):
        yield stream(name, ["name", "rules"], given, answer, files)
    others = [VARIABLES % 9, POINTERS % ("0x8 at 0x9", "0x8 and 0x0"), PROCESS % (5, 3)]
    alias = [VARIABLES % 9, POINTERS % ("0x8 at 0x9", "0x9 and 0x0"), PROCESS % (5, 3)]
    files.update({name: recording([*BEGUN, *lines]) for name, lines in {"a": WITH_IDS, "b": others, "c": alias}.items()})
    files["g"] = recording([*NORMAL_BEGUN, VARIABLES % 1, *WITH_NAMES[1:]])
    told = b'< response "variables"\nA body.variables[1].value "<address 1> and 0x0"\nB body.variables[1].value "<address 2> and 0x0"\n'
    pairs = b"same\nclient-seq 1 1\nclient-seq 2 2\nadapter-seq 1 1\nadapter-seq 2 2\nadapter-seq 3 3\nreference 9 9\n"
    for command, given, answer in (
        (["compare", "a", "b"], b"", (0, pairs, b"")), (["compare", "a", "c"], b"", (1, b"differ 4\n", b"")),
        (["diff", "a", "c"], b"", (1, b"differ 4\n" + told, b"")),
        (["diff", "--all", "a", "c"], b"", (1, b"differ: 1 paired, 0 only in A, 0 only in B\n4/4 " + told, b"")),
        (["check", "a"], b"", (0, b"accepted records=5 open=0,0\n", b"")), (["golden", "g"], files["b"], (0, b"same\n", b"")),
        (["golden", "g"], files["c"], (1, b"differ 4\n" + told, b"")), (["suggest", "a", "b"], b"", (0, b"# with these rules: same\n", b"")),
    ):
        yield stream("ids" if given != files["c"] else "an alias", [command[0], "--rules", "rules", *command[1:]], given, answer, files)


# A file of rules by which the two sessions that stop for different reasons are the same.
BLANK_REASON = b"blank event stopped body.reason\n"
STOP_WITHOUT_REASON = recording([*NORMAL_BEGUN, STOPPED.replace("step", "")])


def of_applied_rules():
    """The option `--rules` of `check` and of the commands that compare."""
    pairs = b"same\nclient-seq 1 1\nadapter-seq 1 1\nadapter-seq 2 2\n"
    other = recording([*BEGUN, STOPPED.replace("step", "pause"), THREADS])
    files = {"rules": BLANK_REASON, "none": b"# no rule\n", "bad": b"blank event\n", "a": STEP, "b": HIT, "c": other, "d": TWICE}
    differ = b'differ 4\nA ends\nB > request "threads"\n'
    all_differ = b'differ: 0 paired, 0 only in A, 1 only in B\n-/4 > request "threads"\n'
    twice = "after the rules: record 3: AnsweredTwice"
    refused = (2, b"", refusal(f"B: {twice}"))
    incomplete = (2, b"", refusal("after the rules: incomplete: 1 client, 0 adapter"))
    for command, rules, names, answer in (
        (["compare"], "rules", "ab", (0, pairs, b"")), (["diff"], "rules", "ab", (0, b"same\n", b"")),
        (["diff", "--all"], "rules", "ab", (0, b"same\n", b"")), (["compare", "--per-stop"], "rules", "ab", (0, pairs, b"")),
        (["suggest"], "rules", "ab", (0, b"# with these rules: same\n", b"")), (["compare"], "none", "ab", (1, b"differ 3\n", b"")),
        (["diff"], "none", "ab", (1, OTHER_REASON, b"")), (["diff"], "rules", "ac", (1, differ, b"")),
        (["diff", "--all"], "rules", "ac", (1, all_differ, b"")), (["compare"], "rules", "ad", refused),
        (["compare"], "bad", "ab", (2, b"", refusal("rules: line 1: BadRule"))),
        (["check"], "rules", "a", (0, b"accepted records=3 open=0,0\n", b"")), (["check"], "rules", "d", (2, b"", refusal(twice))),
        (["check", "--complete"], "rules", "c", incomplete), (["check", "--per-stop"], "rules", "c", (0, b"accepted records=4 open=1,0\n", b"")),
    ):
        yield stream("stops", [*command, "--rules", rules, *names], b"", answer, files)


def of_golden():
    """A golden file that is the same, differs, is not in normal form, or is up to date."""
    normal, configuration = recording(NORMAL_CONFIGURED), recording(CONFIGURED)
    same, open_request = (0, b"same\n", b""), SESSIONS["an open request"]
    trace = b"".join(b"%s%d\n%s" % (line[:1].encode(), len(frame(line[1:])), frame(line[1:])) for line in BEGUN)
    other_form = b"the session is the same, but the golden file is not in normal form: --update rewrites it\n"
    for name, options, given, golden, answer in (
        ("a configuration", [], configuration, normal, same), ("a trace", [], trace, recording(NORMAL_BEGUN), same),
        ("an open request", ["--open"], recording(open_request[0]), recording(open_request[1]), same),
        ("two stops", ["--per-stop"], recording(TWO_STOPS), recording(NORMAL_PER_STOP), same),
        ("another reason", [], HIT, recording([*NORMAL_BEGUN, STOPPED]), (1, OTHER_REASON, b"")),
        ("another form", [], configuration, configuration, (1, other_form, b"")),
        ("no change", ["--update"], configuration, normal, (0, b"unchanged\n", b"")),
        ("nothing", [], b"", normal, (2, b"", refusal("golden: no records"))),
        ("a stop", ["--rules", "rules"], HIT, STOP_WITHOUT_REASON, same),
        ("a stop that is up to date", ["--rules", "rules", "--update"], STEP, STOP_WITHOUT_REASON, (0, b"unchanged\n", b"")),
    ):
        yield stream(name, ["golden", *options, "g"], given, answer, {"g": golden, "rules": BLANK_REASON})


def all_runs():
    """Each run, by its name."""
    runs = [
        *of_sessions(), *of_refusals(), *of_others(), *of_stops(), *of_rules(), *of_suggestions(), *of_options(), *of_order(),
        *of_names(), *of_applied_rules(), *of_golden(),
    ]
    assert len({run.name for run in runs}) == len(runs)
    return runs
