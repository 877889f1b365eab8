"""The lines that explain a refusal: `golden` prints them on standard error after the line of the refusal. Each row has all of its lines."""
import os
import subprocess
import sys

from tests.program.golden import Folder
from tests.report import PROGRAM, Report
from tests.program.worked_runs import (
    BEGUN, BREAKPOINTS, CONFIGURED, DONE, ENDED, FILLED, INITIALIZE, INITIALIZED, IN_TERMINAL, LAUNCH, RESPONSE, STACK, STOPPED, TERMINAL, THREADS,
    frame, record, recording, renumbered,
)

FIX_CLIENT = "the client does not follow the protocol there: fix the client"
FIX_ADAPTER = "the adapter does not follow the protocol there: fix the adapter"
APPLY = "apply the rules file with dapnorm mask RULES or dapnorm golden --rules RULES"
SPLIT = "if the recording has two sessions, split it; otherwise fix the program that sent it"
FIX_SENDER = "fix the program that sent the response"
WAIT = "wait for each response before the end, or accept open requests with golden --open"
STOPPED_EARLY = "the program that wrote the input may have been stopped early"
KEEP_LINE_ENDS = "git keeps line ends if .gitattributes has -text for recordings and traces"
CONVERTED = ["its header lines do not end with CR LF: line ends may have been converted", KEEP_LINE_ENDS]
PIECE = "a piece begins with > or <, its length in decimal digits without leading 0, and LF"
RECORD = "a record begins with > (client) or < (adapter), and nothing is between two records"
TYPES = 'a message has the type "request", "response" or "event"'
PRINTED = ["a program may have printed text between two frames", "let it print to standard error, or send output events instead"]
NOTHING_CHANGES = "no rule of a mask changes it: let the program that sent it write an integer"
BOTH_HALVES = "let the program that sent it write both halves of the character, or \\ufffd"
IN_RANGE = "let the program that sent it write a number of that range"
NO_LABEL = "is not a label: write lower-case letters and -, with a letter first, such as address"
NUMBERS_STAY = "no rule changes the numbers in the names of declared ids: leave one of them out"
DROPPED = "drop event *\n"
STATISTICS = '<{"seq":2,"type":"event","event":"terminated","statistics":{"all":0.50,"one":[1,-0]}}'
EVENT = '<{"seq":2,"type":"event","event":"output","body":{"output":%s}}'
TYPED = '<{"seq":2,"type":"event","event":"stopped","body":{"reason":"step","hitBreakpointIds":[1,"\\u001b[0m"]}}'
IS_EVENT = 'record 3 is < event "output"'
IS_LAUNCH = 'record 3 is > request "launch"'
IS_THREADS = 'record 3 is > request "threads"'
TO_INITIALIZE = 'record 3 is < response "initialize", to request 1'
THE_REQUEST = 'the client\'s request with seq 1 is "initialize", in record 1'
OTHER_RESPONSE = RESPONSE.replace('"request_seq":1', '"request_seq":%d')


def third(line):
    """A recording whose third record has this line."""
    return recording([*BEGUN, line])


def to_blank(place, what="this number"):
    return f"to blank {what}, write into a rules file: blank {place}"


# Inputs, the rules, the line of the refusal, and the lines that explain it.
NUMBERS = {
    "a fraction": (
        third(STATISTICS), None, "record 3: Fraction",
        [
            'record 3 is < event "terminated"',
            "statistics.all is 0.50, which has a fraction; dapnorm takes only integers of 64 bits",
            "one more number of this record is not an integer of 64 bits",
            to_blank("event terminated statistics.all"), to_blank("event terminated statistics", "all of them"), APPLY,
        ],
    ),
    "a number that the rules leave": (
        third(STATISTICS), "blank event terminated statistics.all\n", "record 3: Fraction",
        [
            'record 3 is < event "terminated"',
            "statistics.one[1] is -0, which is minus zero; dapnorm takes only integers of 64 bits",
            to_blank("event terminated statistics.one[]"), APPLY,
        ],
    ),
    "a fraction beside one that a rule blanks by its name": (
        third('<{"seq":2,"type":"event","event":"custom","body":{"things":[{"name":"a","v":0.5},{"name":"b","v":0.25}]}}'),
        'blank event custom body.things["a"].v\n', "record 3: Fraction",
        [
            'record 3 is < event "custom"', "body.things[1].v is 0.25, which has a fraction; dapnorm takes only integers of 64 bits",
            to_blank("event custom body.things[].v"), APPLY,
        ],
    ),
    # The element after an omitted one is counted as in the record.
    "a fraction after an omitted element": (
        third('<{"seq":2,"type":"event","event":"custom","body":{"things":[{"name":"a","v":0.5},{"name":"b","v":0.25}]}}'),
        'omit event custom body.things["a"]\n', "record 3: Fraction",
        [
            'record 3 is < event "custom"', "body.things[1].v is 0.25, which has a fraction; dapnorm takes only integers of 64 bits",
            to_blank("event custom body.things[].v"), APPLY,
        ],
    ),
    "a fraction in an array": (
        third(LAUNCH % '{"y":[0.5,1]}'), None, "record 3: Fraction",
        [
            IS_LAUNCH, "arguments.x.y[0] is 0.5, which has a fraction; dapnorm takes only integers of 64 bits",
            to_blank("request launch arguments.x.y[]"), APPLY,
        ],
    ),
    "an exponent": (
        third(LAUNCH % '{"a b":[[1],[2,1E3]]}'), None, "record 3: Fraction",
        [
            IS_LAUNCH, 'arguments.x."a b"[1][1] is 1E3, which has an exponent; dapnorm takes only integers of 64 bits',
            to_blank('request launch arguments.x."a b"[][]'), APPLY,
        ],
    ),
    "numbers that are too large": (
        third(LAUNCH % "[18446744073709551616,{},0.5,-1.5]"), None, "record 3: Fraction",
        [
            IS_LAUNCH, "arguments.x[0] is 18446744073709551616, which does not fit 64 bits; dapnorm takes only integers of 64 bits",
            "2 more numbers of this record are not integers of 64 bits", to_blank("request launch arguments.x[]"), APPLY,
        ],
    ),
    "a number that comes twice": (
        third(LAUNCH % '{"y":[0.5],"y":[1,0.25]}'), None, "record 3: Fraction",
        [
            IS_LAUNCH, "arguments.x.y[1] is 0.25, which has a fraction; dapnorm takes only integers of 64 bits",
            to_blank("request launch arguments.x.y[]"), APPLY,
        ],
    ),
    "a number that no rule blanks": (
        third(THREADS.replace('"seq":2', '"seq":2.5')), None, "record 3: Fraction",
        [IS_THREADS, "seq is 2.5, which has a fraction; dapnorm takes only integers of 64 bits", NOTHING_CHANGES],
    ),
}
CONTENTS = {
    "a float that is too large": (
        third(EVENT % "1e999"), None, "record 3: Json", [IS_EVENT, "the number 1e999 of record 3 is outside the range of 64-bit floats", IN_RANGE],
    ),
    "arrays that are too deep": (
        third(EVENT % ("[" * 126 + "]" * 126)), None, "record 3: Json",
        [IS_EVENT, "record 3 has more than 127 arrays and objects inside one another, which dapnorm does not read"],
    ),
    "no JSON": (
        third(EVENT % "nil"), None, "record 3: Json",
        [IS_EVENT, 'the content of record 3 is not JSON near byte 58: "t\\",\\"body\\":{\\"output\\":nil}}"', FIX_ADAPTER],
    ),
    "half of a character": (
        third(EVENT % '"a\\n\\u0041\\ud83d\\ude00\\ud83d\\n"'), None, "record 3: Json",
        [IS_EVENT, "record 3 has the escape \\ud83d, a surrogate alone: JSON allows it, but no Unicode text has it", BOTH_HALVES],
    ),
    "the other half": (
        third(EVENT % '"\\uDC00\\ud83d"'), None, "record 3: Json",
        [IS_EVENT, "record 3 has the escape \\uDC00, a surrogate alone: JSON allows it, but no Unicode text has it", BOTH_HALVES],
    ),
    "an end inside JSON": (
        third(THREADS[:-1]), None, "record 3: Json",
        [IS_THREADS, "the content of record 3 ends after 45 bytes, before its JSON text does", FIX_CLIENT],
    ),
    "no UTF-8": (
        recording(BEGUN) + b"<Content-Length: 5\r\n\r\n\"a\xff\"}\n", None, "record 3: Json",
        ['the content of record 3 is not UTF-8 after 2 bytes: "\\xff\\"}"', FIX_ADAPTER],
    ),
    "no object": (record(">[]"), None, "record 1: NotObject", ["the content of record 1 is an array; a message is a JSON object", FIX_CLIENT]),
    "no type": (third("<{}"), None, "record 3: UnknownType", ['the message of record 3 has no member "type"', TYPES, FIX_ADAPTER]),
    "another type": (third('<{"type":"Event"}'), None, "record 3: UnknownType", ['the type of record 3 is "Event"', TYPES, FIX_ADAPTER]),
    "another protocol": (
        third('<{"jsonrpc":"2.0","id":1}'), None, "record 3: UnknownType",
        [
            'the message of record 3 has no member "type"', TYPES,
            'its member "jsonrpc" is that of another protocol, such as a language server\'s', "record the session of the debug adapter instead",
        ],
    ),
    "a member that is missing": (
        third(BREAKPOINTS % "3"), None, "record 3: Missing row 13",
        [
            'record 3 is > request "setBreakpoints"',
            "arguments.source is missing; the profile requires an object there (dapnorm rows 13)", FIX_CLIENT,
        ],
    ),
    "an element of another type": (
        third(TYPED), None, "record 3: WrongType row 169",
        [
            'record 3 is < event "stopped"',
            'body.hitBreakpointIds[1] is "\\u001b[0m"; the profile requires an integer (a breakpoint id) there (dapnorm rows 169)', FIX_ADAPTER,
        ],
    ),
    "a control character": (
        recording([INITIALIZE, FILLED.replace('"initialize"', '"\\u001b[31m"')]), None, "record 2: OtherCommand",
        [
            'record 2 is < response "\\u001b[31m", to request 1', "a response has the command of its request", THE_REQUEST, FIX_SENDER,
        ],
    ),
}
SESSION_RULES = {
    "a second response": (
        third(RESPONSE.replace('"seq":1', '"seq":2')), None, "record 3: AnsweredTwice",
        [TO_INITIALIZE, "a request has one response", THE_REQUEST, "record 2 is its first response", FIX_SENDER],
    ),
    "no request": (
        third(OTHER_RESPONSE % 9), None, "record 3: NoRequest",
        [
            'record 3 is < response "initialize", to request 9', "a response answers an earlier request of the other side",
            "the client sent no request with seq 9 before it", "let the recorder write each message before it passes it on",
        ],
    ),
    "another command": (
        recording([*BEGUN, THREADS, OTHER_RESPONSE % 2]), None, "record 4: OtherCommand",
        [
            'record 4 is < response "initialize", to request 2', "a response has the command of its request",
            'the client\'s request with seq 2 is "threads", in record 3', FIX_SENDER,
        ],
    ),
    "a number that is used": (
        third(renumbered(THREADS, seq=(2, 1))), None, "record 3: SeqUsed",
        [IS_THREADS, "each request of a side has a seq of its own", THE_REQUEST, SPLIT],
    ),
    "a number that the adapter has used": (
        recording([*BEGUN, *IN_TERMINAL, TERMINAL % 1]), None, "record 5: SeqUsed",
        [
            'record 5 is < request "runInTerminal"', "each request of a side has a seq of its own",
            'the adapter\'s request with seq 1 is "runInTerminal", in record 3', SPLIT,
        ],
    ),
    "an early configuration": (
        third(DONE), None, "record 3: ConfiguredEarly",
        [
            'record 3 is > request "configurationDone"', "configurationDone comes after an initialized event",
            "let the client wait for that event; a trace made from a log may have another order",
        ],
    ),
    "a second configuration": (
        recording([*CONFIGURED, renumbered(DONE, seq=(2, 3))]), None, "record 6: ConfiguredTwice",
        [
            'record 6 is > request "configurationDone"', "the client sends configurationDone once",
            "the client's configurationDone request is record 4", "fix the client",
        ],
    ),
    "a second initialize": (
        third(renumbered(INITIALIZE, seq=(1, 2))), None, "record 3: InitializeTwice",
        ['record 3 is > request "initialize"', "a session has one initialize request", "the client's initialize request is record 1", SPLIT],
    ),
    "an early request": (
        recording([INITIALIZE, THREADS]), None, "record 2: StillInitializing",
        [
            'record 2 is > request "threads"',
            "before the response to initialize, only the adapter sends: responses and output events", "the client's initialize request is record 1",
            "let the sender wait for that response; a trace made from a log may have another order",
        ],
    ),
    "no initialize": (
        record(STOPPED), None, "record 1: NotInitialized",
        [
            'record 1 is < event "stopped"', "only output events may come before the client's initialize request",
            "start to record before the client connects",
        ],
    ),
    "an event of the client": (
        record(">" + INITIALIZED[1:]), None, "record 1: EventFromClient",
        [
            'record 1 is > event "initialized"', "only the adapter sends events",
            "if > and < are exchanged in the input, fix the program that wrote it",
        ],
    ),
    "a request after the end": (
        recording([*ENDED, renumbered(THREADS, seq=(2, 3))]), None, "record 5: AfterDisconnect",
        [
            'record 5 is > request "threads"', "the client sends no request after a successful disconnect response",
            "that response is record 4", SPLIT,
        ],
    ),
    "an open request": (
        third('>{"seq":7,"type":"request","command":"a"}'), None, "incomplete: 1 client, 0 adapter",
        ['the client\'s request "a" with seq 7, in record 3, has no response', WAIT],
    ),
    "six open requests": (
        recording([*BEGUN, *(renumbered(STACK, seq=(2, number)) for number in range(2, 7)), TERMINAL % 8]), None,
        "incomplete: 5 client, 1 adapter",
        [
            *(f'the client\'s request "stackTrace" with seq {number}, in record {number + 1}, has no response' for number in range(2, 7)),
            "and 1 more", WAIT,
        ],
    ),
    "open requests after the rules": (
        recording([*BEGUN, STOPPED, THREADS]), DROPPED, "after the rules: incomplete: 1 client, 0 adapter",
        ['the client\'s request "threads" with seq 2, in record 3, has no response', WAIT],
    ),
}
BYTES = {
    "bare frames": (
        frame("{}"), None, "record 1: BadMarker",
        [
            'the input begins "Content-Length: 2\\r\\n\\r\\n{}"',
            "this looks like frames without > and <: only dapnorm compact reads these",
        ],
    ),
    "a byte order mark": (
        b"\xef\xbb\xbf>Content-Length: 2\r\n\r\n{}\n", None, "record 1: BadMarker",
        [
            'the input begins "\\xef\\xbb\\xbf>Content-Length: 2\\r\\n\\r\\n{}\\n"',
            "the input begins with a UTF-8 byte order mark: save it without one",
        ],
    ),
    "JSON alone": (
        b'{"seq":1,"type":"request","command":"initialize"}', None, "record 1: BadMarker",
        [
            'the input begins "{\\"seq\\":1,\\"type\\":\\"request\\",\\"command\\":\\"ini"...',
            "this looks like JSON without frames: each message needs a header part",
        ],
    ),
    "an empty line": (recording(BEGUN) + b"\n", None, "record 3: BadMarker", ['record 3 begins "\\n"', RECORD]),
    "line ends that were changed": (
        b">Content-Length: 2\r\n\r\n{}\r\n", None, "record 1: NoLineEnd",
        ['after the frame of record 1 comes "\\r\\n" instead of LF', "line ends were converted to CR LF", KEEP_LINE_ENDS],
    ),
    "line ends of a session that were changed": (
        recording(CONFIGURED).replace(b"}\n", b"}\r\n"), None, "record 1: NoLineEnd",
        [
            'after the frame of record 1 comes "\\r\\n<Content-Length: 81\\r\\n\\r\\n{\\"command\\":\\"ini"... instead of LF',
            "line ends were converted to CR LF", KEEP_LINE_ENDS,
        ],
    ),
    "a length in characters": (
        ">Content-Length: 7\r\n\r\n{\"\u00e9\":1}\n".encode(), None, "record 1: NoLineEnd",
        [
            'after the frame of record 1 comes "}\\n" instead of LF', "Content-Length is 7, and the JSON text there has 8 bytes",
            "Content-Length counts bytes of UTF-8: the sender may have counted characters",
        ],
    ),
    "no line end": (
        record(INITIALIZE)[:-1], None, "record 1: Cut",
        ["only the LF at the end of record 1 is missing", "an editor may have removed it: add it again"],
    ),
    "a cut content": (
        b">Content-Length: 12\r\n\r\n{}", None, "record 1: Cut",
        [
            "the content of record 1 has 12 bytes by its header part, and 10 of them are missing",
            "the program that wrote the input may have been stopped early, or the length is too large",
        ],
    ),
    "a cut session": (
        recording(CONFIGURED)[:-5], None, "record 5: Cut",
        [
            "the content of record 5 has 88 bytes by its header part, and 4 of them are missing",
            "the program that wrote the input may have been stopped early, or the length is too large",
        ],
    ),
    "a cut header": (b">Content-Len", None, "record 1: Cut", ['the input ends in the header part of record 1: "Content-Len"', STOPPED_EARLY]),
    "a header of other lines": (
        b"<hi\r\n\r\n", None, "record 1: HeaderLine", ['the header part of record 1 has the line "hi\\r", which is not NAME: VALUE'],
    ),
    "an empty header": (b">\r\n\r\n", None, "record 1: HeaderLine", ["the header part of record 1 is empty"]),
    "a header without a length": (
        b">X: 1\r\n\r\n", None, "record 1: NoLength", ['the header part of record 1 has no Content-Length; it is "X: 1\\r\\n\\r\\n"'],
    ),
    "two lengths": (
        b">Content-Length: 2\r\nContent-Length: 2\r\n\r\n", None, "record 1: TwoLengths",
        ['the header part of record 1 has more than one Content-Length; it is "Content-Length: 2\\r\\nContent-Length: 2\\r\\n\\r\\n"'],
    ),
    "a length with a sign": (
        b">Content-Length: +5\r\n\r\n", None, "record 1: BadLength", ['the Content-Length of record 1 is "+5", not 1 to 10 digits'],
    ),
    "a header that is too long": (
        recording(BEGUN) + b">" + b"a" * 4096, None, "record 3: HeaderTooLong",
        [f'no header part ends in the first 4096 bytes of record 3: "{"a" * 40}"...'],
    ),
    "a content that is too long": (
        b">Content-Length: 16777217\r\n\r\n", None, "record 1: ContentTooLong",
        [
            "the content of record 1 has 16777217 bytes; the limit is 16777216 bytes",
            "request less at once, such as by start and count of variables",
        ],
    ),
    "header lines that end with LF": (
        b">Content-Length: 2\n\n{}\n", None, "record 1: Cut",
        ['the input ends in the header part of record 1: "Content-Length: 2\\n\\n{}\\n"', *CONVERTED],
    ),
}
TRACES = {
    "printed text": (
        b"<28\nhi\nContent-Length: 2\r\n\r\n{}>0\n", None, "piece 1: adapter HeaderLine",
        ['the header part of the frame of the adapter has the line "hi", which is not NAME: VALUE', *PRINTED],
    ),
    "printed text alone": (
        b"<6\nhello\n", None, "piece 1: adapter Cut",
        ['the input ends in the header part of the frame of the adapter: "hello\\n"', STOPPED_EARLY],
    ),
    "a cut piece": (b">10\nCont", None, "piece 1: Cut", ["piece 1 has 10 bytes, and 6 of them are missing", STOPPED_EARLY]),
    "a length with a zero": (b">1\nC>01\no", None, "piece 2: BadCount", ['piece 2 begins ">01\\no"', PIECE]),
    "a cut length": (b">1\nC>1", None, "piece 2: Cut", ['the trace ends in the length of piece 2: ">1"', STOPPED_EARLY]),
    "a wrong length": (
        b">1\nCo>1\nn", None, "piece 2: BadMarker",
        ['piece 2 begins "o>1\\nn"', PIECE, "the length of the piece before it may be wrong: it counts bytes"],
    ),
    "lengths whose line ends were changed": (
        b">1\nC>1\r\no", None, "piece 2: BadCount", ['piece 2 begins ">1\\r\\no"', PIECE, "line ends may have been converted", KEEP_LINE_ENDS],
    ),
}
RULES = {
    "a verb": (
        b"hide event output\n", "line 1: BadRule",
        ["line 1 is: hide event output", '"hide" is not a verb: write blank, digits, hex, long, uuid, drop, fill, join, omit, swap, word or per-stop'],
    ),
    "no kind": (b"blank\n", "line 1: BadRule", ["line 1 is: blank", "after the verb comes a kind: request, response or event"]),
    "a kind": (
        b"hex event x y\nblank evnt x y\n", "line 2: BadRule",
        ["line 2 is: blank evnt x y", '"evnt" is not a kind: write request, response or event'],
    ),
    "no name": (b"blank event # x\n", "line 1: BadRule", ["line 1 is: blank event # x", "after the kind comes a command or an event, or * for any"]),
    "a name": (
        b"blank event a.b c\n", "line 1: BadRule",
        ["line 1 is: blank event a.b c", '"a.b" is not a name: quote one with other characters than letters, digits, _, - and $'],
    ),
    "dropped requests": (b"drop request x\n", "line 1: BadRule", ["line 1 is: drop request x", '"request" cannot be dropped: write drop event NAME']),
    "no place": (b"blank event stopped", "line 1: BadRule", ["line 1 is: blank event stopped", "after the name comes a place, such as body.reason"]),
    "a place": (
        b"blank event x body[0]\n", "line 1: BadRule",
        [
            "line 1 is: blank event x body[0]",
            '"body[0]" is not a place: write names with dots between them, [] for elements, and quotes as for names',
        ],
    ),
    "more after the rule": (
        b"blank event x y z\n", "line 1: BadRule",
        ["line 1 is: blank event x y z", '"z" is after the rule: only as LABEL or a comment may be there'],
    ),
    "half a swap": (
        b"swap response continue # and\n", "line 1: BadRule",
        ["line 1 is: swap response continue # and", "a swap names two messages: write swap KIND NAME KIND NAME"],
    ),
    "a swap alone": (b"swap\n", "line 1: BadRule", ["line 1 is: swap", "after the verb comes a kind: request, response or event"]),
    "a kind in a swap": (
        b"swap response * evnt stopped\n", "line 1: BadRule",
        ["line 1 is: swap response * evnt stopped", '"evnt" is not a kind: write request, response or event'],
    ),
    "more after a swap": (
        b"swap response * request * x\n", "line 1: BadRule",
        ["line 1 is: swap response * request * x", '"x" is after the rule: only a comment may be there'],
    ),
    "an id": (
        b"blank response stackTrace body.stackFrames[].id\n", "line 1: BadPlace",
        [
            "line 1 is: blank response stackTrace body.stackFrames[].id",
            '"body.stackFrames[].id" is an id that normalise renames, so no rule changes it: leave the rule out',
        ],
    ),
    "the type": (
        b"blank event * type\n", "line 1: BadPlace",
        [
            "line 1 is: blank event * type",
            '"type" is a member by which dapnorm recognises messages: leave the rule out',
        ],
    ),
    "a rule twice": (
        b"hex event x y\nhex event x y # again\n", "line 2: Repeated",
        ["line 2 is: hex event x y # again", "line 1 has the same rule", "leave one of them out"],
    ),
    "a rule for all events twice": (
        b"drop event *\ndrop event *\n", "line 2: Repeated", ["line 2 is: drop event *", "line 1 has the same rule", "leave one of them out"],
    ),
    "a swap twice": (
        b"swap response a event b\n\nswap event b response a\n", "line 3: Repeated",
        ["line 3 is: swap event b response a", "line 1 has the same rule", "leave one of them out"],
    ),
    "digits and uuid": (
        b"# x\nuuid event output body.output\ndigits event * body.output\n", "line 3: Clash",
        ["line 3 is: digits event * body.output", "line 2 has a uuid rule for the same place", "no place has both: leave one of them out"],
    ),
    "uuid and digits": (
        b"digits event output body.output\nuuid event * body.output\n", "line 2: Clash",
        ["line 2 is: uuid event * body.output", "line 1 has a digits rule for the same place", "no place has both: leave one of them out"],
    ),
    "long without a place": (b"long event stopped\n", "line 1: BadRule", ["line 1 is: long event stopped", "after the name comes a place, such as body.reason"]),
    "no category": (
        b"drop event output stdout\n", "line 1: BadRule",
        ["line 1 is: drop event output stdout", '"stdout" is not a category: write category= and a word or a JSON string'],
    ),
    "a word that is not a category": (
        b"drop event output category=a/b\n", "line 1: BadRule",
        ["line 1 is: drop event output category=a/b", '"category=a/b" is not a category: write category= and a word or a JSON string'],
    ),
    "more after a category": (
        b"drop event output category=a b\n", "line 1: BadRule",
        ["line 1 is: drop event output category=a b", '"b" is after the rule: only a comment may be there'],
    ),
    "more after per-stop": (b"per-stop event\n", "line 1: BadRule", ["line 1 is: per-stop event", '"event" is after the rule: only a comment may be there']),
    "a category that a rule changes": (
        b"hex event output body.category\ndrop event * category=a\n", "line 2: Clash",
        [
            "line 2 is: drop event * category=a", "line 1 changes the category",
            "no rule changes the category by which a rule drops events: leave one of them out",
        ],
    ),
    "a change of a category": (
        b"drop event * category=a\n\nblank event output body.category\n", "line 3: Clash",
        [
            "line 3 is: blank event output body.category", "line 1 drops events by this category",
            "no rule changes the category by which a rule drops events: leave one of them out",
        ],
    ),
    "a category of requests": (
        b"digits request evaluate category=a arguments.x\n", "line 1: BadRule",
        ["line 1 is: digits request evaluate category=a arguments.x", "only a rule for events has a category: leave category= out"],
    ),
    "a category without a place": (
        b"digits event output category=a\n", "line 1: BadRule",
        ["line 1 is: digits event output category=a", "after the name comes a place, such as body.reason"],
    ),
    "a category that is not a word": (
        b"digits event output category=a/b body.output\n", "line 1: BadRule",
        ["line 1 is: digits event output category=a/b body.output", '"category=a/b" is not a category: write category= and a word or a JSON string'],
    ),
    "a body that a rule by category needs": (
        b"digits event output category=a body.output\nblank event * body\n", "line 2: Clash",
        [
            "line 2 is: blank event * body", "line 1 selects events by the category that this line changes",
            "no rule changes the category by which a rule selects events: leave one of them out",
        ],
    ),
    "a rule by category after one for the body": (
        b"blank event * body\ndigits event output category=a body.output\n", "line 2: Clash",
        [
            "line 2 is: digits event output category=a body.output", "line 1 changes the category by which this line selects events",
            "no rule changes the category by which a rule selects events: leave one of them out",
        ],
    ),
    "no value": (b"fill event a x\n", "line 1: BadRule", ["line 1 is: fill event a x", "after the place comes a value: an integer, true, false or a string in quotes"]),
    "a value that is a list": (
        b"fill event a x []\n", "line 1: BadRule",
        ["line 1 is: fill event a x []", '"[]" is not a value: write an integer, true, false or a string in quotes'],
    ),
    "a word that is not a value": (
        b"fill event a x yes\n", "line 1: BadRule",
        ["line 1 is: fill event a x yes", '"yes" is not a value: write an integer, true, false or a string in quotes'],
    ),
    "elements that are filled": (
        b"fill event a x[] 1\n", "line 1: BadPlace",
        ["line 1 is: fill event a x[] 1", '"x[]" is not a place of fill: end it with a name, and write [] for elements'],
    ),
    "elements that are filled by their name": (
        b'fill event a v["x"].y 1\n', "line 1: BadPlace",
        ['line 1 is: fill event a v["x"].y 1', '"v[\\"x\\"].y" is not a place of fill: end it with a name, and write [] for elements'],
    ),
    "a type that is filled": (
        b"fill event a type 1\n", "line 1: BadPlace",
        ["line 1 is: fill event a type 1", '"type" is a member by which dapnorm recognises messages: leave the rule out'],
    ),
    "filled twice": (
        b"fill event a x 1\nfill event a x 2\n", "line 2: Repeated",
        ["line 2 is: fill event a x 2", "line 1 sets the same member", "leave one of them out"],
    ),
    "filled with two values": (
        b"fill event * x 1\nfill event a x 2\n", "line 2: Clash",
        ["line 2 is: fill event a x 2", "line 1 may set the same member", "leave one of them out"],
    ),
    "a value that is blanked and filled": (
        b"fill event a body.x 1\nblank event * body\n", "line 2: Clash",
        [
            "line 2 is: blank event * body", "line 1 sets a member of the value that this line blanks",
            "no rule blanks a value in which another one sets a member: leave one of them out",
        ],
    ),
    "a value that is filled and blanked": (
        b"blank event * body\nfill event a body.x 1\n", "line 2: Clash",
        [
            "line 2 is: fill event a body.x 1", "line 1 blanks a value that contains the member",
            "no rule blanks a value in which another one sets a member: leave one of them out",
        ],
    ),
    "nothing that is omitted": (b"omit\n", "line 1: BadRule", ["line 1 is: omit", "after the verb comes a kind: request, response or event"]),
    "a kind of what is omitted": (
        b'omit threads body.threads["x"]\n', "line 1: BadRule",
        ['line 1 is: omit threads body.threads["x"]', '"threads" is not a kind: write request, response or event'],
    ),
    "omitted elements without a message": (
        b"omit response # threads\n", "line 1: BadRule", ["line 1 is: omit response # threads", "after the kind comes a command or an event, or * for any"],
    ),
    "omitted elements of any place": (
        b"omit response threads\n", "line 1: BadRule", ["line 1 is: omit response threads", "after the name comes a place, such as body.reason"],
    ),
    "a bracket of omitted elements that is not closed": (
        b'omit event a v["x"\n', "line 1: BadRule",
        ['line 1 is: omit event a v["x"', '"v[\\"x\\"" is not a place: write names with dots between them, [] for elements, and quotes as for names'],
    ),
    "a category of what is omitted": (
        b'omit event a category=b v["x"]\n', "line 1: BadRule",
        [
            'line 1 is: omit event a category=b v["x"]',
            '"category=b" is not a place: write names with dots between them, [] for elements, and quotes as for names',
        ],
    ),
    "more after omitted elements": (
        b'omit event a v["x"] 1\n', "line 1: BadRule", ['line 1 is: omit event a v["x"] 1', '"1" is after the rule: only a comment may be there'],
    ),
    "a label of omitted elements": (
        b'omit event a v["x"] as b\n', "line 1: BadRule", ['line 1 is: omit event a v["x"] as b', '"as b" is after the rule: only a comment may be there'],
    ),
    "elements of any name that are omitted": (
        b"omit event a x[]\n", "line 1: BadPlace",
        ["line 1 is: omit event a x[]", '"x[]" is not a place of omit: end it with ["NAME"], the name of the elements'],
    ),
    "a list that is omitted": (
        b"omit response threads body.threads\n", "line 1: BadPlace",
        ["line 1 is: omit response threads body.threads", '"body.threads" is not a place of omit: end it with ["NAME"], the name of the elements'],
    ),
    "a member of elements that is omitted": (
        b'omit event a v["x"].name\n', "line 1: BadPlace",
        ['line 1 is: omit event a v["x"].name', '"v[\\"x\\"].name" is not a place of omit: end it with ["NAME"], the name of the elements'],
    ),
    "omitted twice": (
        b'omit event a v["x"]\n\nomit event a v["\\u0078"] # again\n', "line 3: Repeated",
        ['line 3 is: omit event a v["\\u0078"] # again', "line 1 omits the same elements", "leave one of them out"],
    ),
    "joined requests": (b"join request x\n", "line 1: BadRule", ["line 1 is: join request x", '"request" cannot be joined: write join event output']),
    "another event that is joined": (b"join event stopped\n", "line 1: BadRule", ["line 1 is: join event stopped", '"stopped" cannot be joined: write join event output']),
    "nothing that is joined": (b"join\n", "line 1: BadRule", ["line 1 is: join", "only output is joined: write join event output"]),
    "a place of joined output": (
        b"join event output body.output\n", "line 1: BadRule",
        ["line 1 is: join event output body.output", '"body.output" is not per-stop: write join event output per-stop, or leave it out'],
    ),
    "more after joined output": (
        b"join event output per-stop x\n", "line 1: BadRule",
        ["line 1 is: join event output per-stop x", '"x" is after the rule: only a comment may be there'],
    ),
    "joined twice": (
        b"join event output per-stop\njoin event output\n", "line 2: Repeated",
        ["line 2 is: join event output", "line 1 joins output, too", "leave one of them out"],
    ),
    "joined by a category that a rule changes": (
        b"hex event output body.category\njoin event output\n", "line 2: Clash",
        ["line 2 is: join event output", "line 1 changes the category", "no rule changes the category by which output is joined: leave one of them out"],
    ),
    "a change of the category of joined output": (
        b"join event output\n\nblank event * body.category\n", "line 3: Clash",
        [
            "line 3 is: blank event * body.category", "line 1 joins output by this category",
            "no rule changes the category by which output is joined: leave one of them out",
        ],
    ),
    "the category by which a rule selects": (
        b"hex event output category=a body.category\n", "line 1: BadPlace",
        [
            "line 1 is: hex event output category=a body.category",
            '"body.category" is the category by which the rule finds its events, or the body that contains it: leave the rule out',
        ],
    ),
    "the name by which a rule finds its element": (
        b'blank event x v["a b"].name\n', "line 1: BadPlace",
        [
            'line 1 is: blank event x v["a b"].name',
            '"v[\\"a b\\"].name" is the name by which the rule finds its element: leave the rule out',
        ],
    ),
    "uuid and digits at one element": (
        b'digits event x v["a"].y\nuuid event x v[].y\n', "line 2: Clash",
        ["line 2 is: uuid event x v[].y", "line 1 has a digits rule for the same place", "no place has both: leave one of them out"],
    ),
    "a bracket that is not closed": (
        b'blank event x v["a".y\n', "line 1: BadRule",
        [
            'line 1 is: blank event x v["a".y',
            '"v[\\"a\\".y" is not a place: write names with dots between them, [] for elements, and quotes as for names',
        ],
    ),
    "no text": (b"word\n", "line 1: BadRule", ["line 1 is: word", "a text and its word are needed: write word TEXT WORD"]),
    "no word for a text": (b"word a # b\n", "line 1: BadRule", ["line 1 is: word a # b", "a text and its word are needed: write word TEXT WORD"]),
    "a text": (
        b"word /a b\n", "line 1: BadRule",
        ["line 1 is: word /a b", '"/a" is not a text: quote one with other characters than letters, digits, _, - and $'],
    ),
    "more after a word": (b"word a b c\n", "line 1: BadRule", ["line 1 is: word a b c", '"c" is after the rule: only a comment may be there']),
    "an empty text": (
        b'word a 1\nword "" b\n', "line 2: BadWord",
        [
            'line 2 is: word "" b', "the text is empty, or its word can overlap it",
            'choose a word that shares no start or end with a text, such as "<home>"',
        ],
    ),
    "a word that can overlap another text": (
        b"word c d\nword a 1\nword b 2a\n", "line 3: BadWord",
        [
            "line 3 is: word b 2a", "line 2 has a text or a word that can overlap those of this line",
            'choose a word that shares no start or end with a text, such as "<home>"',
        ],
    ),
    "a text twice": (
        b'word a 1\n\nword "a" 2\n', "line 3: Repeated",
        ['line 3 is: word "a" 2', "line 1 has a word for this text", "leave one of them out"],
    ),
    "no label": (b"hex event x y as # z\n", "line 1: BadRule", ["line 1 is: hex event x y as # z", "after as comes a label, such as address"]),
    "a word that is not a label": (
        b"hex event x y as a.b\n", "line 1: BadRule",
        ["line 1 is: hex event x y as a.b", f'"a.b" {NO_LABEL}'],
    ),
    "a label with an upper-case letter": (
        b"hex event x y as Address\n", "line 1: BadLabel",
        ["line 1 is: hex event x y as Address", f'"Address" {NO_LABEL}'],
    ),
    "an empty label": (
        b'hex event x y as ""\n', "line 1: BadLabel",
        ['line 1 is: hex event x y as ""', f'"\\"\\"" {NO_LABEL}'],
    ),
    "a kind of id as a label": (
        b'hex event x y as "frame"\n', "line 1: BadLabel",
        ['line 1 is: hex event x y as "frame"', '"\\"frame\\"" is the name of a kind of id that normalise renames: choose another label'],
    ),
    "more after a label": (
        b"hex event x y as address z\n", "line 1: BadRule",
        ["line 1 is: hex event x y as address z", '"z" is after the rule: only a comment may be there'],
    ),
    "a label of a member that is set": (
        b"fill event x y 1 as a\n", "line 1: BadRule",
        ["line 1 is: fill event x y 1 as a", '"as a" is after the rule: only a comment may be there'],
    ),
    "names of elements that are declared": (
        b'digits response threads body.threads["a"].name as process\n', "line 1: BadPlace",
        [
            'line 1 is: digits response threads body.threads["a"].name as process',
            '"body.threads[\\"a\\"].name" is the name by which rules find elements: leave the rule out',
        ],
    ),
    "a category that is declared": (
        b"blank event x body.category as process\n", "line 1: BadPlace",
        [
            "line 1 is: blank event x body.category as process",
            '"body.category" is the category by which rules find events, or the body that contains it: leave the rule out',
        ],
    ),
    "a sequence number that is declared": (
        b"blank event x seq as process\n", "line 1: BadPlace",
        ["line 1 is: blank event x seq as process", '"seq" is an id that normalise renames, so no rule changes it: leave the rule out'],
    ),
    "declared twice": (
        b"hex event x y as a\nhex event x y as a\n", "line 2: Repeated",
        ["line 2 is: hex event x y as a", "line 1 has the same rule", "leave one of them out"],
    ),
    "declared with two labels": (
        b"hex event x y as a\nhex event * y as b\n", "line 2: Clash",
        [
            "line 2 is: hex event * y as b", "line 1 declares ids at the same place",
            "at one place each action has one label, and blank excludes the others: leave one of them out",
        ],
    ),
    "numbers beside UUIDs": (
        b"uuid event x y as a\ndigits event * y as b\n", "line 2: Clash",
        ["line 2 is: digits event * y as b", "line 1 declares ids at the same place", "no place has both: leave one of them out"],
    ),
    "declared after digits": (
        b"digits event x y\nhex event * y as b\n", "line 2: Clash",
        ["line 2 is: hex event * y as b", "line 1 has a digits rule for the same place", NUMBERS_STAY],
    ),
    "declared after long": (
        b"long event x y\nhex event * y as b\n", "line 2: Clash",
        ["line 2 is: hex event * y as b", "line 1 has a long rule for the same place", NUMBERS_STAY],
    ),
    "digits of declared ids": (
        b"hex event * y as b\n\ndigits event x y\n", "line 3: Clash",
        ["line 3 is: digits event x y", "line 1 declares ids at the same place", NUMBERS_STAY],
    ),
    "no UTF-8": (b"\n# \xff\n", "line 2: NotUtf8", ['line 2 is not UTF-8 after 2 bytes: "\\xff"', "save the file as UTF-8"]),
    "too many rules": (
        b"".join(b"drop event e%d\n" % number for number in range(1001)), "line 1001: TooMany",
        ["line 1001 is: drop event e1000", "a file has at most 1000 rules: join some by * in the place of a name"],
    ),
    "a long file": (b"#" * 65537, "line 1: TooLong", ["a file of rules has at most 65536 bytes"]),
}
# Golden files that are refused.
GOLDEN = {
    "a trace": (
        b">23\nContent-Length: 2\r\n\r\n{}", "g: record 1: HeaderLine",
        ['the input begins ">23\\nContent-Length: 2\\r\\n\\r\\n{}"', "this looks like a trace: dapnorm record makes a recording of it"],
    ),
}
# Commands with `--explain`, for what `golden` does not reach: the command, its input, the line of the refusal, and the lines that explain it.
COMMANDS = {
    "a trace that is not recorded": (
        "check", b">23\nContent-Length: 2\r\n\r\n{}", "record 1: HeaderLine",
        ['the input begins ">23\\nContent-Length: 2\\r\\n\\r\\n{}"', "this looks like a trace: dapnorm record makes a recording of it"],
    ),
    "a recording that is recorded": (
        "record", record(">{}"), "piece 1: BadCount",
        ['the input begins ">Content-Length: 2\\r\\n\\r\\n{}\\n"', "this looks like a recording: leave out dapnorm record"],
    ),
    "frames that are recorded": (
        "record", frame("{}"), "piece 1: BadMarker",
        ['the input begins "Content-Length: 2\\r\\n\\r\\n{}"', "this looks like frames without > and <: only dapnorm compact reads these"],
    ),
    "a recording that is compacted": (
        "compact", record(">{}"), "record 1: NoLength",
        ['the input begins ">Content-Length: 2\\r\\n\\r\\n{}\\n"', "this looks like a recording: dapnorm compact reads frames without > and <"],
    ),
    "a number without a message": (
        "compact", frame('{"a":0.5}'), "record 1: Fraction",
        [
            "record 1 is message of unknown type", "a is 0.5, which has a fraction; dapnorm takes only integers of 64 bits", NOTHING_CHANGES,
        ],
    ),
    "a number of a frame": (
        "compact", frame("{}") + frame('{"type":"event","event":"x","body":{"a":-0}}'), "record 2: Fraction",
        [
            'record 2 is event "x"', "body.a is -0, which is minus zero; dapnorm takes only integers of 64 bits", to_blank("event x body.a"), APPLY,
        ],
    ),
    "no JSON in a frame": (
        "compact", frame("{}") + frame("[1;2]"), "record 2: Json",
        [
            'the content of record 2 is not JSON near byte 1: "[1;2]"', "the program that sent it does not follow the protocol there: fix it",
        ],
    ),
}


def explained(report, name, ran, line, lines, status=2):
    first, *others = ran.stderr.decode().splitlines()
    answer = ran.returncode, first
    report.check(f"{name}: the line", answer == (status, f"dapnorm: {line}"), repr(answer))
    report.check(f"{name}: the lines that explain it", others == [f"  {line}" for line in lines], "\n" + "\n".join(others))
    report.check(f"{name}: no control character", all(line.isprintable() for line in others), repr(others))


def run(folder, *words, given=subprocess.DEVNULL):
    return subprocess.run([PROGRAM, *words], stdin=given, capture_output=True, cwd=folder.path, timeout=60)


def inputs(report):
    for name, (given, rules, line, lines) in {**NUMBERS, **CONTENTS, **SESSION_RULES, **BYTES, **TRACES}.items():
        with Folder(session=given, rules=(rules or "").encode()) as folder:
            words = ["golden", *(["--rules", "rules"] if rules else []), "--update", "g", "session"]
            explained(report, name, run(folder, *words), f"golden: {line}", lines)
            report.check(f"{name}: no golden file", folder.read("g") is None)


def files(report):
    for name, (rules, line, lines) in RULES.items():
        with Folder(session=recording(CONFIGURED), rules=rules) as folder:
            words = ["golden", "--rules", "rules", "--update", "g", "session"]
            explained(report, f"rules with {name}", run(folder, *words), f"rules: {line}", lines)
            report.check(f"rules with {name}: no golden file", folder.read("g") is None)
    for name, (golden, line, lines) in GOLDEN.items():
        with Folder(session=recording(CONFIGURED), g=golden) as folder:
            explained(report, f"a golden file that is {name}", run(folder, "golden", "g", "session"), f"golden: {line}", lines)


def commands(report):
    for name, (command, given, line, lines) in COMMANDS.items():
        with Folder(session=given) as folder:
            explained(report, f"{command}, {name}", run(folder, command, "--explain", "session"), line, lines)
    with Folder() as folder:
        lines = ["a\\u001b.rec: No such file or directory (os error 2)"]
        explained(report, "a name with a control character", run(folder, "check", "--explain", "a\x1b.rec"), "read fault", lines, 4)


def faults(report):
    """A reader that fails is named, with the reason of the system."""
    with Folder() as folder:
        source = os.open(folder.path, os.O_RDONLY)
        try:
            reason = ["standard input: Is a directory (os error 21)"]
            explained(report, "a folder as standard input", run(folder, "golden", "--update", "g", given=source), "golden: read fault", reason, 4)
        finally:
            os.close(source)


def main():
    report = Report()
    if not report.check("the gate has built the program", os.access(PROGRAM, os.X_OK)):
        return report.close()
    inputs(report)
    files(report)
    faults(report)
    if b"--explain" in run(Folder(), "help", "check").stdout:
        commands(report)
    return report.close()


if __name__ == "__main__":
    sys.exit(main())
