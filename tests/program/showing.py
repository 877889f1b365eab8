"""Takes recordings through `show`, `show --full`, `show --faulty` and `show --record`."""
import json
import os
import sys
import time

from tests.report import PROGRAM, TOP, Report, run
from tests.program.worked_runs import BEGUN, INITIALIZE, OUTPUT, RESPONSE, THREADS, record, recording, refusal

sys.path.insert(0, os.path.join(TOP, "scripts"))
from one_direction import records
from show_reference import leaves, shown

EXAMPLES = os.path.join(TOP, "examples")

# The recordings that are refused, and the line that marks the record. That a response has another command than its request is
# judged only where faults are marked.
REFUSED = {
    "lldb16-a-basic.1.rec": ("record 364: Fraction", b"364 < fault: Fraction\n"),
    "perl-a-basic.1.rec": ("record 4: Missing row 1", b"4 < fault: Missing row 1\n"),
}

# What two of them are shown as.
STORED = {
    "debugpy-l-stopentry.1.rec": "debugpy-stopentry.shown",
    "dlv-l-stopentry.3.rec": "dlv-stopentry.shown",
}

NO_JSON = record('<{"event":')
A_FRACTION = record('<{"body":{"x":1.5},"event":"x","seq":1,"type":"event"}')
NO_TYPE = record('<{"seq":1}')
AN_ARRAY = record("<[1]")
# What `show --full` prints of the first two records.
BEGUN_LINES = (
    '1 > request "initialize" seq=1\n  arguments.adapterID "mock"\n  command "initialize"\n  seq 1\n  type "request"\n'
    '2 < response "initialize" seq=1 request_seq=1 ok\n  command "initialize"\n  request_seq 1\n  seq 1\n  success true\n'
    '  type "response"\n'
)
AGAIN = '3 < response "initialize" seq=1 request_seq=1 ok\n'

# A recording, the output of `show --faulty`, and the first refusal; after a fault of the framing nothing is read.
FAULTY = {
    "an empty recording": (b"", "", None),
    "no fault": (recording(BEGUN), '1 > request "initialize" seq=1\n2 < response "initialize" seq=1 request_seq=1 ok\n', None),
    "a rule": (
        recording([*BEGUN, RESPONSE]),
        '1 > request "initialize" seq=1\n2 < response "initialize" seq=1 request_seq=1 ok\n' + AGAIN + "  fault: AnsweredTwice\n",
        "record 3: AnsweredTwice",
    ),
    # The refused request is not among the messages that later ones are judged after.
    "a message after one that breaks a rule": (
        recording([THREADS, INITIALIZE]),
        '1 > request "threads" seq=2\n  fault: NotInitialized\n2 > request "initialize" seq=1\n',
        "record 1: NotInitialized",
    ),
    "a response to a refused request": (
        recording([*BEGUN, INITIALIZE, THREADS.replace('"seq":2', '"seq":1'), THREADS]),
        '1 > request "initialize" seq=1\n2 < response "initialize" seq=1 request_seq=1 ok\n'
        '3 > request "initialize" seq=1\n  fault: InitializeTwice\n'
        '4 > request "threads" seq=1\n  fault: SeqUsed\n5 > request "threads" seq=2\n',
        "record 3: InitializeTwice",
    ),
    "no messages": (
        NO_JSON + A_FRACTION + NO_TYPE + AN_ARRAY + recording(BEGUN),
        "1 < fault: Json\n2 < fault: Fraction\n3 < fault: UnknownType\n4 < fault: NotObject\n"
        '5 > request "initialize" seq=1\n6 < response "initialize" seq=1 request_seq=1 ok\n',
        "record 1: Json",
    ),
    "no LF": (recording([INITIALIZE])[:-1] + b"x", "1 fault: NoLineEnd\n", "record 1: NoLineEnd"),
    "a cut record": (
        recording([INITIALIZE]) + recording([RESPONSE])[:-2], '1 > request "initialize" seq=1\n2 fault: Cut\n', "record 2: Cut",
    ),
    "the first of two refusals": (NO_JSON + b"x", "1 < fault: Json\n2 fault: BadMarker\n", "record 1: Json"),
    # The header part does not end.
    "a trace": (b"> 5\nabcde\n", "1 fault: Cut\n", "record 1: Cut"),
}


def read(*path):
    with open(os.path.join(EXAMPLES, *path), "rb") as file:
        return file.read()


def captures(report):
    names = sorted(name for name in os.listdir(os.path.join(EXAMPLES, "captures")) if name.endswith(".rec"))
    report.check("each recording is there", len(names) == 15, str(len(names)))
    for name in names:
        given = read("captures", name)
        answer, full, faulty = run(["show"], given), run(["show", "--full"], given), run(["show", "--faulty"], given)
        if name in REFUSED:
            why, mark = REFUSED[name]
            wanted = (2, b"", refusal(why))
            report.check(f"{name} is refused, and nothing is shown", answer == wanted, repr(answer))
            report.check(f"{name} is refused by show --full", full == wanted, repr(full))
            report.check(f"{name} is marked", faulty[0] == 2 and mark in faulty[1] and faulty[2] == refusal(why), repr(faulty[2]))
            report.check(f"{name} is shown to its end", faulty[1].count(b" seq=") > len(list(records(given))) // 2)
            continue
        report.check(f"{name} is shown", answer == (0, shown(given), b""), repr((answer[0], answer[2])))
        report.check(f"{name} is shown in full", full == (0, shown(given, leaves), b""), repr((full[0], full[2])))
        if run(["check"], given)[0] == 0:
            report.check(f"{name} has no fault", faulty == answer, repr((faulty[0], faulty[2])))
        if name in STORED:
            report.check(f"{name} is shown as {STORED[name]}", answer[1] == read(STORED[name]))


def faults(report):
    for name, (given, text, why) in FAULTY.items():
        wanted = (2, text.encode(), refusal(why)) if why else (0, text.encode(), b"")
        answer = run(["show", "--faulty"], given)
        report.check(f"{name}: show --faulty", answer == wanted, repr(answer))
    answer = run(["show", "--full", "--faulty"], recording([*BEGUN, RESPONSE]))
    again = AGAIN + "  fault: AnsweredTwice\n" + "".join(line + "\n" for line in leaves(json.loads(RESPONSE[1:])))
    report.check("leaves and faults", answer == (2, (BEGUN_LINES + again).encode(), refusal("record 3: AnsweredTwice")), repr(answer))


# Contents that differ a little. No two of them may have equal lines.
CONTENTS = [
    '{"x":%s}' % value for value in (
        "0", "1", '"0"', "null", '"null"', "true", "false", '""', "[]", "{}", "[[]]", "[{}]", "[0]", '{"0":0}', '{"a":{}}', '{"a":[]}',
        '{"a.b":0}', '{"a":{"b":0}}', '{"a[0]":0}', '{"a":[0]}', '{"":0}', '{"a b":0}', '{"a\\nb":0}', '"a\\nb"', '"' + "y" * 300 + '"',
        '"' + "y" * 301 + '"', "18446744073709551615", "-9223372036854775808", '"\\u007f"', '"\\u2028"', '"é"',
    )
]


def full_lines(report):
    """Different documents have different lines."""
    line = '<{"body":%s,"event":"x","seq":1,"type":"event"}'
    texts = {}
    for content in CONTENTS:
        status, text, errors = run(["show", "--full"], recording([line % content]))
        document = json.dumps(json.loads(content))
        report.check(f"{content[:40]}: shown in full", (status, errors) == (0, b""), repr((status, errors)))
        report.check(f"{content[:40]}: as the script", text == shown(recording([line % content]), leaves), repr(text))
        report.check(f"{content[:40]}: no other has these lines", texts.setdefault(text, document) == document)
    report.check("initialize in full", run(["show", "--full"], recording(BEGUN)) == (0, BEGUN_LINES.encode(), b""))
    report.check("nothing in full", run(["show", "--full"]) == (0, b"", b""))


def one_record(report):
    name = "debugpy-l-stopentry.1.rec"
    given = read("captures", name)
    contents = [json.loads(content) for _, _, content in records(given)]
    for number, content in enumerate(contents, 1):
        text = json.dumps(content, indent=2, sort_keys=True, ensure_ascii=False) + "\n"
        answer = run(["show", "--record", str(number)], given)
        report.check(f"{name}: record {number}", answer == (0, text.encode(), b""), repr(answer[:1]))
    past = len(contents) + 1
    rows = [
        ("a record past the last", given, past, (2, b"", f"dapnorm: no record {past}: the recording has {past - 1}\n".encode())),
        ("a record of none", b"", 1, (2, b"", b"dapnorm: no record 1: the recording has 0\n")),
        ("one that is no message", NO_TYPE, 1, (0, b'{\n  "seq": 1\n}\n', b"")),
        ("one before faults", record("<[[],{},[1]]") + b"x", 1, (0, b"[\n  [],\n  {},\n  [\n    1\n  ]\n]\n", b"")),
        ("one after contents that are no JSON", NO_JSON + record("<7"), 2, (0, b"7\n", b"")),
        ("no JSON", record('<{"b":1,'), 1, (0, b'{"b":1,\n', b"")),
        ("no UTF-8", b"<Content-Length: 2\r\n\r\n\xff\x1b\n", 1, (0, b"\xff\x1b\n", b"")),
        ("no content", b"<Content-Length: 0\r\n\r\n\n", 1, (0, b"\n", b"")),
        ("a fraction", record("<0") + record('<{"b":0.50, "a":1e2}'), 2, (0, b'{"b":0.50, "a":1e2}\n', b"")),
        ("a cut record", record("<0") + record("<0")[:-1], 2, (2, b"", refusal("record 2: Cut"))),
        ("a faulty record before it", b"x", 2, (2, b"", refusal("record 1: BadMarker"))),
    ]
    for name, given, number, wanted in rows:
        answer = run(["show", "--record", str(number)], given)
        report.check(f"{name}: show --record", answer == wanted, repr(answer))


def large_contents(report):
    """Wide and deep contents."""
    event = '<{"body":%s,"event":"x","seq":2,"type":"event"}'
    wide = event % ("[" + ",".join(["0"] * 1_000_000) + "]")
    deep = event % ("[" * 126 + "0" + "]" * 126)
    for name, line in ("wide", wide), ("deep", deep):
        given = recording([*BEGUN, line])
        for words in ["--full"], ["--faulty", "--full"], ["--record", "3"]:
            begun = time.monotonic()
            status, text, errors = run(["show", *words], given)
            report.check(f"{name}: show {words[0]}", (status, errors) == (0, b"") and text, repr((status, errors)))
            report.check(f"{name}: show {words[0]} takes seconds", time.monotonic() - begun < 30)
        report.check(f"{name}: as the script", run(["show", "--full"], given)[1] == shown(given, leaves))


def main():
    report = Report()
    if not report.check("the gate has built the program", os.access(PROGRAM, os.X_OK)):
        return report.close()
    for test in captures, faults, full_lines, one_record, large_contents:
        test(report)
    report.check("an empty recording has no line", run(["show"]) == (0, b"", b""))
    return report.close()


if __name__ == "__main__":
    sys.exit(main())
