"""Fills in members that an adapter leaves out, by `fill` lines of a rules file, and compares what is filled with a script."""
import json
import os
import sys

from tests.program.asked import asks_of_files, judged
from tests.program.captures import REFUSED_RECORDINGS
from tests.program.golden import Folder
from tests.program.worked_runs import FILLED, INITIALIZE, record, recording
from tests.report import TOP

sys.path.insert(0, os.path.join(TOP, "scripts"))
from compact_reference import canonical
from one_direction import records

CAPTURES = os.path.join(TOP, "examples", "captures")
RULES = os.path.join(TOP, "examples", "rules", "perl.rules")
# What Perl's adapter sends.
INITIALIZED = '<{"event":"initialized","body":null,"type":"event","jsonrpc":"2.0"}'


def event(body, name="a"):
    return f'<{{"body":{body},"event":"{name}","seq":1,"type":"event"}}'


# Rules, a record, and what they make of it.
WORKED = [
    ("fill event * seq 0", '<{"event":"a","type":"event"}', '<{"event":"a","seq":0,"type":"event"}'),
    ("fill event * seq 0", '<{"event":"a","seq":null,"type":"event"}', '<{"event":"a","seq":0,"type":"event"}'),
    ("fill event * seq 0", '<{"event":"a","seq":7,"type":"event"}', '<{"event":"a","seq":7,"type":"event"}'),
    ("fill event * seq 0", '<{"type":"event"}', '<{"seq":0,"type":"event"}'),
    ("fill event * seq 0", '<{"command":"a","type":"response"}', '<{"command":"a","type":"response"}'),
    ("fill event a seq 0", '<{"event":"b","type":"event"}', '<{"event":"b","type":"event"}'),
    ("fill event a body.x true", event("{}"), event('{"x":true}')),
    ("fill event a body.x false", event('{"x":null,"y":1}'), event('{"x":false,"y":1}')),
    ("fill event a body.x -9223372036854775808", event('{"y":1}'), event('{"x":-9223372036854775808,"y":1}')),
    ("fill event a body.x 18446744073709551615", event('{"w":1}'), event('{"w":1,"x":18446744073709551615}')),
    ('fill event a body.x "a \\"b\\" \\u00e9"', event("{}"), event('{"x":"a \\"b\\" é"}')),
    ("fill event a body.x 1", event('"text"'), event('"text"')),
    ("fill event a body.x 1", event("[]"), event("[]")),
    ("fill event a body.x 1", event("null"), event("null")),
    ("fill event a body.x 1", '<{"event":"a","type":"event"}', '<{"event":"a","type":"event"}'),
    ("fill event a body.x 1", event('{"x":{}}'), event('{"x":{}}')),
    ("fill event a body 1", event("null"), event("1")),
    ("fill event a body.v[].x 1", event('{"v":[{},{"x":2},3,{"x":null},[]]}'), event('{"v":[{"x":1},{"x":2},3,{"x":1},[]]}')),
    ("fill event a body.v[].w[].x 1", event('{"v":[{"w":[{},{}]},{"w":{}},{}]}'), event('{"v":[{"w":[{"x":1},{"x":1}]},{"w":{}},{}]}')),
    ('fill event a "b c"."é" 1', '<{"b c":{},"event":"a","type":"event"}', '<{"b c":{"é":1},"event":"a","type":"event"}'),
    # Actions, drops and words see what is filled in, or come before it.
    ('fill event a body.x "a1"\ndigits event a body.x', event("{}"), event('{"x":"a0"}')),
    ('fill event a body.name "n"\nblank event a body.v["n"].y\nfill event a body.v[].name "n"', event('{"v":[{"y":"1"}]}'), event('{"name":"n","v":[{"name":"n","y":""}]}')),
    ('fill event a body.category "c"\ndrop event a category=c', event("{}"), None),
    ('word "one" "<two>"\nfill event a body.x "one"', event('{"y":"one"}'), event('{"x":"one","y":"<two>"}')),
    ("fill event a body.x 1", event('{"y":1.5,"y":2}'), event('{"x":1,"y":2}')),
]


def worked(report):
    for rules, given, wanted in WORKED:
        text = recording([wanted] if wanted else [])
        asks_of_files(report, f"{rules}: {given}", ["mask", "rules"], {"rules": rules.encode()}, record(given), (0, text, b""))
        if wanted and not rules.startswith("word"):
            asks_of_files(report, f"{rules}: {given}, again", ["mask", "rules"], {"rules": rules.encode()}, text, (0, text, b""))


def filled(doc, place, value):
    """Sets the last member of a place in each object in which it is absent or null."""
    first, *rest = place
    if first == "[]":
        for element in doc if isinstance(doc, list) else []:
            filled(element, rest, value)
    elif isinstance(doc, dict):
        if rest:
            filled(doc.get(first), rest, value)
        elif doc.get(first) is None:
            doc[first] = value


def captures(report):
    """Members that real sessions have in some messages."""
    rules = b'fill response * body.variables[].presentationHint.kind 0\nfill event output body.category "console"\nfill request * arguments.x 1\n'
    places = [("response", ["body", "variables", "[]", "presentationHint", "kind"], 0), ("event", ["body", "category"], "console"), ("request", ["arguments", "x"], 1)]
    for name in sorted(os.listdir(CAPTURES)):
        if not name.endswith(".rec") or name in REFUSED_RECORDINGS:
            continue
        with open(os.path.join(CAPTURES, name), "rb") as file:
            text = file.read()
        lines = []
        for side, _, content in records(text):
            message = json.loads(content)
            for kind, place, value in places:
                if message["type"] == kind and (kind != "event" or message["event"] == "output"):
                    filled(message, place, value)
            lines.append((">" if side == "client" else "<") + canonical(message).decode())
        asks_of_files(report, f"{name}: as the script", ["mask", "rules"], {"rules": rules}, text, (0, recording(lines), b""))


def perl(report):
    """Sessions of Perl's adapter are accepted by its rules, and rejected without them."""
    with open(os.path.join(CAPTURES, "perl-a-basic.1.rec"), "rb") as file:
        session = file.read()
    with open(RULES, "rb") as file:
        rules = file.read()
    with Folder(rules=rules, a=session, b=session, none=b"") as folder:
        report.check("without rules", folder.run("compare", "--rules", "none", "a", "b")[0] == 2)
        answer = folder.run("compare", "--rules", "rules", "a", "b")
        report.check("the same", answer[0] == 0, repr(answer[2]))
        answer = folder.run("golden", "--rules", "rules", "--update", "g", "a")
        report.check("a golden file", answer[0] == 0, repr(answer))
        report.check("it is accepted", folder.run("check", "g")[0] == 0)
        report.check("the session is held to it", folder.run("golden", "--rules", "rules", "g", "b") == (0, b"same\n", b""))
        folder.write("b", session.replace(b'"exitCode":3', b'"exitCode":4'))
        report.check("another one is not", folder.run("golden", "--rules", "rules", "g", "b")[0] == 1)
    lines = [INITIALIZE, FILLED, INITIALIZED]
    with Folder(rules=b"fill event * seq 0\n", a=recording(lines)) as folder:
        report.check("an event without seq", folder.run("check", "a")[0] == 2)
        masked = folder.run("mask", "rules", "a")
        report.check("with 0", masked[0] == 0 and folder.run("check", given=masked[1])[0] == 0, repr(masked))


if __name__ == "__main__":
    sys.exit(judged(worked, captures, perl))
