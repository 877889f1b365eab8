"""Gives names to declared ids by `name`, and by the commands with `--rules`. Sessions made at random are compared with names_reference.py.

    python3 -m tests.program.names [SESSIONS]

SESSIONS is how many sessions are made, 300 if it is left out. Before a release 20,000 are tried."""
import json
import os
import random
import re
import sys
import time
from concurrent.futures import ProcessPoolExecutor

from tests.program.captures import REFUSED_RECORDINGS
from tests.program.golden import Folder
from tests.program.names_reference import declarations, ids, name_pattern, named, session_replaced
from tests.program.order import record_all
from tests.program.order_reference import messages, name_of, ordered, recorded
from tests.program.random_sessions import exchanged, lines_of, renamed, rules_of, session_of, word_of
from tests.program.worked_runs import BEGUN, FILLED, INITIALIZE, POINTERS, VARIABLES, record, recording, refusal
from tests.report import PROGRAM, TOP, Report

sys.path.insert(0, os.path.join(TOP, "scripts"))
from compact_reference import canonical
from normalise_reference import normalised

SESSIONS = 300
# How many sessions a process tries before it takes the next ones.
TOGETHER = 10
EXAMPLES = os.path.join(TOP, "examples")

# ---- worked messages

A_UUID = "6e8bc430-9c3a-11d9-9669-0800200c9a66"
ANOTHER = "6e8bc430-9c3a-11d9-9669-0800200c9a67"
NIL = "00000000-0000-0000-0000-000000000000"

# Rules, the members of events `a` in order, and those of the events that `name` writes.
WORKED = {
    "an integer": ("blank event a x as process", [{"x": 28201}, {"x": 7}, {"x": 28201}], [{"x": 1}, {"x": 2}, {"x": 1}]),
    "a whole string": ("blank event a x as progress", [{"x": "7f-progress"}, {"x": "7f"}], [{"x": "<progress 1>"}, {"x": "<progress 2>"}]),
    "part of a string": ("hex event a x as address", [{"x": "<T at 0x7f3a>, 0x0"}], [{"x": "<T at <address 1>>, 0x0"}]),
    "two spellings of an address": (
        "hex event a x as address", [{"x": "0x00007FFF 0X7fff 0x7ffe 0x07fff"}], [{"x": "<address 1> <address 1> <address 2> <address 1>"}],
    ),
    "a null pointer": ("hex event a x as address", [{"x": "0x0 0x000 0X00"}], [{"x": "0x0 0x000 0X00"}]),
    "a printed name": (
        "hex event a x as address", [{"x": "<address 7> 0x5 <address 7> 0x7"}], [{"x": "<address 1> <address 2> <address 1> <address 3>"}],
    ),
    "no names": (
        "hex event a x as address", [{"x": "<address 07> <address 0> <address > <addres 1> <address 1 <Address 1> address 1>"}],
        [{"x": "<address 07> <address 0> <address > <addres 1> <address 1 <Address 1> address 1>"}],
    ),
    "a name with a large number": (
        "hex event a x as address", [{"x": "<address 340282366920938463463374607431768211456> <address 1>"}], [{"x": "<address 1> <address 2>"}],
    ),
    "a name of another label": ("hex event a x as heap\nhex event a y as code", [{"x": "<code 7>", "y": "<code 7>"}], [{"x": "<code 7>", "y": "<code 1>"}]),
    "leading zeros": ("digits event a x as number", [{"x": "007, 7, 70, 0, 00"}], [{"x": "<number 1>, <number 1>, <number 2>, 0, 00"}]),
    "digits with a zero before, in a name": ("digits event a x as number", [{"x": "<number 07> <number 7>"}], [{"x": "<number <number 1>> <number 1>"}]),
    "an integer and digits": (
        "blank event a id as process\ndigits event a x as process", [{"id": 7028, "x": "Subprocess 7028 of 31"}, {"id": 31, "x": "7028"}],
        [{"id": 1, "x": "Subprocess <process 1> of <process 2>"}, {"id": 2, "x": "<process 1>"}],
    ),
    "an integer, digits and a name": (
        "blank event a id as process\ndigits event a x as process", [{"id": 5, "x": "<process 5> 05"}], [{"id": 1, "x": "<process 1> <process 1>"}],
    ),
    "digits and hexadecimal digits are not one value": (
        "hex event a x as number\ndigits event a y as number", [{"x": "0x5", "y": "5"}], [{"x": "<number 1>", "y": "<number 2>"}],
    ),
    "a whole string that is spelled as a value": (
        "hex event a x as address\nblank event a y as address", [{"x": "0x5", "y": "0x5"}, {"y": "0x05"}], [{"x": "<address 1>", "y": "<address 1>"}, {"y": "<address 2>"}],
    ),
    "long": (
        "long event a x as address", [{"x": "7f3a1c 007F3A1C abcdef 12345 ghost7f3a1c 0x7f3a1c"}],
        [{"x": "<address 1> <address 1> abcdef 12345 ghost<address 1> 0x<address 1>"}],
    ),
    "long without digits but 0": ("long event a x as address", [{"x": "000000 0000000"}], [{"x": "000000 0000000"}]),
    "long and hex are one value": ("long event a x as address\nhex event a y as address", [{"x": "7f3a1c", "y": "0x7f3a1c"}], [{"x": "<address 1>", "y": "<address 1>"}]),
    "UUIDs": (
        "uuid event a x as object", [{"x": f"{A_UUID} {ANOTHER} {A_UUID.upper()} {NIL}"}], [{"x": f"<object 1> <object 2> <object 1> {NIL}"}],
    ),
    "UUIDs beside hexadecimal digits": (
        "uuid event a x as object", [{"x": f"{A_UUID}0x5 0{A_UUID} {A_UUID}g <object 4>{A_UUID}"}],
        [{"x": f"{A_UUID}0x5 0{A_UUID} <object 1>g <object 2><object 1>"}],
    ),
    "a UUID before 0x": (
        "uuid event a x as object\nhex event a y as address\nuuid event a z as object\nhex event a z as address",
        [{"x": f"{A_UUID}0x5", "y": f"{A_UUID}0x5", "z": f"{A_UUID}0x5 {A_UUID} 0x5"}],
        [{"x": f"{A_UUID}0x5", "y": f"{A_UUID}0x5", "z": f"{A_UUID}0x5 <object 1> <address 1>"}],
    ),
    "0x after a literal digit": ("hex event a x as address", [{"x": "f0x5 g0x5 10x5 0x5y0x6"}], [{"x": "f0x5 g<address 1> 10x5 <address 1>y<address 2>"}]),
    "numbers and addresses in one text": (
        "hex event a x as address\ndigits event a x as number", [{"x": "0x10 10 010 <number 3> <address 3> 0x0 0"}],
        [{"x": "<address 1> <number 1> <number 1> <number 2> <address 2> 0x0 0"}],
    ),
    "addresses with and without 0x": (
        "hex event a x as address\nlong event a x as address", [{"x": "0x7f3a1c 7F3A1C 0x1 abcdef0 0xabcdef0"}],
        [{"x": "<address 1> <address 1> <address 2> <address 3> <address 3>"}],
    ),
    "the other actions before digits": (
        "digits event a x as number\nlong event a x as address\nhex event a x as pointer", [{"x": "12 123456 7f3a1c 0x12 x12 ab12"}],
        [{"x": "<number 1> <address 1> <address 2> <pointer 1> x<number 1> ab<number 1>"}],
    ),
    "UUIDs, addresses and long numbers": (
        "long event a x as address\nuuid event a x as object\nhex event a x as pointer", [{"x": f"{A_UUID} {NIL} 9c3a11d9 0x9c3a 9c3a {A_UUID.upper()}"}],
        [{"x": f"<object 1> {NIL} <address 1> <pointer 1> 9c3a <object 1>"}],
    ),
    "a literal digit before a token of another action": (
        "hex event a x as address\ndigits event a x as number", [{"x": "a0x5 a00x5 b5"}], [{"x": "a0x<number 1> a00x<number 1> b<number 1>"}],
    ),
    "one label for all elements and for some": (
        'hex event a v[].w as x\nhex event a v["p"].w as x\ndigits event a v["p"].w as y', [{"v": [{"name": "p", "w": "0x1 2"}, {"name": "q", "w": "0x1 2"}]}],
        [{"v": [{"name": "p", "w": "<x 1> <y 1>"}, {"name": "q", "w": "<x 1> 2"}]}],
    ),
    "no ids": (
        "blank event a x as id", [{"x": it} for it in (0, "", "0", "0x0", NIL, None, True, False, [], {}, [7], {"y": 7})],
        [{"x": it} for it in (0, "", "0", "0x0", NIL, None, True, False, [], {}, [7], {"y": 7})],
    ),
    "whole strings that are ids": ("blank event a x as id", [{"x": it} for it in ("00", " ", "é")], [{"x": f"<id {it}>"} for it in (1, 2, 3)]),
    "the least and the largest integer": (
        "blank event a x as id", [{"x": it} for it in (-(2**63), 2**64 - 1, -1, -(2**63))], [{"x": it} for it in (1, 2, 3, 1)],
    ),
    "integers for actions on texts": ("digits event a x as id\nhex event a y as id", [{"x": 7, "y": 7}], [{"x": 7, "y": 7}]),
    "texts without tokens": ("hex event a x as address", [{"x": it} for it in ("", "0x", "x5", "0xg")], [{"x": it} for it in ("", "0x", "x5", "0xg")]),
    "members out of order": (
        "hex event a z as address\nhex event a b as address\nhex event a v[].w as address",
        [{"z": "0x1", "v": [{"w": "0x2"}, {"w": "0x3"}], "b": "0x4"}], [{"z": "<address 4>", "v": [{"w": "<address 2>"}, {"w": "<address 3>"}], "b": "<address 1>"}],
    ),
    "names of members in the order of their bytes": (
        "".join(f'hex event a "{it}" as address\n' for it in ("Z", "é", "a", "ab", "\U0001f600")),
        [{"Z": "0x1", "\U0001f600": "0x2", "é": "0x3", "ab": "0x4", "a": "0x5"}],
        [{"Z": "<address 1>", "\U0001f600": "<address 5>", "é": "<address 4>", "ab": "<address 3>", "a": "<address 2>"}],
    ),
    "labels have their own numbers": (
        "hex event a x as code\nhex event a y as heap", [{"x": "0x1 0x2", "y": "0x2 0x1"}], [{"x": "<code 1> <code 2>", "y": "<heap 1> <heap 2>"}],
    ),
    "places share a label": ("hex event a x as address\nhex event a y as address", [{"x": "0x1 0x2", "y": "0x2 0x1"}], [{"x": "<address 1> <address 2>", "y": "<address 2> <address 1>"}]),
    "each element": ("blank event a v[] as id", [{"v": [7, "7", 8, None, [7]]}], [{"v": [1, "<id 1>", 2, None, [7]]}]),
    "elements by their name": (
        'hex event a v["p"].w as address\nhex event a v[].u as address', [{"v": [{"name": "q", "w": "0x1", "u": "0x2"}, {"name": "p", "w": "0x1"}, {"w": "0x3"}]}],
        [{"v": [{"name": "q", "w": "0x1", "u": "<address 1>"}, {"name": "p", "w": "<address 2>"}, {"w": "0x3"}]}],
    ),
    "events of one category": (
        "hex event a category=c body.x as address", [{"body": {"category": it, "x": "0x5"}} for it in ("c", "d")],
        [{"body": {"category": "c", "x": "<address 1>"}}, {"body": {"category": "d", "x": "0x5"}}],
    ),
    "events of another name": ("hex event b x as address", [{"x": "0x5"}], [{"x": "0x5"}]),
    "any name": ("hex event * x as address", [{"x": "0x5"}], [{"x": "<address 1>"}]),
    "another kind": ("hex response * x as address\nhex request * x as address", [{"x": "0x5"}], [{"x": "0x5"}]),
    "a label in quotes, and words of the form as names": ('hex event a as as "as" # again', [{"as": "0x5"}], [{"as": "<as 1>"}]),
    "other rules are not applied": (
        'hex event a x as address\nblank event a y\ndrop event b\nword mock "<m>"\nfill event a z 1\nswap event a event b\nper-stop\njoin event output\ndigits event a w\n'
        'omit event a v["m"]',
        [{"x": "0x5 mock", "y": 7, "w": "w7", "v": [{"name": "m"}]}], [{"x": "<address 1> mock", "y": 7, "w": "w7", "v": [{"name": "m"}]}],
    ),
    "no rules": ("# nothing\n", [{"x": "0x5", "y": 7}], [{"x": "0x5", "y": 7}]),
}


def event(members, name="a"):
    return "adapter", {"type": "event", "event": name, **members}


def worked(report):
    for title, (rules, given, wanted) in WORKED.items():
        before, after = ([event(members) for members in it] for it in (given, wanted))
        # The members of the input are in the order of the row.
        text = b"".join(record("<" + json.dumps(message, ensure_ascii=False)) for _, message in before)
        with Folder(rules=rules.encode(), given=text) as folder:
            answer = folder.run("name", "rules", "given")
            report.check(f"{title}", answer == (0, recorded(after), b""), repr(answer))
            report.check(f"{title}, again", folder.run("name", "rules", given=answer[1]) == answer)
            report.check(f"{title}: the reference", named(declarations(rules), before) == after, repr(named(declarations(rules), before)))


# ---- lines that are rejected, and files that are accepted

HEX = "hex event a x as address\n"
BAD_LABELS = (
    "Address", "a_b", "a1", "1", "-a", "-", "_", "$a", '""', '"a b"', '"a "', '"é"', '"A"', "client-seq", "adapter-seq", "frame", "reference", "thread",
    "breakpoint", '"frame"',
)
BAD_PLACES = (
    "blank event * seq", "hex request * command", "hex event * event", "blank response threads success", "blank event a type", "blank response * request_seq",
    "blank response stackTrace body.stackFrames[].id", "blank response variables body.variables[].variablesReference", 'blank response variables body.variables["x"].variablesReference',
    "blank event stopped body.threadId", "hex event a v[].name", 'hex event a v["x"].name', 'hex event a v[].w["x"]."name"', "blank event a body", "blank event a body.category",
    "digits event output category=c body.category", "blank response evaluate body",
)
REFUSED = {
    # A word is missing, is another one, or is too much.
    "hex event a x as": "line 1: BadRule", "hex event a x as address x": "line 1: BadRule", "hex event a x is address": "line 1: BadRule",
    "hex event a x asaddress": "line 1: BadRule", "hex event a as address": "line 1: BadRule", "hex event a x address": "line 1: BadRule",
    "hex event a x as *": "line 1: BadRule", 'hex event a x as "address': "line 1: BadRule", "hex event a x as address.x": "line 1: BadRule",
    "hex event a x as # address": "line 1: BadRule", "hex as address event a x": "line 1: BadRule", "as address": "line 1: BadRule", 'hex event a x "as" address': "line 1: BadRule",
    "drop event a as address": "line 1: BadRule", "fill event a x 1 as address": "line 1: BadRule", "swap event a event b as address": "line 1: BadRule",
    "join event output as address": "line 1: BadRule", 'omit event a x["y"] as address': "line 1: BadRule", "word x y as address": "line 1: BadRule",
    "per-stop as address": "line 1: BadRule",
    **{f"# a comment\nhex event a x as {label}": "line 2: BadLabel" for label in BAD_LABELS}, **{f"\n{line} as id": "line 2: BadPlace" for line in BAD_PLACES},
    # A label is reported before a place, and a repeated rule before rules that exclude each other.
    "blank event * seq as Id": "line 1: BadLabel",
    f"{HEX}{HEX}": "line 2: Repeated", f'{HEX}hex event "a" "x" as "address"': "line 2: Repeated", f'{HEX}digits event a y\n\nhex event a x as "\\u0061ddress" # again': "line 4: Repeated",
    # Two labels for one action, or `blank` beside another action, or `uuid` beside `digits`, for some value.
    f"{HEX}hex event a x as pointer": "line 2: Clash", f"hex event a x as pointer\n{HEX}": "line 2: Clash", f"{HEX}blank event a x as address": "line 2: Clash",
    f"blank event * x as address\n{HEX}": "line 2: Clash", f"{HEX}hex event a category=c x as pointer": "line 2: Clash",
    'hex event a v[].w as x\nhex event a v["p"].w as y': "line 2: Clash", 'hex event a v["p"].w as x\nhex event a v[].w as y': "line 2: Clash",
    "digits event a x as n\nuuid event a x as u": "line 2: Clash", "uuid event * x as n\ndigits event a x as n": "line 2: Clash",
    # An action without a label that would change the number in a name.
    f"{HEX}digits event a x": "line 2: Clash", f"digits event a x\n{HEX}": "line 2: Clash", f"{HEX}long event * x": "line 2: Clash", f"long event * x\n{HEX}": "line 2: Clash",
    f"{HEX}digits event a category=c x": "line 2: Clash", 'digits event a v[].w\nblank event a v["p"].w as id': "line 2: Clash",
    "digits event a x\ndigits event a x as number": "line 2: Clash", "long event a x as address\nlong event a x": "line 2: Clash",
}
ACCEPTED = [
    f"{HEX}hex event a x", f"hex event a x\n{HEX}", f"{HEX}uuid event a x", f"{HEX}blank event a x", "blank event a x\ndigits event a x as n", "uuid event a x as u\nuuid event a x",
    f"{HEX}long event a x as address", f"{HEX}long event a x as pointer", f"{HEX}uuid event * x as object", f"uuid event * x as object\n{HEX}",
    "digits event a x as n\nhex event a x as n\nlong event a x as n", f"{HEX}hex event a category=c x as address", 'hex event a v[].w as x\nhex event a v["p"].w as x',
    f"{HEX}hex event b x as pointer", f"{HEX}hex request a x as pointer", f"{HEX}digits event b x", f"{HEX}digits event a y", f"{HEX}digits event a x.y", f"{HEX}blank event a x.y as id",
    'hex event a v["p"].w as x\nhex event a v["q"].w as y', 'digits event a v["p"].w\nhex event a v["q"].w as y', "hex event a category=c x as y\nhex event a category=d x as z",
    "digits event a category=c x\nhex event a category=d x as z", "hex event a body.name as x", "hex event a name as x", "blank event a body.x as x", "hex event a v[].name.y as x",
    "hex event a as as as", "hex event a x as a-b-", f"{HEX}drop event a\nswap event a event b\nper-stop\njoin event output\nfill event a x 1\nword b c\nomit event a x[\"y\"]",
]


def rejected_rules(report):
    for rules, why in REFUSED.items():
        with Folder(rules=rules.encode(), a=b"", b=b"") as folder:
            for words in (["name", "rules"], ["mask", "rules"], ["order", "rules"], ["compare", "--rules", "rules", "a", "b"]):
                answer = folder.run(*words)
                report.check(f"{words[0]} by {rules!r}", answer == (2, b"", refusal(f"rules: {why}")), repr(answer))


def accepted_rules(report):
    for rules in ACCEPTED:
        with Folder(rules=rules.encode()) as folder:
            answer = folder.run("name", "rules")
            report.check(f"name by {rules!r}", answer == (0, b"", b""), repr(answer))
    many = [b"hex event e%d x as address\n" % number for number in range(1001)]
    for rules, wanted in ((many[:1000], (0, b"", b"")), (many, (2, b"", refusal("rules: line 1001: TooMany")))):
        with Folder(rules=b"".join(rules)) as folder:
            answer = folder.run("name", "rules")
            report.check(f"{len(rules)} rules with a label", answer == wanted, repr(answer))


# ---- the command

VALUES = b"hex response variables body.variables[].value as address\n"
BLANKS = b"hex response variables body.variables[].value\n"


def pointers(p, q):
    """A session in which two variables have these values."""
    return [*BEGUN, VARIABLES % 5, POINTERS % (p, q)]


def stops_at_errors(report):
    """The records before an error are written."""
    good = [record("<" + json.dumps(event({"x": it})[1])) for it in ("0x7f", "0x7e", "0x7f")]
    wanted = [recorded([event({"x": f"<address {it}>"})]) for it in (1, 2, 1)]
    for bad, why in (
        (record("<{"), "Json"), (record('<{"x":1.5}'), "Fraction"), (record('<{"type":"event","event":"a","x":1e3}'), "Fraction"),
        (record('<{"type":"event","event":"a","id":18446744073709551616}'), "Fraction"), (b"!", "BadMarker"), (good[0][:-1], "Cut"),
    ):
        for count in range(4):
            with Folder(rules=b"hex event a x as address\nblank event a id as id\n") as folder:
                answer = folder.run("name", "rules", given=b"".join(good[:count]) + bad)
                report.check(f"{why} after {count} records", answer == (2, b"".join(wanted[:count]), refusal(f"record {count + 1}: {why}")), repr(answer))
    other = recording(['>[7,"0x5"]', '<"0x5"', "<7", ">{}", '<{"type":"event"}', '<{"type":7,"event":"a","x":"0x5"}', '<{"type":"event","event":["a"],"x":"0x5"}'])
    with Folder(rules=b"hex event a x as address\n") as folder:
        answer = folder.run("name", "rules", given=other)
        report.check("contents that are no messages", answer[0] == 0 and messages_of(answer[1]) == messages_of(other), repr(answer))


def messages_of(text):
    return [(side, canonical(message)) for side, message in messages(text)]


def files(report):
    with Folder(rules=VALUES, a=recording(pointers("0x7f", "0x5"))) as folder:
        named_once = folder.run("name", "rules", "a")
        report.check("to standard output", named_once == (0, recording(pointers("<address 1>", "<address 2>")), b""), repr(named_once))
        report.check("from standard input", folder.run("name", "rules", "-", given=folder.read("a")) == named_once)
        report.check("into a file", folder.run("name", "rules", "a", "-o", "b") == (0, b"", b"") and folder.read("b") == named_once[1])
        report.check("into its own file", folder.run("name", "rules", "a", "-o", "a") == (0, b"", b"") and folder.read("a") == named_once[1])
        answer = folder.run("name", "rules", "a", "-o", "rules")
        report.check("not into its rules", answer[0] == 3 and folder.read("rules") == VALUES, repr(answer))
        answer = folder.run("name", "missing", "a")
        report.check("rules that do not exist", answer == (4, b"", refusal("rules: read fault")), repr(answer))
        for words in (["name"], ["name", "rules", "a", "b"], ["name", "--rules", "rules"], ["name", "--word", "x=<w>", "rules"], ["name", "--per-stop", "rules"]):
            answer = folder.run(*words)
            report.check(f"{words} is a usage error", answer[0] == 3 and answer[1] == b"", repr(answer))
        report.check("an empty recording", folder.run("name", "rules") == (0, b"", b""))


# ---- the commands that apply rules

def aliases(report):
    """An error of an adapter that makes two variables share an address, or not: a blank hides it, and a name does not."""
    files = {name: recording(pointers(*values)) for name, values in {
        "alias": ("0x7ffd5e8a", "0x7ffd5e8a"), "again": ("0x0000555500001000", "0X555500001000"), "broken": ("0x7ffd5e8a", "0x7ffd5e8b"), "null": ("0x7ffd5e8a", "0x0"),
    }.items()}
    with Folder(rules=VALUES, blanks=BLANKS, **files) as folder:
        answer = folder.run("golden", "--rules", "rules", "--update", "g", "alias")
        wanted = recording([INITIALIZE, FILLED, VARIABLES % 1, POINTERS % ("<address 1>", "<address 1>")])
        report.check("a golden file with names", answer == (0, b"wrote g (4 records)\n", b"") and folder.read("g") == wanted, repr(answer))
        for name in ("alias", "again"):
            answer = folder.run("golden", "--rules", "rules", "g", name)
            report.check(f"golden: {name}", answer == (0, b"same\n", b""), repr(answer))
        for name, value in (("broken", "<address 2>"), ("null", "0x0")):
            lines = f'< response "variables"\nA body.variables[1].value "<address 1>"\nB body.variables[1].value "{value}"\n'
            for words, first in (
                (["golden", "--rules", "rules", "g", name], "differ 4\n"), (["diff", "--rules", "rules", "alias", name], "differ 4\n"),
                (["diff", "--all", "--rules", "rules", "alias", name], "differ: 1 paired, 0 only in A, 0 only in B\n4/4 "),
            ):
                answer = folder.run(*words)
                report.check(f"{words}: the error is visible", answer == (1, (first + lines).encode(), b""), repr(answer))
            answer = folder.run("compare", "--rules", "rules", "again", name)
            report.check(f"compare: {name} differs", answer == (1, b"differ 4\n", b""), repr(answer))
        folder.run("golden", "--rules", "blanks", "--update", "h", "alias")
        for name in files:
            answer = folder.run("golden", "--rules", "blanks", "h", name)
            report.check(f"by a rule without a label {name} is the same", answer == (0, b"same\n", b""), repr(answer))
        answer = folder.run("golden", "--rules", "rules", "--update", "g.yaml", "alias")
        report.check("a transcript with names", answer[0] == 0 and folder.read("g.yaml").count(b'value: "<address 1>"\n') == 2, repr(answer))
        report.check("it is held to", folder.run("golden", "--rules", "rules", "g.yaml", "again") == (0, b"same\n", b""))


def other_commands(report):
    """What `check` and `suggest` say, and what `mask` and `order` leave."""
    files = {"a": recording(pointers("0x7f", "0x5")), "b": recording(pointers("0x9", "0x8")), "c": recording(pointers("0x7f", "0x7f"))}
    with Folder(rules=VALUES, none=b"", **files) as folder:
        answer = folder.run("check", "--complete", "--rules", "rules", "a")
        report.check("check", answer == (0, b"accepted records=4 open=0,0\n", b""), repr(answer))
        pairs = b"same\nclient-seq 1 1\nclient-seq 2 2\nadapter-seq 1 1\nadapter-seq 2 2\nreference 5 5\n"
        answer = folder.run("compare", "--rules", "rules", "a", "b")
        report.check("the pairs are those of the ids of the profile", answer == (0, pairs, b""), repr(answer))
        answer = folder.run("suggest", "--rules", "rules", "a", "b")
        report.check("suggest adds nothing", answer == (0, b"# with these rules: same\n", b""), repr(answer))
        answer = folder.run("suggest", "--rules", "rules", "a", "c")
        report.check("suggest finds rules for what names show", answer[0] == 0 and b"body.variables" in answer[1], repr(answer))
        for command in ("mask", "order"):
            report.check(f"{command} ignores labels", folder.run(command, "rules", "a") == folder.run(command, "none", "a") and folder.run(command, "rules", "a")[0] == 0)


# Rules, the events of A and of B as (name, members), and the output of `diff --all`. The first event is record 3.
ADDRESSES = "hex event * x as address\nhex event * y as address\n"
JOINT = {
    # Without joint names each later line differs.
    "a new address of B": (
        ADDRESSES,
        [("a", {"x": "0x10"}), ("c", {"x": "none"}), ("a", {"x": "0x20"}), ("a", {"x": "at 0x30, 0x10"})],
        [("a", {"x": "0x11"}), ("c", {"x": "0x99"}), ("a", {"x": "0x21"}), ("a", {"x": "at 0x31, 0x11"})],
        ['1 paired, 0 only in A, 0 only in B', '4/4 < event "c"', 'A x "none"', 'B x "<address 4>"'],
    ),
    "a new event of B": (
        ADDRESSES, [("a", {"x": "0x10"}), ("a", {"x": "0x20"})], [("b", {"x": "0x99"}), ("a", {"x": "0x11"}), ("a", {"x": "0x21"})],
        ['0 paired, 0 only in A, 1 only in B', '-/3 < event "b"'],
    ),
    "another alias": (
        ADDRESSES,
        [("b", {"x": "none"}), ("a", {"x": "0x10", "y": "0x20"}), ("a", {"x": "0x10", "y": "0x20"})],
        [("b", {"x": "0x99"}), ("a", {"x": "0x11", "y": "0x21"}), ("a", {"x": "0x21", "y": "0x21"})],
        ['2 paired, 0 only in A, 0 only in B', '3/3 < event "b"', 'A x "none"', 'B x "<address 3>"', '5/5 < event "a"', 'A x "<address 1>"', 'B x "<address 2>"'],
    ),
    # By first appearance both have `<address 2>` in their last event.
    "an address of A that B lacks, and equal texts": (
        ADDRESSES,
        [("c", {"x": "0x10"}), ("a", {"x": "0x20"}), ("d", {"x": "0x20"})], [("c", {"x": "none"}), ("a", {"x": "0x21"}), ("d", {"x": "0x31"})],
        ['2 paired, 0 only in A, 0 only in B', '3/3 < event "c"', 'A x "<address 2>"', 'B x "none"', '5/5 < event "d"', 'A x "<address 1>"', 'B x "<address 3>"'],
    ),
    "positions among the tokens": (
        ADDRESSES,
        [("b", {"x": "none"}), ("a", {"x": "0x0 0x20 0x30"}), ("a", {"x": "0x30"})], [("b", {"x": "0x99"}), ("a", {"x": "0x0 0x21 0x31 0x41"}), ("a", {"x": "0x31"})],
        [
            '2 paired, 0 only in A, 0 only in B', '3/3 < event "b"', 'A x "none"', 'B x "<address 3>"',
            '4/4 < event "a"', 'A x "0x0 <address 1> <address 2>"', 'B x "0x0 <address 1> <address 2> <address 4>"',
        ],
    ),
    # A value is paired by its place, so one that comes before others in a string or a list shifts them.
    "a new address before another one in a string": (
        ADDRESSES,
        [("a", {"x": "0x20 0x30"}), ("a", {"x": "0x30"})], [("a", {"x": "0x21 0x99 0x31"}), ("a", {"x": "0x31"})],
        [
            '2 paired, 0 only in A, 0 only in B', '3/3 < event "a"', 'A x "<address 1> <address 2>"', 'B x "<address 1> <address 2> <address 3>"',
            '4/4 < event "a"', 'A x "<address 2>"', 'B x "<address 3>"',
        ],
    ),
    "a new address before another one in a list": (
        "hex event * x as address\nhex event * v[].x as address\n",
        [("a", {"v": [{"x": "0x20"}, {"x": "0x30"}]}), ("a", {"x": "0x30"})],
        [("a", {"v": [{"x": "0x21"}, {"x": "0x99"}, {"x": "0x31"}]}), ("a", {"x": "0x31"})],
        [
            '2 paired, 0 only in A, 0 only in B', '3/3 < event "a"', 'B v[2] {"x":"<address 3>"}',
            '4/4 < event "a"', 'A x "<address 2>"', 'B x "<address 3>"',
        ],
    ),
    "integers, digits and elements": (
        "blank event * v[].id as process\ndigits event * x as process\n",
        [("b", {"x": "none"}), ("a", {"v": [{"id": 70}, {"id": 71}]}), ("a", {"x": "71 70"}), ("a", {"v": [{"id": 0}, {"id": 70}]})],
        [("b", {"x": "9"}), ("a", {"v": [{"id": 80}, {"id": 81}]}), ("a", {"x": "81 80"}), ("a", {"v": [{"id": 0}, {"id": 81}]})],
        ['2 paired, 0 only in A, 0 only in B', '3/3 < event "b"', 'A x "none"', 'B x "<process 3>"', '6/6 < event "a"', 'A v[1].id 1', 'B v[1].id 2'],
    ),
    "labels have their own numbers": (
        "hex event * x as code\nhex event * y as heap\n",
        [("b", {"x": "none"}), ("a", {"x": "0x10", "y": "0x10"}), ("a", {"x": "0x20"})], [("b", {"x": "0x99"}), ("a", {"x": "0x11", "y": "0x12"}), ("a", {"x": "0x21"})],
        ['1 paired, 0 only in A, 0 only in B', '3/3 < event "b"', 'A x "none"', 'B x "<code 3>"'],
    ),
}


def joint_names(report):
    """What `diff --all` reports of declared ids."""
    for title, (rules, *sides, lines) in JOINT.items():
        a, b = (
            recording(BEGUN) + recorded([("adapter", {"seq": number, "type": "event", "event": name, **members}) for number, (name, members) in enumerate(it, 2)])
            for it in sides
        )
        with Folder(rules=rules.encode(), a=a, b=b) as folder:
            answer = folder.run("diff", "--all", "--rules", "rules", "a", "b")
            report.check(f"diff --all: {title}", answer == (1, ("differ: " + "".join(line + "\n" for line in lines)).encode(), b""), repr(answer))


# Rules, the texts of a value, and the text after all rules.
TOGETHER_WITH = [
    # Words, actions and members that are filled in come first.
    (HEX + 'word 0x5 "<w>"\n', ["0x5 0x6"], ["<w> <address 1>"]),
    (HEX + "hex event a x", ["0x5 0x6 <address 3>"], ["0x0 0x0 <address 1>"]),
    (HEX + "blank event a x", ["0x5 0x6"], [""]),
    (HEX + "uuid event a x", [f"{A_UUID} 0x5"], [f"{NIL} <address 1>"]),
    ("uuid event a x as object\nhex event a x", [f"{A_UUID} 0x5"], ["<object 1> 0x0"]),
    ('blank event a x as id\nfill event a x "new"', [None, "old", "new"], ["<id 1>", "<id 2>", "<id 1>"]),
    # An event that is dropped has none of the ids.
    (HEX + "drop event a category=c", [("0x5", "c"), "0x6", "0x5"], [None, "<address 1>", "<address 2>"]),
    # Output is joined first.
    ("digits event output body.output as pid\njoin event output", ["pid 12", "3, pid 4"], ["pid <pid 1>, pid <pid 2>"]),
]


def rules_together(report):
    for rules, given, wanted in TOGETHER_WITH:
        found, left = [], []
        for number, it in enumerate(given, 1):
            text, category = it if isinstance(it, tuple) else (it, None)
            body = {"category": category} if category else {}
            found.append(("adapter", {"seq": number, "type": "event", **({"event": "output", "body": {"output": text}} if "output" in rules else {"event": "a", "x": text, "body": body})}))
        for number, text in enumerate(wanted, 1):
            if text is not None:
                left.append(("adapter", {"seq": number, "type": "event", **({"event": "output", "body": {"category": "console", "output": text}} if "output" in rules else {"event": "a", "x": text, "body": {}})}))
        golden = normalised(recording([INITIALIZE, FILLED]) + recorded([(side, {**message, "seq": message["seq"] + 1}) for side, message in left]))
        with Folder(rules=rules.encode(), given=recording(BEGUN) + recorded([(side, {**message, "seq": message["seq"] + 1}) for side, message in found])) as folder:
            answer = folder.run("golden", "--rules", "rules", "--update", "g", "given")
            report.check(f"golden by {rules!r}", answer[0] == 0 and folder.read("g") == golden, repr((answer, folder.read("g"))))
            answer = folder.run("golden", "--rules", "rules", "g", "g")
            report.check(f"the golden file by {rules!r}, again", answer[0] == 0, repr(answer))


def over_order(report):
    """Names come after the order: two runs in which messages cross have the same names."""
    stopped = '<{"body":{"reason":"step","text":"%s"},"event":"stopped","seq":%d,"type":"event"}'
    answered = '<{"body":{"text":"%s"},"command":"next","request_seq":2,"seq":%d,"success":true,"type":"response"}'
    step = '>{"arguments":{"threadId":1},"command":"next","seq":2,"type":"request"}'
    rules = b"swap response next event stopped\nhex event stopped body.text as address\nhex response next body.text as address\n"
    files = {"a": [*BEGUN, step, answered % ("0x1", 2), stopped % ("0x2", 3)], "b": [*BEGUN, step, stopped % ("0x3", 2), answered % ("0x4", 3)],
             "c": [*BEGUN, step, stopped % ("0x3", 2), answered % ("0x3", 3)]}
    with Folder(rules=rules, **{name: recording(lines) for name, lines in files.items()}) as folder:
        answer = folder.run("compare", "--rules", "rules", "a", "b")
        report.check("they are the same in order", answer[0] == 0, repr(answer))
        answer = folder.run("diff", "--rules", "rules", "a", "c")
        wanted = b'differ 5\n< event "stopped"\nA body.text "<address 2>"\nB body.text "<address 1>"\n'
        report.check("an alias in the other order is a difference", answer == (1, wanted, b""), repr(answer))
        texts = []
        for name in "ab":
            in_order = folder.run("order", "rules", name)[1]
            texts.append(folder.run("normalise", given=folder.run("name", "rules", given=in_order)[1])[1])
        report.check("one step after the other", texts[0] == texts[1] and b"<address 2>" in texts[0])


# ---- real sessions

# More places than the rules of the examples have.
WIDE = b"""hex   response variables  body.variables[].value  as address
hex   response variables  body.variables[].memoryReference  as address
hex   response evaluate   body.result  as address
hex   response stackTrace body.stackFrames[].instructionPointerReference  as address
long  event    output     body.output  as address
digits response threads   body.threads[].id.x  as process
blank event    process    body.systemProcessId  as process
blank response *          body.source.sourceReference  as source
blank event    module     body.module.id  as module
digits request  launch     arguments.program  as number
"""


def captures(report):
    folder_of = os.path.join(EXAMPLES, "captures")
    files = [WIDE]
    for name in sorted(os.listdir(os.path.join(EXAMPLES, "rules"))):
        with open(os.path.join(EXAMPLES, "rules", name), "rb") as file:
            files.append(file.read())
    count = 0
    for name in sorted(os.listdir(folder_of)):
        if not name.endswith(".rec") or "Fraction" in REFUSED_RECORDINGS.get(name, ""):
            continue
        with open(os.path.join(folder_of, name), "rb") as file:
            text = file.read()
        found = messages(text)
        for number, rules in enumerate(files):
            declared = declarations(rules.decode())
            count += len(ids(declared, found))
            with Folder(rules=rules) as folder:
                answer = folder.run("name", "rules", given=text)
                report.check(f"{name} by file {number}: as the script", answer == (0, recorded(named(declared, found)), b""), repr(answer[2]))
    report.check("the sessions have many ids", count > 1000, str(count))


# ---- sessions at random

LABELS = ("address", "number", "x-y")
# Places in a member that no row of the profile names, and the texts at places of the protocol.
PLACES = ("note.a", "note.b", "note.list[].v", 'note.list["p"].w', 'note.list["q"].w', "note.deep.x", 'note."é"')
TEXTS = (("response", "variables", "body.variables[].value"), ("response", "evaluate", "body.result"), ("event", "output", "body.output"))
NUMBERS = (0, 1, 2, 7, 10, 28201, 0x7F3A1C, 0xABC123, 0x55555555)
LITERALS = (" ", ", ", "x", "<", ">", "<T at ", "abcdef", "ff", "0x", "-", "é", "g", "", "0")
UUIDS = (A_UUID, ANOTHER, NIL, "12345678-1234-1234-1234-123456789abc")
# Actions that may each have a label at one place.
TOGETHER_AT_A_PLACE = (
    ("blank",), ("digits",), ("hex",), ("long",), ("uuid",), ("hex", "digits"), ("long", "digits"), ("hex", "long", "digits"), ("hex", "long"), ("uuid", "hex", "long"), ("uuid", "hex"),
)


def cased(dice, text):
    return dice.choice((text, text.upper(), "".join(dice.choice((it, it.upper())) for it in text)))


def spelled(dice, action, digits):
    """A token of an action for a value with these digits."""
    zeros = "0" * dice.choice((0, 0, 1, 3))
    if action == "hex":
        return dice.choice(("0x", "0X")) + zeros + cased(dice, digits)
    if action == "long":
        padded = (zeros + digits).rjust(6, "0")
        return cased(dice, padded if any(it.isdigit() for it in padded) else "0" + padded)
    return zeros + digits


def piece(dice):
    number = dice.choice(NUMBERS)
    return dice.choice((
        lambda: spelled(dice, "hex", f"{number:x}"), lambda: spelled(dice, "long", f"{number:x}"), lambda: spelled(dice, "digits", str(number)),
        lambda: f"<{dice.choice(LABELS)} {dice.randrange(1, 9)}>", lambda: cased(dice, dice.choice(UUIDS)), lambda: dice.choice(LITERALS), lambda: dice.choice(LITERALS),
    ))()


def text_at(dice):
    return "".join(piece(dice) for _ in range(dice.choice((0, 1, 1, 2, 3, 5))))


def value_at(dice):
    number = dice.choice(NUMBERS)
    return dice.choice((
        lambda: text_at(dice), lambda: text_at(dice), lambda: number, lambda: -number, lambda: str(number), lambda: hex(number), lambda: None,
        lambda: True, lambda: [number], lambda: 2**64 - 1, lambda: dice.choice(("one", "two", "1 2")),
    ))()


def note(dice):
    """A member of a message with values at places that rules name."""
    elements = [{"name": dice.choice("pqr"), "v": value_at(dice), "w": value_at(dice)} for _ in range(dice.choice((0, 1, 3)))]
    members = [("a", value_at(dice)), ("b", value_at(dice)), ("list", elements), ("deep", {"x": value_at(dice)}), ("é", value_at(dice))]
    dice.shuffle(members)
    return dict(members[: dice.randrange(6)])


def decorated(dice, found):
    """The session with values at places that rules name."""
    for _, message in found:
        if dice.random() < 0.7:
            message["note"] = note(dice)
        body = message.get("body", {})
        for variable in body.get("variables", []):
            variable["value"] = text_at(dice)
        for key in ("result", "output"):
            if key in body:
                body[key] = text_at(dice)
    return found


def halves(dice, found, kind):
    """Names of messages of a kind, no two of which one message has."""
    names = sorted({name_of(message) for _, message in found if message["type"] == kind})
    return dice.choice(([None], dice.sample(names, min(len(names), 2)), []))


def lines_at_random(dice, found):
    """Rules with labels, of which some are for one value, in any order."""
    places = [(kind, word_of(name), place) for place in PLACES for kind in ("request", "response", "event") for name in halves(dice, found, kind)]
    places += [text for text in TEXTS if dice.random() < 0.7]
    lines = [
        f"{action} {kind} {name} {place} as {dice.choice(LABELS)}\n"
        for kind, name, place in places for action in dice.choice(TOGETHER_AT_A_PLACE)
    ]
    dice.shuffle(lines)
    return "".join(lines)


CLASSES = (
    ("decimal", re.compile("[1-9][0-9]*")), ("negative", re.compile("-[1-9][0-9]*")), ("hex", re.compile("0x[1-9a-f][0-9a-f]*")),
    ("uuid", re.compile("[0-9a-f]{8}(-[0-9a-f]{4}){3}-[0-9a-f]{12}")), ("text", re.compile(".*", re.DOTALL)),
)


def class_of(value):
    """The form of a value: some tokens have values of one form only."""
    return next(name for name, pattern in CLASSES if pattern.fullmatch(value))


def new_value(dice, form):
    number = dice.randrange(1, 10**9)
    digits = f"{dice.getrandbits(128):032x}"
    return {
        "decimal": str(number), "negative": f"-{number}", "hex": hex(number), "text": f"new text {number}",
        "uuid": "-".join((digits[:8], digits[8:12], digits[12:16], digits[16:20], digits[20:])),
    }[form]


def token_of(dice, rule, value, token):
    """A token of the sort of another one, for another value of its form."""
    if isinstance(token, int):
        return int(value)
    if name_pattern(rule.label).fullmatch(token):
        return f"<{rule.label} {value}>"
    if rule.action == "blank":
        return value
    if rule.action == "uuid":
        return cased(dice, value)
    return spelled(dice, rule.action, value[2:] if rule.action in ("hex", "long") else value)


def renaming(dice, listed):
    """Another value for each id."""
    others, used = {}, set()
    for key in listed:
        while key not in others:
            new = key[0], new_value(dice, class_of(key[1]))
            if new not in used:
                used.add(new)
                others[key] = new[1]
    return others


def revalued(dice, declared, found):
    """The session with other values of each label, by a one-to-one renaming, in other spellings. A run of digits beside letters can become
    a long number by this: then other values are tried, and after ten times the session stays."""
    listed = ids(declared, found)
    for _ in range(10):
        others = renaming(dice, listed)
        new = session_replaced(declared, found, lambda rule, value, token: token_of(dice, rule, others[rule.label, value], token))
        if ids(declared, new) == [(label, others[label, value]) for label, value in listed]:
            return new
    return found


def aliased(dice, declared, found):
    """The session with one id replaced by another one of the session, or None without two such ids, or if the new text has other ids."""
    listed = ids(declared, found)
    choices = [
        (at, value) for at, (label, old) in enumerate(listed)
        for value in sorted({it for other, it in listed if other == label and it != old and class_of(it) == class_of(old)})
    ]
    if not choices:
        return None
    chosen, value = dice.choice(choices)
    at = iter(range(len(listed)))
    new = session_replaced(declared, found, lambda rule, old, token: token_of(dice, rule, value, token) if next(at) == chosen else token)
    wanted = [(label, value if place == chosen else old) for place, (label, old) in enumerate(listed)]
    return new if ids(declared, new) == wanted else None


class Trial:
    """A session with declared ids, its rules, and its forms."""

    def __init__(self, seed, folder):
        self.dice, self.folder, self.failures = random.Random(seed), folder, []
        self.found = decorated(self.dice, session_of(self.dice, seed % 2 == 0))
        self.swaps = rules_of(self.dice, self.found)
        self.rules = lines_at_random(self.dice, self.found)
        self.declared = declarations(self.rules)
        self.named = recorded(named(self.declared, self.found))
        self.values = revalued(self.dice, self.declared, self.found)
        folder.write("rules", self.rules.encode() + lines_of(self.swaps))
        folder.write("swaps", lines_of(self.swaps))
        folder.write("a", recorded(self.found))

    def want(self, name, holds, detail=""):
        if not holds:
            self.failures.append(f"{name}: {detail!r}"[:600])

    def name(self, text):
        return self.folder.run("name", "rules", given=text)

    def names(self):
        """The names are those of the reference, also after other values, again, and for a prefix."""
        for title, given in (("the session", recorded(self.found)), ("other values", recorded(self.values)), ("the names", self.named)):
            answer = self.name(given)
            self.want(f"name of {title}", answer == (0, self.named, b""), answer)
        count = self.dice.randrange(len(self.found))
        answer = self.name(recorded(self.found[:count]))
        self.want("name of a prefix", answer[0] == 0 and self.named.startswith(answer[1]) and answer[1] == recorded(named(self.declared, self.found[:count])), answer)

    def pipeline(self):
        """The golden text is the normal form of the names of the order, in whichever order the steps are taken that commute."""
        golden = normalised(record_all(named(self.declared, ordered(self.swaps, self.found))))
        answer = self.folder.run("golden", "--open", "--rules", "rules", "--update", "g", "a")
        self.want("golden", answer[0] == 0 and self.folder.read("g") == golden, answer)
        os.remove(self.folder.at("g"))
        in_order = self.folder.run("order", "rules", "a")
        self.want("order ignores labels", in_order == self.folder.run("order", "swaps", "a") and in_order[0] == 0, in_order)
        masked = self.folder.run("mask", "rules", "a")
        self.want("mask ignores labels", masked == (0, recorded(self.found), b""), masked)
        texts = [self.name(self.folder.run("order", "rules", given=it)[1])[1] for it in (recorded(self.found), self.named)]
        self.want("names before the order change nothing", texts[0] == texts[1])
        first, last = self.folder.run("normalise", given=texts[0]), self.name(self.folder.run("normalise", given=in_order[1])[1])
        self.want("name and normalise commute", first == last == (0, golden, b""), first)

    def compares(self):
        """Other values, exchanges and other ids are the same. One id in the place of another is a difference, if there are two."""
        other = revalued(self.dice, self.declared, renamed(self.dice, exchanged(self.dice, self.swaps, self.found)))
        self.folder.write("b", recorded(other))
        answer = self.folder.run("compare", "--rules", "rules", "a", "b")
        self.want("compare with other values", (answer[0], answer[1][:5]) == (0, b"same\n"), answer)
        wrong = aliased(self.dice, self.declared, other)
        if wrong is None:
            return False
        self.folder.write("b", recorded(wrong))
        answer = self.folder.run("compare", "--rules", "rules", "a", "b")
        self.want("compare with an alias", answer[0] == 1, answer)
        return True

    def tried(self):
        self.names()
        self.pipeline()
        return self.failures, self.compares(), len(ids(self.declared, self.found))


def try_sessions(seeds):
    found = []
    for seed in seeds:
        with Folder() as folder:
            found.append(Trial(seed, folder).tried())
    return found


def random_sessions(report, count):
    parts = [range(at, min(at + TOGETHER, count)) for at in range(0, count, TOGETHER)]
    begun = time.monotonic()
    with ProcessPoolExecutor(len(os.sched_getaffinity(0))) as workers:
        found = [each for part in workers.map(try_sessions, parts) for each in part]
    for seed, (failures, _, _) in enumerate(found):
        report.check(f"session {seed}", not failures, "; ".join(failures[:2]))
    differing, number = sum(it[1] for it in found), sum(it[2] for it in found)
    print(f"{count} sessions in {time.monotonic() - begun:.0f} seconds with {number} ids; {differing} with an alias differ", flush=True)
    report.check("there are enough of each sort", 2 * differing > count and number > 5 * count)


# ---- the document

def document(report):
    """The sessions that docs/RULES.md shows."""
    with open(os.path.join(TOP, "docs", "RULES.md"), encoding="utf-8") as file:
        text = file.read()
    shown = {word: re.search(rf"<!-- names: {word} -->\n((?: {{4}}.*\n)+)", text)[1].replace("\n    ", "\n")[4:] for word in ("before", "after", "broken")}
    with Folder(rules=VALUES, before=recording(pointers("0x7ffd5e8a", "0x7ffd5e8a")), broken=recording(pointers("0x55aa1000", "0x55aa1010"))) as folder:
        after = folder.run("name", "rules", "before")[1]
        for word, given in (("before", folder.read("before")), ("after", after), ("broken", folder.run("name", "rules", "broken")[1])):
            lines = folder.run("show", given=given)[1].decode()
            report.check(f"the document shows {word}", shown[word] in lines and shown[word] != "", repr(lines))


def main():
    report = Report()
    count = int(sys.argv[1]) if len(sys.argv) == 2 else SESSIONS
    if report.check("the gate has built the program", os.access(PROGRAM, os.X_OK)):
        for test in (worked, rejected_rules, accepted_rules, stops_at_errors, files, aliases, other_commands, joint_names, rules_together, over_order, captures, document):
            test(report)
        random_sessions(report, count)
    return report.close()


if __name__ == "__main__":
    sys.exit(main())
