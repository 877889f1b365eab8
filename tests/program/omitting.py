"""Omits elements of arrays by their names, by `omit` lines of a rules file, and compares what is left with a script."""
import json
import os
import random
import sys

from tests.program.asked import asks_of_files, judged
from tests.program.captures import REFUSED_RECORDINGS
from tests.program.golden import Folder
from tests.program.worked_runs import BEGUN, record, recording, refusal
from tests.report import TOP

sys.path.insert(0, os.path.join(TOP, "scripts"))
from compact_reference import canonical
from one_direction import records

CAPTURES = os.path.join(TOP, "examples", "captures")
X = 'omit event a body.v["x"]'
UUID, NIL = "6e8bc430-9c3a-11d9-9669-0800200c9a66", "00000000-0000-0000-0000-000000000000"


def event(body, name="a"):
    return f'<{{"body":{body},"event":"{name}","seq":1,"type":"event"}}'


def listed(items):
    return event(f'{{"v":[{items}]}}')


def response(value, command="a"):
    return f'<{{"body":{{"v":{value}}},"command":"{command}","type":"response"}}'


# Elements that have the name "x" to no rule.
OTHERS = (
    '"x",{"y":"x"},{"name":7},{"name":null},{"name":["x"]},{"name":{"name":"x"}},{"Name":"x"},[{"name":"x"}],null,true,{"name":"x2"},{"name":"X"},'
    '{"name":""},{}'
)
# Rules, a record, and what they make of it.
WORKED = [
    (X, listed('{"name":"x","y":1},{"name":"b"},{"name":"x"},{"name":"a"},{"name":"x"}'), listed('{"name":"b"},{"name":"a"}')),
    (X, listed('{"name":"x"},{"name":"x"}'), listed("")),
    (X, listed(""), listed("")),
    (X, listed(OTHERS), listed(OTHERS)),
    (X, listed(f'{{"name":"x"}},{OTHERS},{{"name":"x"}}'), listed(OTHERS)),
    # The last member of a name counts.
    (X, listed('{"name":"x","name":"b"},{"name":"b","name":"x"}'), listed('{"name":"b"}')),
    # Only an array has elements.
    (X, event('{"v":{"name":"x"}}'), event('{"v":{"name":"x"}}')),
    (X, event('{"v":"x"}'), event('{"v":"x"}')),
    (X, event('{"name":"x","w":[{"name":"x"}]}'), event('{"name":"x","w":[{"name":"x"}]}')),
    (X, event('[{"v":[{"name":"x"}]}]'), event('[{"v":[{"name":"x"}]}]')),
    (X, event("null"), event("null")),
    # Other messages, and any message.
    (X, event('{"v":[{"name":"x"}]}', "b"), event('{"v":[{"name":"x"}]}', "b")),
    (X, response('[{"name":"x"}]'), response('[{"name":"x"}]')),
    ('omit response a body.v["x"]', listed('{"name":"x"}'), listed('{"name":"x"}')),
    ('omit response a body.v["x"]', response('[{"name":"x"}]'), response("[]")),
    ('omit response a body.v["x"]', response('[{"name":"x"}]', "b"), response('[{"name":"x"}]', "b")),
    (
        'omit request a arguments.v["x"]', '>{"arguments":{"v":[{"name":"x"},1]},"command":"a","type":"request"}',
        '>{"arguments":{"v":[1]},"command":"a","type":"request"}',
    ),
    ('omit event * body.v["x"]', event('{"v":[{"name":"x"},1]}', "b"), event('{"v":[1]}', "b")),
    ('omit event * v["x"]', '<{"type":"event","v":[{"name":"x"},1]}', '<{"type":"event","v":[1]}'),
    ('omit event * v["x"]\nomit event a v["x"]', '<{"event":"a","type":"event","v":[{"name":"x"},1]}', '<{"event":"a","type":"event","v":[1]}'),
    # Arrays in arrays, and in elements of a name.
    (
        'omit event a body.v[].w["x"]', event('{"v":[{"name":"x","w":[{"name":"x"},{"name":"b"}]},{"w":[{"name":"x"}]},{"w":{"name":"x"}},3]}'),
        event('{"v":[{"name":"x","w":[{"name":"b"}]},{"w":[]},{"w":{"name":"x"}},3]}'),
    ),
    (
        'omit event a body.v["y"].w["x"]', event('{"v":[{"name":"y","w":[{"name":"x"},{"name":"b"}]},{"name":"z","w":[{"name":"x"}]},{"w":[{"name":"x"}]}]}'),
        event('{"v":[{"name":"y","w":[{"name":"b"}]},{"name":"z","w":[{"name":"x"}]},{"w":[{"name":"x"}]}]}'),
    ),
    ('omit event a body.v[]["x"]', listed('[{"name":"x"},1],[{"name":"b"}],{"name":"x"}'), listed('[1],[{"name":"b"}],{"name":"x"}')),
    ('omit event a body.v["y"]["x"]', listed('{"name":"y"},[{"name":"x"}]'), listed('{"name":"y"},[{"name":"x"}]')),
    ('omit event a body.v["x"].w.v["x"]', listed('{"name":"x","w":{"v":[{"name":"x"},1]}}'), listed('{"name":"x","w":{"v":[1]}}')),
    (
        'omit event a body.v["y"].w["x"]\nomit event a body.v["z"]\nomit event a body.v["y"].w["b"]',
        event('{"v":[{"name":"y","w":[{"name":"x"},{"name":"b"},1]},{"name":"z","w":[{"name":"x"}]}]}'), event('{"v":[{"name":"y","w":[1]}]}'),
    ),
    (f'{X}\nomit event a body.v["x"].w["y"]', listed('{"name":"x","w":[{"name":"y"}]},1'), listed("1")),
    # Names and places in quotes.
    ('omit event a body."v w"["a \\"b\\" \\u00e9 # ]"]', event('{"v w":[{"name":"a \\"b\\" é # ]"},1]}'), event('{"v w":[1]}')),
    ('omit event a body.v[""]', listed('{"name":""},{},{"name":" "}'), listed('{},{"name":" "}')),
    ('# one\n\n\tomit  event\t"a" "body".v["\\u0078"] # another\r\n', listed('{"name":"x"},1'), listed("1")),
    # Elements are selected by their last names.
    (
        'digits event a body.v[].name\nomit event a body.v["a0"]', listed('{"name":"a17"},{"name":"b1"},{"name":"a0"},{"name":"a"}'),
        listed('{"name":"b0"},{"name":"a"}'),
    ),
    ('digits event a body.v[].name\nomit event a body.v["a17"]', listed('{"name":"a17"}'), listed('{"name":"a0"}')),
    (
        'hex event a body.v[].name\nomit event a body.v["at 0x0"]', listed('{"name":"at 0x1f"},{"name":"at"},{"name":"at 0x"}'),
        listed('{"name":"at"},{"name":"at 0x"}'),
    ),
    ('long event a body.v[].name\nomit event a body.v["0"]', listed('{"name":"7f3a1c"},{"name":"abcdef"}'), listed('{"name":"abcdef"}')),
    (f'uuid event a body.v[].name\nomit event a body.v["{NIL}"]', listed(f'{{"name":"{UUID}"}},{{"name":"b"}}'), listed('{"name":"b"}')),
    ('blank event a body.v[].name\nomit event a body.v[""]', listed('{"name":"a"},{"name":7},{"name":"b"},{"name":null}'), listed('{"name":0},{"name":null}')),
    (
        'digits event a body.v[].w[].name\nomit event a body.v["y"].w["x0"]',
        listed('{"name":"y","w":[{"name":"x1"},{"name":"x2"},1]},{"name":"z","w":[{"name":"x1"}]}'),
        listed('{"name":"y","w":[1]},{"name":"z","w":[{"name":"x0"}]}'),
    ),
    ('word "one" "<two>"\nomit event a body.v["<two>"]', listed('{"name":"one"},{"name":"b","y":"one"}'), listed('{"name":"b","y":"<two>"}')),
    ('word "one" "<two>"\nomit event a body.v["one"]', listed('{"name":"one"}'), listed('{"name":"<two>"}')),
    ('fill event a body.v[].name "n"\nomit event a body.v["n"]', listed('{},{"name":null,"y":1},{"name":"b"},7,{"name":"n"}'), listed('{"name":"b"},7')),
    # Other rules for the same elements come first.
    (f'blank event a body.v["x"].y\n{X}', listed('{"name":"x","y":1},{"name":"b","y":1}'), listed('{"name":"b","y":1}')),
    (f'blank event a body.v["x"]\n{X}', listed('{"name":"x"},{"name":"b"}'), listed('{},{"name":"b"}')),
    (f"blank event a body.v\n{X}", listed('{"name":"x"},{"name":"b"}'), listed("")),
    (f"blank event a body\n{X}", listed('{"name":"x"}'), event("{}")),
    (f"drop event a\n{X}", listed('{"name":"x"},{"name":"b"}'), None),
    (f"drop event a category=c\n{X}", event('{"category":"c","v":[{"name":"x"}]}'), None),
    (f"drop event a category=c\n{X}", event('{"category":"d","v":[{"name":"x"}]}'), event('{"category":"d","v":[]}')),
    # These lines are not for `mask`.
    (f"per-stop\nswap event a event b\nhex event a body.v[].y as address\n{X}", listed('{"name":"x","y":"0x1"},{"y":"0x1"}'), listed('{"y":"0x1"}')),
    # Numbers that are not integers of 64 bits.
    (X, listed('{"name":"x","y":1.5},{"name":"b"},{"name":"x","y":{"z":[18446744073709551616]}}'), listed('{"name":"b"}')),
    (f"blank event a body.v[].y\n{X}", listed('{"name":"x","y":1.5},{"name":"b","y":2.5}'), listed('{"name":"b","y":0}')),
]
# Rules, and a record in which such a number is left.
FRACTIONS = [
    (X, listed('{"name":"x"},{"name":"b","y":1.5}')),
    (X, listed('{"name":"x","y":1.5},1.5')),
    (X, event('{"v":[{"name":"x","y":1.5}],"w":1.5}')),
    (X, event('{"v":[{"name":"x","y":1.5}]}', "b")),
    (X, event('{"v":{"name":"x","y":1.5}}')),
    ('omit event a body.v["y"].w["x"]', listed('{"name":"y","w":[{"name":"x","y":1.5}],"y":1.5}')),
    (f'blank event a body.v["x"]\nomit event a body.v["b"]\n{X}', listed('{"name":"x","y":1.5},{"name":"b","y":1.5},{"name":"c","y":1.5}')),
]


def worked(report):
    for rules, given, wanted in WORKED:
        text = recording([wanted] if wanted else [])
        asks_of_files(report, f"{rules}: {given}", ["mask", "rules"], {"rules": rules.encode()}, record(given), (0, text, b""))
        asks_of_files(report, f"{rules}: {given}, again", ["mask", "rules"], {"rules": rules.encode()}, text, (0, text, b""))
    for rules, given in FRACTIONS:
        asks_of_files(report, f"{rules}: {given}", ["mask", "rules"], {"rules": rules.encode()}, record(given), (2, b"", refusal("record 1: Fraction")))


# Lines for one record, which may have any order, and what they make of it.
LINES = [
    'word "one" "<two>"', 'fill event a body.v[].name "n"', "digits event a body.v[].name", "hex event a body.u[].name", 'blank event a body.v["b0"].y',
    "drop event b", "per-stop", "swap event a event b", "hex event a body.v[].z as address", "join event output",
    'omit event a body.v["a0"]', 'omit event a body.v["<two>"]', 'omit event a body.v["b0"].w["x"]', 'omit event a body.v["b0"].w["y"]',
    'omit event * body.u["at 0x0"]', 'omit event a body.v["n"]', 'omit event b body.v["c"]',
]
MIXED = event(
    '{"u":[{"name":"at 0x1f"},{"name":"at"}],"v":[{"name":"a17"},{"name":"one"},{"name":"b2","w":[{"name":"x"},{"name":"z"},{"name":"y"}],"y":"7","z":"0x5"},'
    '{},{"name":null,"y":1.5},{"name":"c"}]}'
)
LEFT = event('{"u":[{"name":"at"}],"v":[{"name":"b0","w":[{"name":"z"}],"y":"","z":"0x5"},{"name":"c"}]}')


def any_order(report):
    """The order of the lines does not matter."""
    dice = random.Random(7)
    for number in range(40):
        rules = "".join(f"{line}\n" for line in dice.sample(LINES, len(LINES))).encode()
        asks_of_files(report, f"an order of lines, row {number}: {rules}", ["mask", "rules"], {"rules": rules}, record(MIXED), (0, record(LEFT), b""))
        asks_of_files(report, f"an order of lines, masked again, row {number}", ["mask", "rules"], {"rules": rules}, record(LEFT), (0, record(LEFT), b""))


def is_called(item, name):
    return isinstance(item, dict) and item.get("name") == name


def omitted(doc, place):
    """Removes the elements that the last step of a place selects from the arrays there. A tuple of one text is the elements with this name."""
    first, *rest = place
    if isinstance(first, tuple):
        if not isinstance(doc, list):
            return
        if not rest:
            doc[:] = [item for item in doc if not is_called(item, first[0])]
        for item in doc if rest else []:
            if is_called(item, first[0]):
                omitted(item, rest)
    elif first == "[]":
        for item in doc if isinstance(doc, list) else []:
            omitted(item, rest)
    elif isinstance(doc, dict) and first in doc:
        omitted(doc[first], rest)


# Rules for elements that real sessions have, each with its messages and its place.
REAL = [
    ('omit response variables body.variables["special variables"]', "response", "variables", ["body", "variables", ("special variables",)]),
    ('omit response variables body.variables["counter"]', "response", "variables", ["body", "variables", ("counter",)]),
    ('omit response * body.variables["len()"]', "response", None, ["body", "variables", ("len()",)]),
    ('omit response scopes body.scopes["Locals"]', "response", "scopes", ["body", "scopes", ("Locals",)]),
    ('omit response stackTrace body.stackFrames["main"]', "response", "stackTrace", ["body", "stackFrames", ("main",)]),
    ('omit response threads body.threads["MainThread"]', "response", "threads", ["body", "threads", ("MainThread",)]),
    ('omit response threads body.threads["[Go 2] runtime.gopark"]', "response", "threads", ["body", "threads", ("[Go 2] runtime.gopark",)]),
    ('omit event * body.breakpoints["x"]', "event", None, ["body", "breakpoints", ("x",)]),
]


def captures(report):
    """Elements that real sessions have in some messages."""
    dice = random.Random(11)
    removed = 0
    for name in sorted(os.listdir(CAPTURES)):
        if not name.endswith(".rec") or name in REFUSED_RECORDINGS:
            continue
        with open(os.path.join(CAPTURES, name), "rb") as file:
            text = file.read()
        lines = []
        for side, _, content in records(text):
            message = json.loads(content)
            for _, kind, called, place in REAL:
                if message["type"] == kind and called in (None, message["event" if kind == "event" else "command"]):
                    omitted(message, place)
            lines.append((">" if side == "client" else "<") + canonical(message).decode())
            removed += canonical(message) != canonical(json.loads(content))
        rules = "".join(f"{rule}\n" for rule, *_ in dice.sample(REAL, len(REAL))).encode()
        asks_of_files(report, f"{name}: as the script", ["mask", "rules"], {"rules": rules}, text, (0, recording(lines), b""))
        asks_of_files(report, f"{name}: as the script, again", ["mask", "rules"], {"rules": rules}, recording(lines), (0, recording(lines), b""))
    report.check("elements of real sessions are omitted", removed > 50, str(removed))


# ---- sessions in which only some runs have an element


def line(side, **members):
    return side + json.dumps({name: value for name, value in members.items() if value is not None}, sort_keys=True, separators=(",", ":"))


def session(*asked):
    """A session with these requests: the command, the arguments, and the body of the response."""
    lines = list(BEGUN)
    for seq, (command, arguments, body) in enumerate(asked, 2):
        lines.append(line(">", type="request", command=command, seq=seq, arguments=arguments))
        lines.append(line("<", type="response", command=command, seq=seq, request_seq=seq, success=True, body=body))
    return recording(lines)


def threads(asked, *listed):
    """A session that lists threads, each an id and a name, and asks for the stack of one."""
    items = [{"id": number, "name": name} for number, name in listed]
    frames = [{"id": 1000 + asked, "name": "f", "line": 3, "column": 1}]
    return session(("threads", None, {"threads": items}), ("stackTrace", {"threadId": asked}, {"stackFrames": frames}))


def variables(asked, *listed):
    """A session that lists variables, each a name and a variables reference, and asks for the children of one."""
    items = [{"name": name, "value": "1", "variablesReference": number} for name, number in listed]
    return session(("variables", {"variablesReference": 900}, {"variables": items}), ("variables", {"variablesReference": asked}, {"variables": []}))


# Rules, a session, the same without the elements that are omitted, and the record in which the two differ without rules.
SESSIONS = {
    "a thread": ('omit response threads body.threads["pool"]', threads(40, (70, "main"), (99, "pool"), (40, "w")), threads(40, (70, "main"), (40, "w")), 4),
    "the first thread": (
        'omit response threads body.threads["pool"]', threads(40, (99, "pool"), (70, "main"), (40, "w")), threads(40, (70, "main"), (40, "w")), 4,
    ),
    "a thread with a number": (
        'digits response threads body.threads[].name\nomit response threads body.threads["pool-0"]',
        threads(40, (98, "pool-7"), (70, "main"), (99, "pool-12"), (40, "w")), threads(40, (70, "main"), (40, "w")), 4,
    ),
    "a variable": (
        'omit response variables body.variables["b"]',
        variables(7, ("a", 0), ("b", 5), ("c", 6), ("b", 0), ("d", 7)), variables(7, ("a", 0), ("c", 6), ("d", 7)), 4,
    ),
}


def ids(report):
    """The ids in an omitted element are gone, and later ids have the numbers that they have without it."""
    for name, (rules, a, b, number) in SESSIONS.items():
        with Folder(rules=rules.encode(), a=a, b=b, none=b"") as folder:
            report.check(f"{name}: masked", folder.run("mask", "rules", "a") == (0, b, b""), repr(folder.run("mask", "rules", "a")))
            report.check(f"{name}: masked again", folder.run("mask", "rules", "b") == (0, b, b""))
            for words in (["golden", "--rules", "rules", "--update", "g", "a"], ["golden", "--update", "h", "b"]):
                answer = folder.run(*words)
                report.check(f"{name}: {words}", answer[0] == 0, repr(answer))
            report.check(f"{name}: one golden file", folder.read("g") == folder.read("h") is not None, repr((folder.read("g"), folder.read("h"))))
            report.check(f"{name}: it has the numbers of normalise", folder.run("normalise", "b") == (0, folder.read("g"), b""))
            report.check(f"{name}: held to it", folder.run("golden", "--rules", "rules", "h", "a") == (0, b"same\n", b""))
            for words in (["compare"], ["diff"], ["diff", "--all"]):
                answer = folder.run(*words, "--rules", "rules", "a", "b")
                report.check(f"{name}: {words} with the rules", (answer[0], answer[1].splitlines()[:1]) == (0, [b"same"]), repr(answer))
                answer = folder.run(*words, "--rules", "none", "a", "b")
                report.check(f"{name}: {words} without rules", answer[0] == 1, repr(answer))
            report.check(f"{name}: compare", folder.run("compare", "a", "b") == (1, b"differ %d\n" % number, b""))
            report.check(f"{name}: check", folder.run("check", "--rules", "rules", "a") == folder.run("check", "b"))
            answer = folder.run("suggest", "--rules", "rules", "a", "b")
            report.check(f"{name}: suggest", (answer[0], answer[1].strip(), answer[2]) == (0, b"# with these rules: same", b""), repr(answer))
            report.check(f"{name}: order does not omit it", folder.run("order", "rules", "a") == folder.run("order", "none", "a"))
            report.check(f"{name}: name does not omit it", folder.run("name", "rules", "a") == folder.run("name", "none", "a"))


def names(report):
    """Names of declared ids come after `omit`: the ids of an omitted element have none."""
    def valued(*pairs):
        return session(("variables", {"variablesReference": 9}, {"variables": [{"name": name, "value": it, "variablesReference": 0} for name, it in pairs]}))

    rules = b'hex response variables body.variables[].value as address\nomit response variables body.variables["b"]\n'
    a, b = valued(("b", "0x1"), ("c", "0x2"), ("d", "0x1"), ("e", "0x2")), valued(("c", "0x7"), ("d", "0x8"), ("e", "0x7"), ("b", "0x7"))
    with Folder(rules=rules, label=rules.splitlines(keepends=True)[0], a=a, b=b, left=valued(("c", "0x5"), ("d", "0x4"), ("e", "0x5"))) as folder:
        for name, options in (("g", ["--rules", "rules", "--update", "g", "a"]), ("h", ["--rules", "label", "--update", "h", "left"])):
            answer = folder.run("golden", *options)
            report.check(f"names: golden file {name}", answer[0] == 0, repr(answer))
        report.check("names: one golden file", folder.read("g") == folder.read("h") is not None, repr(folder.read("g")))
        report.check("names: golden", folder.run("golden", "--rules", "rules", "g", "b") == (0, b"same\n", b""))
        answer = folder.run("compare", "--rules", "rules", "a", "b")
        report.check("names: compare", (answer[0], answer[1].splitlines()[:1]) == (0, [b"same"]), repr(answer))
        report.check("names: diff --all", folder.run("diff", "--all", "--rules", "rules", "a", "b") == (0, b"same\n", b""))
        report.check("names: compare without the line", folder.run("compare", "--rules", "label", "a", "b") == (1, b"differ 4\n", b""))


def golden(report):
    """Runs of which some have one more thread are the same, and each other difference is one."""
    rules = b'omit response threads body.threads["pool"]\n'
    main, pool, work = (70, "main"), (99, "pool"), (40, "w")
    runs = {
        "one more thread": (threads(40, main, pool, work), None), "two more threads": (threads(40, pool, main, work, (98, "pool")), None),
        "no more thread": (threads(40, main, work), None), "other ids": (threads(4, (7, "main"), (9, "pool"), (4, "w")), None),
        "another name": (threads(40, main, pool, (40, "x")), 4), "a thread of another name": (threads(40, main, (99, "pool2"), work), 4),
        "a thread less": (threads(70, main, pool), 4), "another order": (threads(40, work, pool, main), 4),
        "the stack of another thread": (threads(70, main, pool, work), 5),
    }
    for first in ("one more thread", "no more thread"):
        with Folder(rules=rules, none=b"", a=runs[first][0]) as folder:
            for options, name in ((["--rules", "rules"], "g"), ([], "plain")):
                answer = folder.run("golden", *options, "--update", name, "a")
                report.check(f"golden file by {first}, {name}", answer[0] == 0, repr(answer))
            for name, (text, number) in runs.items():
                folder.write("b", text)
                answer = folder.run("golden", "--rules", "rules", "g", "b")
                wanted = (0, b"same") if number is None else (1, b"differ %d" % number)
                report.check(f"{name}, by {first}", (answer[0], answer[1].splitlines()[0]) == wanted, repr(answer))
                answer = folder.run("golden", "plain", "b")
                is_same = name in (first, "other ids") if first == "one more thread" else name == first
                report.check(f"{name}, by {first}, without rules", answer[0] == (0 if is_same else 1), repr(answer))


if __name__ == "__main__":
    sys.exit(judged(worked, any_order, captures, ids, names, golden))
