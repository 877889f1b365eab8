"""Joins the output of sessions by the line `join event output` of a rules file, and compares what is joined with `join_reference.py`."""
import json
import os
import random
import sys

from tests.program.asked import asks_of_files, judged
from tests.program.captures import REFUSED_RECORDINGS
from tests.program.golden import Folder
from tests.program.join_reference import joined, joined_recording
from tests.program.worked_runs import BEGUN, record, recording, refusal
from tests.report import TOP, run

sys.path.insert(0, os.path.join(TOP, "scripts"))
from one_direction import records

CAPTURES = os.path.join(TOP, "examples", "captures")
LINES = {False: b"join event output\n", True: b"join event output per-stop\n"}
STOPPED = '<{"body":{"reason":"step"},"event":"stopped","seq":%d,"type":"event"}'
THREAD = '<{"body":{"reason":"started","threadId":1},"event":"thread","seq":%d,"type":"event"}'


def output(seq, text, **members):
    """An `output` event of the adapter, with the members of its body in the order of their names."""
    body = dict(sorted({**members, "output": text}.items()))
    return "<" + json.dumps({"body": body, "event": "output", "seq": seq, "type": "event"}, separators=(",", ":"))


# Two categories that alternate, a stop, and output after it.
SESSION = [
    output(1, "a", category="stdout"), output(2, "x", category="stderr"), THREAD % 3, output(4, "b", category="stdout"),
    STOPPED % 5, output(6, "c", category="stdout"), output(7, "y"),
]

# Sessions, and what `join event output` and `join event output per-stop` make of them.
WORKED = {
    "two categories and a stop": (
        SESSION,
        [THREAD % 3, STOPPED % 5, output(7, "y", category="console"), output(2, "x", category="stderr"), output(1, "abc", category="stdout")],
        [
            THREAD % 3, output(2, "x", category="stderr"), output(1, "ab", category="stdout"), STOPPED % 5,
            output(7, "y", category="console"), output(6, "c", category="stdout"),
        ],
    ),
    "no output": ([THREAD % 1, STOPPED % 2], [THREAD % 1, STOPPED % 2], [THREAD % 1, STOPPED % 2]),
    "an empty session": ([], [], []),
    "no text": ([output(1, "")], [output(1, "", category="console")], [output(1, "", category="console")]),
    "two stops without output between them": ([STOPPED % 1, STOPPED % 2, output(3, "a")],) + 2 * ([STOPPED % 1, STOPPED % 2, output(3, "a", category="console")],),
    "other members are left out": ([output(1, "a", line=3, source={"name": "f"})],) + 2 * ([output(1, "a", category="console")],),
    "a reference of 0": ([output(1, "a", variablesReference=0), output(2, "b")],) + 2 * ([output(1, "ab", category="console")],),
    "an event with a reference stays": (
        [output(1, "a"), output(2, "b", variablesReference=5), output(3, "c")],
    ) + 2 * ([output(2, "b", variablesReference=5), output(1, "ac", category="console")],),
    "an event without text stays": (
        ['<{"body":{"category":"stdout"},"event":"output","seq":1,"type":"event"}', output(2, "c")],
    ) + 2 * (['<{"body":{"category":"stdout"},"event":"output","seq":1,"type":"event"}', output(2, "c", category="console")],),
    "an event without seq": (
        ['<{"body":{"output":"a"},"event":"output","type":"event"}', output(2, "b")],
    ) + 2 * (['<{"body":{"category":"console","output":"ab"},"event":"output","type":"event"}'],),
    "what the client sends stays": (
        [output(1, "a").replace("<", ">"), output(2, "b")],
    ) + 2 * ([output(1, "a").replace("<", ">"), output(2, "b", category="console")],),
    "texts that are escaped": (
        [output(1, 'a"\n', category="é"), output(2, "\u0001\\", category="é"), output(3, "z", category="Z")],
    ) + 2 * ([output(3, "z", category="Z"), output(1, 'a"\n\u0001\\', category="é").replace("\\u00e9", "é")],),
}

# Recordings that the rules cannot be applied to: the record is that of the input.
STDOUT = [output(1, "a"), output(2, "b")]
REFUSED = {
    "no JSON": (recording([*STDOUT, "<{", THREAD % 3]), "record 3: Json"),
    "a fraction": (recording([*STDOUT, '<{"event":"thread","seq":1.5,"type":"event"}']), "record 3: Fraction"),
    "a fraction in output": (recording([*STDOUT, '<{"body":{"output":"a","x":0.5},"event":"output","seq":3,"type":"event"}']), "record 3: Fraction"),
    "no record": (recording(STDOUT) + b"x", "record 3: BadMarker"),
    "a record that is cut": (recording(STDOUT) + recording(STDOUT)[:-1], "record 4: Cut"),
}


def worked(report):
    for title, (session, whole, per_stop) in WORKED.items():
        for is_per_stop, wanted in ((False, whole), (True, per_stop)):
            name = f"{title}, {'per stop' if is_per_stop else 'whole'}"
            asks_of_files(report, name, ["mask", "rules"], {"rules": LINES[is_per_stop]}, recording(session), (0, recording(wanted), b""))
            parts = [(">" if side == "client" else "<") + content.decode() for side, content, _ in joined(recording(session), is_per_stop)]
            report.check(f"{name}: the reference", recording(parts) == recording(wanted), repr(parts))


def refused(report):
    for title, (given, why) in REFUSED.items():
        for line in LINES.values():
            asks_of_files(report, f"{title}, {line}", ["mask", "rules"], {"rules": line}, given, (2, b"", refusal(why)))
    rules = b"word a b\nblank event output body.x\n"
    given = REFUSED["a fraction in output"][0]
    asks_of_files(report, "a fraction that the rules remove stays apart", ["mask", "rules"], {"rules": LINES[False] + rules}, given, (
        0, recording(['<{"body":{"output":"b","x":0},"event":"output","seq":3,"type":"event"}', output(1, "bb", category="console")]), b"",
    ))


def before_other_rules(report):
    """Words and actions see the joined text, and events are dropped after that."""
    given = recording([output(1, "pid 12", category="stdout"), THREAD % 2, output(3, "34 in /ho", category="stdout"), output(4, "me\n", category="stdout")])
    rules = b'digits event output category=stdout body.output\njoin event output\nword "/home" "<home>"\n'
    wanted = recording([THREAD % 2, output(1, "pid 0 in <home>\n", category="stdout")])
    asks_of_files(report, "words and digits after joining", ["mask", "rules"], {"rules": rules}, given, (0, wanted, b""))
    asks_of_files(report, "joined and dropped", ["mask", "rules"], {"rules": LINES[True] + b"drop event output category=stdout\n"}, given, (0, recording([THREAD % 2]), b""))
    with Folder(rules=LINES[True], none=b"", session=recording([*BEGUN, *SESSION])) as folder:
        answer = folder.run("order", "rules", "session")
        report.check("order does not join", answer == folder.run("order", "none", "session") and answer[0] == 0, repr(answer))


def accepted():
    for name in sorted(os.listdir(CAPTURES)):
        if name.endswith(".rec") and name not in REFUSED_RECORDINGS:
            with open(os.path.join(CAPTURES, name), "rb") as file:
                yield name, file.read()


def captures(report):
    """The program joins as the script does, and what is joined is not changed by a second pass."""
    for name, text in accepted():
        for is_per_stop, line in LINES.items():
            with Folder(rules=line, none=b"", joined=joined_recording(text, is_per_stop), session=text) as folder:
                wanted = folder.run("mask", "none", "joined")
                answer = folder.run("mask", "rules", "session")
                report.check(f"{name}, {line}: as the script", answer == wanted and answer[0] == 0, repr(answer[2]))
                report.check(f"{name}, {line}: again", folder.run("mask", "rules", given=answer[1]) == answer)
                report.check(f"{name}, {line}: accepted", folder.run("check", given=answer[1])[0] == 0)


def cut_again(generator, text):
    """The session with its output cut in other pieces, at other places between the same stops. The first piece keeps its `seq`."""
    parts, out, last = joined(text, True), [], 1 << 40
    held = []
    for side, content, _ in parts:
        message = json.loads(content)
        if side == "adapter" and message.get("event") == "output" and "variablesReference" not in message["body"]:
            rest, seq = message["body"]["output"], message["seq"]
            while rest:
                size = generator.randint(1, len(rest))
                held.append((message["body"]["category"], output(seq, rest[:size], category=message["body"]["category"])))
                rest, last = rest[size:], last + 1
                seq = last
        else:
            out.append((">" if side == "client" else "<") + content.decode())
            if message.get("event") == "stopped" and held:
                out[-1:] = [*mixed(generator, held), out[-1]]
                held = []
    return recording([*out, *mixed(generator, held)])


def mixed(generator, held):
    """The events in another order, in which those of one category stay in theirs."""
    by_category = {}
    for category, line in held:
        by_category.setdefault(category, []).append(line)
    lines = []
    while any(by_category.values()):
        lines.append(by_category[generator.choice([it for it in sorted(by_category) if by_category[it]])].pop(0))
    return lines


def pieces(report):
    """Output that is cut otherwise is the same; output that is changed, or that moves past a stop, differs."""
    generator = random.Random(73)
    for name, text in accepted():
        if b'"output"' not in text:
            continue
        changed = joined_recording(text, True)
        numbers = [number for number, (side, content, _) in enumerate(joined(text, True)) if side == "adapter" and b'"event":"output"' in content]
        with Folder(rules=LINES[True], session=text) as folder:
            for number in range(5):
                folder.write("other", cut_again(generator, text))
                answer = folder.run("compare", "--rules", "rules", "session", "other")
                report.check(f"{name}: cut otherwise, {number}", answer[0] == 0, repr(answer))
            for number in numbers:
                lines = [[side, content] for side, _, content in records(changed)]
                message = json.loads(lines[number][1])
                if "variablesReference" in message["body"] or not message["body"]["output"]:
                    continue
                message["body"]["output"] += "!"
                lines[number][1] = json.dumps(message).encode()
                folder.write("other", recording([(">" if side == "client" else "<") + content.decode() for side, content in lines]))
                answer = folder.run("compare", "--rules", "rules", "session", "other")
                report.check(f"{name}: a byte more in output {number}", answer[0] == 1, repr(answer))


def commands(report):
    """Each command that takes rules joins."""
    one = [*BEGUN, output(2, "ab", category="stdout"), THREAD % 3]
    other = [*BEGUN, output(2, "a", category="stdout"), THREAD % 3, output(4, "b", category="stdout")]
    with Folder(rules=LINES[True], a=recording(one), b=recording(other)) as folder:
        report.check("they differ", folder.run("compare", "a", "b")[0] == 1)
        for words in (["compare"], ["diff"], ["diff", "--all"]):
            answer = folder.run(*words, "--rules", "rules", "a", "b")
            report.check(f"{words} by rules", answer[0] == 0 and answer[1].startswith(b"same\n"), repr(answer))
        answer = folder.run("golden", "--rules", "rules", "--update", "g", "a")
        report.check("golden --update", answer[0] == 0, repr(answer))
        answer = folder.run("golden", "--rules", "rules", "g", "b")
        report.check("golden", answer == (0, b"same\n", b""), repr(answer))
        answer = folder.run("suggest", "--rules", "rules", "a", "b")
        report.check("suggest adds nothing", answer[0] == 0 and b"event" not in answer[1], repr(answer))


if __name__ == "__main__":
    sys.exit(judged(worked, refused, before_other_rules, captures, pieces, commands))
