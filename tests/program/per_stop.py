"""Takes recordings through `normalise`, `check`, `compare` and `diff` with `--per-stop`, by which the names of frame ids and of references begin again
after each stop: those of real adapters, sessions by hand, and the example of the document. The scripts in the place of `normalise` and of
`compare` are a second opinion."""
import json
import os
import re
import sys
import tempfile

from tests.program.captures import OPEN, REFUSED_RECORDINGS
from tests.program.masks import masked_and_named
from tests.program.normal_form import PAIRS, leading
from tests.report import PROGRAM, TOP, Report, run
from tests.program.worked_runs import BEGUN, FRAME, NEW_FRAME, SECOND_STOP, STACK, STOPPED, TWO_STOPS, recording

sys.path.insert(0, os.path.join(TOP, "scripts"))
from compare_reference import compared
from normalise_reference import normalised
from one_direction import records

EXAMPLES = os.path.join(TOP, "examples")
OPTION = "--per-stop"
LINE = re.compile(rb"(client-seq|adapter-seq|frame@\d+|reference@\d+|thread|breakpoint) (-?\d+) (-?\d+)\n")
WORDS = ["client-seq", "adapter-seq", "frame", "reference", "thread", "breakpoint"]

# The captures whose adapter continues after a stop with earlier numbers and others, so that their names are others with the option.
OTHER_NAMES = {"debugpy-a-basic.1.rec", "debugpy-l-stopentry.1.rec", "lldb14-b-loop.1.rec", "rdbg-e-errors.3.rec", "rdbg-e-errors.5.rec"}

# Two runs of one session each, and the mask by which they are compared.
FRESH = [
    ("debugpy", "debugpy-e-errors.1", "debugpy-e-errors.2"),
    ("debugpy", "debugpy-l-stopentry.3", "debugpy-l-stopentry.4"),
    ("delve", "dlv-f-edit.1", "dlv-f-edit.2"),
    ("lldb", "lldb14-e-errors.1", "lldb14-e-errors.2"),
    ("lldb", "lldb16-l-stopentry.1", "lldb16-l-stopentry.2"),
    ("lldb", "lldb16-i-terminal.1", "lldb16-i-terminal.2"),
    ("lldb", "lldb19-e-errors.1", "lldb19-e-errors.2"),
    ("rdbg", "rdbg-g-cancel.1", "rdbg-g-cancel.2"),
]


def read(*path):
    with open(os.path.join(EXAMPLES, *path), "rb") as file:
        return file.read()


def accepted():
    return [name for name in sorted(os.listdir(os.path.join(EXAMPLES, "captures"))) if name.endswith(".rec") and name not in REFUSED_RECORDINGS]


def stops(text):
    """How many `stopped` events a recording has."""
    messages = [json.loads(content) for _, _, content in records(text)]
    return sum((message["type"], message.get("event")) == ("event", "stopped") for message in messages)


def compare(folder, command, one, other, *options):
    """What `compare` or `diff` answers of two recordings."""
    paths = []
    for which, text in (("a", one), ("b", other)):
        paths.append(os.path.join(folder, which))
        with open(paths[-1], "wb") as file:
            file.write(text)
    return run([command, *options, *paths])


def normal_forms(report):
    changed = set()
    for name in accepted():
        text = read("captures", name)
        whole, wanted = normalised(text), normalised(text, per_stop=True)
        status, written, errors = run(["normalise", OPTION], text)
        report.check(f"{name} is normalised per stop", (status, errors) == (0, b""), repr((status, errors)))
        report.check(f"{name}: its normal form is the script's too", written == wanted)
        report.check(f"{name}: a second run changes nothing", run(["normalise", OPTION], written) == (0, written, b""))
        report.check(f"{name}: that of the whole is normalised to it", run(["normalise", OPTION], whole) == (0, written, b""))
        report.check(f"{name}: its normal form stays without the option", run(["normalise"], written) == (0, written, b""))
        changed |= {name} if written != whole else set()
    report.check("some have other names than in the whole", changed == OTHER_NAMES, repr(sorted(changed)))


def checks(report):
    for name in accepted():
        text = read("captures", name)
        whole = run(["check"], text)
        report.check(f"{name} is accepted", whole[0] == 0, repr(whole))
        for given, title in ((text, name), (normalised(text, per_stop=True), f"the normal form of {name}")):
            answer = run(["check", OPTION], given)
            report.check(f"{title} is accepted per stop with the same numbers", answer == whole, repr(answer))
        complete = run(["check", "--complete"], text)
        report.check(f"{name}: its open requests are refused where there are some", (complete[0] == 2) == (name in OPEN), repr(complete))
        for options in ([OPTION, "--complete"], ["--complete", OPTION]):
            answer = run(["check", *options], text)
            report.check(f"{name}: check {' '.join(options)}", answer == complete, repr(answer))


def refusals(report, folder):
    """What is refused in the whole for another reason than its ids is refused so per stop."""
    for name, reason in REFUSED_RECORDINGS.items():
        text, line = read("captures", name), f"dapnorm: {reason}\n".encode()
        before = int(reason.split()[1].rstrip(":")) - 1
        answer = run(["normalise", OPTION], text)
        report.check(f"{name} is refused", answer == (2, leading(text, before, per_stop=True), line), repr((answer[0], answer[2])))
        report.check(f"{name} is refused by check", run(["check", OPTION], text) == (2, b"", line))
        answer = compare(folder, "compare", text, text, OPTION)
        report.check(f"{name} is refused by compare", answer == (2, b"", b"dapnorm: A: " + line[9:]), repr(answer))


def sorted_lines(lines):
    """The lines without their numbers, as they are to stand: by sort, and then by stop."""
    found = []
    for line in lines:
        word, _, stop = line.partition("@")
        found.append((WORDS.index(word), int(stop or 0)))
    return found == sorted(found)


def lines_of_pairs(report, folder):
    """Each capture beside itself, with names of its own: each line has its form, tells no stop that is not there, and stands in its place."""
    for name in accepted():
        text = read("captures", name)
        for other, title in ((text, "itself"), (normalised(text, per_stop=True), "its normal form"), (normalised(text), "that of the whole")):
            status, printed, errors = compare(folder, "compare", text, other, OPTION)
            lines = printed.splitlines(keepends=True)
            good = (status, lines[:1], errors) == (0, [b"same\n"], b"")
            report.check(f"{name} is the same as {title} per stop", good, repr((status, errors, lines[:1])))
            found = [LINE.fullmatch(line) for line in lines[1:]]
            report.check(f"{name} and {title}: each line has its form", all(found), repr(lines))
            words = [match[1].decode() for match in found if match]
            last = max([int(word.split("@")[1]) for word in words if "@" in word], default=0)
            report.check(f"{name} and {title}: no line tells a stop that is not there", last <= stops(text), str(last))
            report.check(f"{name} and {title}: the lines stand in their order", sorted_lines(words), repr(words))
            if other is text:
                report.check(f"{name}: each id is paired with itself", all(match and match[2] == match[3] for match in found))
        answer = compare(folder, "diff", text, normalised(text), OPTION)
        report.check(f"diff of {name} and its normal form per stop", answer == (0, b"same\n", b""), repr(answer))


def same_per_stop(report, folder, title, one, other):
    """What is the same in the whole is the same per stop; and the script tells what `compare` does."""
    whole, answer = compare(folder, "compare", one, other), compare(folder, "compare", one, other, OPTION)
    lines = compared(one, other, per_stop=True)
    wanted = (0 if lines.startswith("same") else 1, lines.encode(), b"")
    report.check(f"{title}: the script tells the same per stop", answer == wanted, repr(answer))
    report.check(f"{title}: the same in the whole is the same per stop", whole[0] != 0 or answer[0] == 0, repr((whole, answer)))
    return whole, answer


def pairs(report, folder):
    for one, other in PAIRS:
        texts = [read("captures", name) for name in (one, other)]
        whole, answer = same_per_stop(report, folder, f"{one} and {other}", *texts)
        report.check(f"{one} and {other} are the same in both modes", (whole[0], answer[0]) == (0, 0), repr((whole, answer)))
        written = [run(["normalise", OPTION], text)[1] for text in texts]
        report.check(f"{one} and {other} have one normal form per stop", written[0] == written[1])
    for mask, one, other in FRESH:
        rules = os.path.join(EXAMPLES, "rules", f"{mask}.rules")
        texts = [masked_and_named(rules, read("pairs", f"{name}.rec")) for name in (one, other)]
        whole, answer = same_per_stop(report, folder, f"{one} and {other}, masked", *texts)
        report.check(f"{one} and {other}, masked, are the same in both modes", (whole[0], answer[0]) == (0, 0), repr((whole, answer)))


def every_pair(report, folder):
    """Each capture with each: what the script tells."""
    texts = {name: read("captures", name) for name in accepted()}
    for one in texts:
        for other in texts:
            same_per_stop(report, folder, f"{one} and {other}", texts[one], texts[other])


# A variables reference that is given twice at a stop, and then again at the next one; and the same with a new number there.
SCOPES = '<{"body":{"scopes":[{"expensive":false,"name":"s","variablesReference":%d}]},"command":"scopes","request_seq":%d,"seq":%d,"success":true,"type":"response"}'
ASKED = '>{"arguments":{"frameId":%d},"command":"scopes","seq":%d,"type":"request"}'


def with_scopes(frames, references):
    """A session of two stops, with these frame ids and references at each."""
    first, second = [
        [ASKED % (frame, seq), SCOPES % (reference, seq, seq + 10)] for frame, reference, seq in zip(frames, references, (20, 30))
    ]
    return recording([
        *BEGUN, STOPPED, STACK, FRAME % (frames[0], 2, 3), *first, *SECOND_STOP, FRAME % (frames[1], 3, 5), *second,
    ])


def by_hand(report, folder):
    """Sessions that differ in the whole, and are the same per stop; and one that differs per stop too."""
    again = with_scopes((1000, 1000), (7, 7))
    for title, other in (
        ("a new frame", with_scopes((1000, 1001), (7, 7))), ("a new reference", with_scopes((1000, 1000), (7, 8))),
        ("both", with_scopes((5, 6), (6, 5))), ("numbers of before, exchanged", with_scopes((7, 1000), (1000, 7))),
    ):
        whole, answer = same_per_stop(report, folder, f"by hand, {title}", again, other)
        report.check(f"by hand, {title}: they differ in the whole", whole[0] == 1, repr(whole))
        report.check(f"by hand, {title}: they are the same per stop", answer[0] == 0, repr(answer))
        back = compare(folder, "compare", other, again, OPTION)
        report.check(f"by hand, {title}: they are the same the other way round", back[0] == 0, repr(back))
        answer = compare(folder, "diff", again, other, OPTION)
        report.check(f"by hand, {title}: diff tells nothing", answer == (0, b"same\n", b""), repr(answer))
        report.check(f"by hand, {title}: one normal form", run(["normalise", OPTION], again)[1] == run(["normalise", OPTION], other)[1])
    stale = again.replace(b'"frameId":1000},"command":"scopes","seq":30', b'"frameId":9999},"command":"scopes","seq":30')
    whole, answer = same_per_stop(report, folder, "by hand, a frame of no stack", again, stale)
    report.check("by hand, a frame of no stack differs in both modes", (whole[0], answer[0]) == (1, 1), repr((whole, answer)))
    for one, other in ((TWO_STOPS, NEW_FRAME), (NEW_FRAME, TWO_STOPS)):
        whole, answer = same_per_stop(report, folder, "by hand, a stale frame", recording(one), recording(other))
        report.check("by hand, a stale frame: the two modes tell apart", (whole, answer[0]) == ((1, b"differ 8\n", b""), 0), repr((whole, answer)))


def fresh_reference(report, folder):
    """A real adapter that gave a number of before in one run, and a new one in the other: the whole differs there."""
    rules = os.path.join(EXAMPLES, "rules", "debugpy.rules")
    one, other = [masked_and_named(rules, text) for text in (read("captures", "debugpy-l-stopentry.1.rec"), read("pairs", "debugpy-l-stopentry.3.rec"))]
    whole, answer = same_per_stop(report, folder, "two runs of debugpy", one, other)
    report.check("two runs of debugpy differ in the whole", whole[0] == 1, repr(whole))
    report.check("two runs of debugpy are the same per stop", answer[0] == 0, repr(answer))


def example(report):
    """The picture of the document: a session, and its normal form."""
    with open(os.path.join(TOP, "docs", "NORMAL-FORM.md"), encoding="utf-8") as file:
        text = file.read()
    before, after = (re.search(rf"<!-- per stop: {word} -->\n((?: {{4}}.*\n)+)", text)[1] for word in ("before", "after"))
    given = recording(NEW_FRAME)
    status, normal, errors = run(["normalise", OPTION], given)
    report.check("the document's session is normalised", (status, errors) == (0, b""), repr(errors))
    for name, picture, shown in (("before", before, given), ("after", after, normal)):
        lines = run(["show"], shown)[1].decode()
        report.check(f"the document shows what is printed {name}", re.sub("^ {4}", "", picture, flags=re.MULTILINE) in lines, repr(lines))
    last = run(["show"], run(["normalise"], given)[1])[1].splitlines()[-1]
    report.check("its last frame is 2 in the whole", last == b'  frame 2 3:1 "f"', repr(last))


def words(report):
    """The option stands where it may, and nowhere else."""
    for command in ("normalise", "check"):
        report.check(f"{command} takes the option", run([command, OPTION])[0] == 0)
        answer = run([command, OPTION, OPTION])
        report.check(f"{command} takes it once", answer[:2] == (3, b"") and answer[2].startswith(b"error: "), repr(answer))
    for command in ("compare", "diff"):
        for options in ([OPTION, os.devnull, os.devnull], [os.devnull, OPTION, os.devnull], [os.devnull, os.devnull, OPTION]):
            answer = run([command, *options])
            report.check(f"{command} {' '.join(options)}", answer == (0, b"same\n", b""), repr(answer))
    for command in (["record"], ["show"], ["compact"], ["rows"], ["mask", os.devnull], ["name", os.devnull]):
        answer = run([*command, OPTION])
        report.check(f"{command[0]} has no such option", answer[:2] == (3, b"") and answer[2].startswith(b"error: "), repr(answer))


def main():
    report = Report()
    if not report.check("the gate has built the program", os.access(PROGRAM, os.X_OK)):
        return report.close()
    report.check("each accepted recording is there", len(accepted()) == 12, str(len(accepted())))
    normal_forms(report)
    checks(report)
    with tempfile.TemporaryDirectory() as folder:
        refusals(report, folder)
        lines_of_pairs(report, folder)
        pairs(report, folder)
        every_pair(report, folder)
        by_hand(report, folder)
        fresh_reference(report, folder)
    example(report)
    words(report)
    return report.close()


if __name__ == "__main__":
    sys.exit(main())
