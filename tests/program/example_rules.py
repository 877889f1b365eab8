"""Reads each rules file of the examples, and compares pairs of fresh runs of real adapters by them: runs that differ in order alone are the
same, and a message in a place that no rule allows stays a difference."""
import os
import sys
import tempfile

from tests.program.masks import PAIRS, read
from tests.program.order_reference import messages, name_of, recorded
from tests.report import PROGRAM, TOP, Report, run

sys.path.insert(0, os.path.join(TOP, "scripts"))
from normalise_reference import fill

EXAMPLES = os.path.join(TOP, "examples")
RULES = os.path.join(EXAMPLES, "rules")

# The rules, and two runs of one session that differ, after `mask` and `name`, in the order of their messages alone.
ORDERS = [
    ("delve", "pairs/dlv-j-restart.1", "pairs/dlv-j-restart.2"),
    ("lldb", "pairs/lldb14-g-hangup.1", "pairs/lldb14-g-hangup.2"),
    ("lldb", "pairs/lldb16-l-stopentry.3", "pairs/lldb16-l-stopentry.4"),
    ("lldb", "pairs/lldb19-l-stopentry.1", "pairs/lldb19-l-stopentry.2"),
    ("rdbg", "pairs/rdbg-f-edit.1", "pairs/rdbg-f-edit.2"),
    ("rdbg", "pairs/rdbg-g-hangup.1", "pairs/rdbg-g-hangup.2"),
]

# The rules, a run, a message by its kind and name, and the message of that session before which an adapter with a bug would send it.
BUGS = [
    ("lldb", "pairs/lldb16-l-stopentry.3", ("event", "stopped"), ("request", "configurationDone")),
    ("lldb", "pairs/lldb16-l-stopentry.3", ("event", "stopped"), ("request", "next")),
    ("lldb", "pairs/lldb16-l-stopentry.3", ("response", "next"), ("request", "next")),
    ("lldb", "pairs/lldb19-l-stopentry.2", ("event", "initialized"), ("response", "initialize")),
    ("lldb", "pairs/lldb14-g-hangup.1", ("event", "exited"), ("response", "scopes")),
    ("delve", "pairs/dlv-j-restart.1", ("event", "initialized"), ("response", "initialize")),
    ("rdbg", "pairs/rdbg-f-edit.1", ("event", "stopped"), ("request", "configurationDone")),
]


def path(rules):
    return os.path.join(RULES, f"{rules}.rules")


def written(folder, name, text):
    there = os.path.join(folder, name)
    with open(there, "wb") as file:
        file.write(text)
    return there


def compared(folder, rules, a, b, command="compare"):
    return run([command, "--rules", path(rules), written(folder, "a", a), written(folder, "b", b)])


def files(report, _folder):
    """Each file is read by each command that has it as an argument, and a comment says why it has the rules after it."""
    names = sorted(os.listdir(RULES))
    report.check("there are rules for five adapters", names == [f"{it}.rules" for it in ("debugpy", "delve", "lldb", "perl", "rdbg")], repr(names))
    for name in [*(os.path.join(RULES, it) for it in names), os.path.join(EXAMPLES, "session.rules")]:
        for command in ("mask", "order", "name"):
            answer = run([command, name])
            report.check(f"{command} reads {os.path.basename(name)}", answer == (0, b"", b""), repr(answer))
        with open(name, encoding="utf-8") as file:
            blocks = file.read().split("\n\n")
        report.check(f"each rule of {os.path.basename(name)} has a reason", all(block.startswith("#") for block in blocks))


def pairs(report, folder):
    """`compare --rules` masks too."""
    for rules, first, second, _, left in PAIRS:
        answer = compared(folder, rules, read(f"{first}.rec"), read(f"{second}.rec"))
        report.check(f"{first} and {second} by rules", answer[1].split()[:1] == [left.encode()], repr(answer))


def one_after_another(rules, recording):
    """The texts of `mask`, of `order` after it, of `name` after both, and of `normalise` after all."""
    texts = []
    for words in (["mask", path(rules)], ["order", path(rules)], ["name", path(rules)], ["normalise"]):
        recording = run(words, recording)[1]
        texts.append(recording)
    return texts


def contents(recording):
    """The messages of a recording as records, with the capabilities that an adapter leaves out."""
    found = messages(recording)
    for side, message in found:
        fill(side, message)
    return [recorded([each]) for each in found]


def orders(report, folder):
    for rules, first, second in ORDERS:
        title, (a, b) = f"{first} and {second}", [read(f"{name}.rec") for name in (first, second)]
        (masked, in_order, _, normal), (other_masked, _, _, other_normal) = (one_after_another(rules, text) for text in (a, b))
        texts = [run(["name", path(rules)], text)[1] for text in (masked, other_masked)]
        report.check(f"{title} differ after mask and name", run(["compare", written(folder, "a", texts[0]), written(folder, "b", texts[1])])[0] == 1)
        report.check(f"{title} have one normal form in order", normal == other_normal != b"")
        report.check(f"{title}: order changes no record", sorted(contents(masked)) == sorted(contents(in_order)))
        answer = compared(folder, rules, a, b)
        report.check(f"{title} are the same by rules", (answer[0], answer[1][:5]) == (0, b"same\n"), repr(answer))
        answer = compared(folder, rules, a, b, "diff")
        report.check(f"{title}: diff by rules", answer == (0, b"same\n", b""), repr(answer))
        golden(report, folder, title, rules, a, b, normal)


def golden(report, folder, title, rules, a, b, normal):
    """The golden file has the normal form after `mask`, `order` and `name`."""
    there, words = os.path.join(folder, "golden"), ["--rules", path(rules), "--open"]
    answer = run(["golden", *words, "--update", there, written(folder, "a", a)])
    report.check(f"{title}: golden --update", (answer[0], answer[2]) == (0, b""), repr(answer))
    with open(there, "rb") as file:
        report.check(f"{title}: the golden file", file.read() == normal)
    answer = run(["golden", *words, there, written(folder, "b", b)])
    report.check(f"{title}: golden", answer == (0, b"same\n", b""), repr(answer))
    os.remove(there)


def stops(report, folder):
    """Two runs in which a variables reference is used again after a stop, or not: they are the same per stop."""
    a, b = written(folder, "a", read("captures/debugpy-l-stopentry.1.rec")), written(folder, "b", read("pairs/debugpy-l-stopentry.3.rec"))
    with open(path("debugpy"), "rb") as file:
        whole = written(folder, "whole.rules", file.read().replace(b"\nper-stop\n", b"\n"))
    for rules, words, status in ((path("debugpy"), [], 0), (whole, [], 1), (whole, ["--per-stop"], 0)):
        answer = run(["compare", "--rules", rules, *words, a, b])
        report.check(f"two runs of debugpy by {os.path.basename(rules)}, with {words}", answer[0] == status, repr(answer))


def place_of(found, wanted, last=False):
    places = [place for place, (_, message) in enumerate(found) if (message["type"], name_of(message)) == wanted]
    return places[-1 if last else 0]


def bugs(report, folder):
    """A message that comes too early stays a difference, or the recording is refused."""
    for rules, name, moved, before in BUGS:
        recording = read(f"{name}.rec")
        found = messages(recording)
        message = found.pop(place_of(found, moved))
        found.insert(place_of(found, before, last=True), message)
        answer = compared(folder, rules, recording, recorded(found))
        report.check(f"{name} with {moved} before {before}", answer[0] in (1, 2) and b"same" not in answer[1], repr(answer))


def main():
    report = Report()
    if report.check("the gate has built the program", os.access(PROGRAM, os.X_OK)):
        with tempfile.TemporaryDirectory() as folder:
            for test in (files, pairs, orders, stops, bugs):
                test(report, folder)
    return report.close()


if __name__ == "__main__":
    sys.exit(main())
