"""Members that only one recording of a pair has: `suggest` sets up to four of an object, if they are strings, integers or booleans, and
otherwise blanks the object."""
import json
import sys

from tests.program.golden import Folder
from tests.program.suggest import hidden_values, makes_same, message
from tests.program.worked_runs import BEGUN, recording
from tests.report import Report

PLACE = "event    process body.x"


def sent(*bodies, event="process"):
    return recording([*BEGUN, *(message("<", "event", event, seq, body) for seq, body in enumerate(bodies, 2))])


def objects(*values):
    return sent(*({"x": value} for value in values))


def text(value):
    return json.dumps(value, separators=(",", ":"), ensure_ascii=False)


def fill(name, value, a=None, number=3, hidden=0, check="", place=PLACE):
    """The rule that sets a member, with its comments. Only A has the value, or only B."""
    shown = [text(value) if is_there else "no such member" for is_there in (a is not None, a is None)]
    lines = "".join(f"# {side} record {number}: {it}\n" for side, it in zip("AB", shown))
    lines += f"# also hides {'1 value that is' if hidden == 1 else f'{hidden} values that are'} equal\n" if hidden else ""
    return f"{lines}{f'# CHECK: hides {check}' + chr(10) if check else ''}fill   {place}.{name} {text(value if a is None else a)}\n\n"


def changed(verb, a, b, place, number=3, hidden=""):
    return f"# A record {number}: {text(a)}\n# B record {number}: {text(b)}\n{hidden}{verb:6} {place}\n\n"


def check(report, name, a, b, wanted, *options, same="same"):
    with Folder(a=a, b=b) as folder:
        answer = folder.run("suggest", *options, "a", "b")
        report.check(f"fills: {name}", answer == (0, f"{wanted}# with these rules: {same}\n".encode(), b""), repr(answer))
        report.check(f"fills: {name}: they make it the same", makes_same(folder, answer[1], "a", "b"))
        wrong = [it for it in hidden_values(folder, answer[1]) if it[1] != it[2]]
        report.check(f"fills: {name}: the comments", wrong == [], repr(wrong))


def members(report):
    for value in ("y", "", 'a "b" \u00fc', 7, -1, True, False):
        a, b = objects({}), objects({"k": value})
        check(report, f"{value!r} in B", a, b, fill("k", value))
        check(report, f"{value!r} in A", b, a, fill("k", value, a=value))
    check(report, "four members", objects({"a": 1}), objects({"b": "", "c": True, "d": 2}), "".join([
        fill("a", 1, a=1), fill("b", ""), fill("c", True), fill("d", 2)]))
    check(report, "in the elements of a list", objects([{}, {"k": 1}]), objects([{"k": 1}, {"k": 1}]), fill("k", 1, place=f"{PLACE}[]"))
    check(report, "in the second pair", objects({"k": 1}, {}), objects({"k": 1}, {"k": 1}), fill("k", 1, number=4))
    check(report, "null in both elsewhere", objects({}, {"k": None}, {"k": None}), objects({"k": 1}, {"k": None}, {"k": None}), fill("k", 1, hidden=2))


def several_values(report):
    one = "# also hides 1 value that is equal\n"
    two = objects({}, {}), objects({"k": "v2"}, {"k": "v1"})
    check(report, "the least value", *two, fill("k", "v2").replace('k "v2"', 'k "v1"') + changed("digits", "v1", "v2", f"{PLACE}.k", hidden=one))
    pair = objects({}, {"k": 5}), objects({"k": 4}, {"k": 6})
    check(report, "a value that differs elsewhere", *pair, fill("k", 4) + changed("blank", 5, 6, f"{PLACE}.k", 4, one))


def not_set(report):
    """Objects with members that no rule sets are blanked."""
    for name, a, b in (
        ("an object", {}, {"k": {}}), ("a list", {"k": []}, {}), ("null", {}, {"k": None}), ("an object beside a text", {}, {"j": "", "k": {}}),
        ("five members", {"a": 1, "b": 1}, {"c": 1, "d": 1, "e": 1}),
    ):
        check(report, name, objects(a), objects(b), changed("blank", a, b, PLACE))


def what_a_test_looks_at(report):
    place, body = "event    stopped body", {"reason": "pause", "threadId": 1}
    a, b = sent(body, event="stopped"), sent({**body, "allThreadsStopped": True}, event="stopped")
    check(report, "a guarded member", a, b, fill("allThreadsStopped", True, check="whether all threads stopped", place=place), same="same (1 rule to check)")
    with Folder(a=a, b=b) as folder:
        answer = folder.run("suggest", "--strict", "a", "b")
        line = b'no rules can: record 3 of A, event "stopped", differs where no rule may change it from B\n'
        report.check("fills: a guarded member, strict", answer == (1, b"", line), repr(answer))
    with Folder(a=sent({"reason": "pause"}, event="stopped"), b=a) as folder:
        answer = folder.run("suggest", "a", "b")
        report.check("fills: an id is not set", answer[:2] == (1, b"") and answer[2].startswith(b"no rules can: "), repr(answer))


def main():
    report = Report()
    members(report)
    several_values(report)
    not_set(report)
    what_a_test_looks_at(report)
    return report.close()


if __name__ == "__main__":
    sys.exit(main())
