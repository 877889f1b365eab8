"""Takes pairs of recordings through `suggest`: what it prints makes each pair the same, or its message names the record that prevents them. The pairs are runs of real adapters, and sessions of a toy adapter that are made here."""
import glob
import itertools
import json
import os
import re
import sys

from tests.program.golden import Folder
from tests.program.matching import Id, counterparts, marked
from tests.report import TOP, Report
from tests.program.worked_runs import BEGUN, COMPARED, INITIALIZE, record, recording, refusal

FOLDERS = [os.path.join(TOP, "examples", name) for name in ("captures", "pairs")]
SAME, PER_STOP = b"# with these rules: same", b"# with these rules and per-stop: same"
PLACE = (
    r'record \d+ of [AB], (request|response|event) ".*", (has no counterpart in|differs where no rule may change it from|'
    r"comes in an order that no rule allows in) [AB]"
)
NO_RULES = re.compile(
    rf"no rules can: ({PLACE}|\d+ places remain(\n  {PLACE})+(\n  and \d+ more)?|[AB]: after the rules: record \d+: .*|"
    r"after the rules, record \d+ still differs)\n"
)


def makes_same(folder, printed, a, b, given=b""):
    """Whether the printed rules, after those that were given, make the two recordings of a folder the same."""
    lines = (given + printed).splitlines()
    has_line = b"per-stop" in (line.partition(b"#")[0].strip() for line in lines)
    checks = sum(before.startswith(b"# CHECK: ") and not line.startswith(b"# CHECK: ") for before, line in zip(lines, lines[1:]))
    count = b"" if checks == 0 else b" (1 rule to check)" if checks == 1 else b" (%d rules to check)" % checks
    if lines[-1:] != [(PER_STOP if has_line else SAME) + count]:
        return False
    folder.write("suggested", given + printed)
    status, output, errors = folder.run("compare", "--rules", "suggested", a, b)
    return (status, output.splitlines()[:1], errors) == (0, [b"same"], b"")


def pairs_in(*folders):
    """Each pair of runs of one session."""
    runs = {}
    for path in sorted((path for folder in folders for path in glob.glob(os.path.join(folder, "*.rec"))), key=os.path.basename):
        runs.setdefault(os.path.basename(path).rsplit(".", 2)[0], []).append(path)
    for name, paths in sorted(runs.items()):
        for a, b in itertools.combinations(paths, 2):
            yield f"{name} {a.rsplit('.', 2)[1]} and {b.rsplit('.', 2)[1]}", a, b


def read(path):
    with open(path, "rb") as file:
        return file.read()


# ---- the values that rules hide, counted here once more

STEP = re.compile(r'\["(?:[^"\\]|\\.)*"\]|\[\]|"(?:[^"\\]|\\.)*"|[^.\[\s"]+')
RULE = re.compile(r'(blank|digits|hex|long|uuid) +(request|response|event) +("(?:[^"\\]|\\.)*"|\S+) (.*?)(?:  as ([a-z-]+))?')
OMIT = re.compile(r'omit +(request|response|event) +("(?:[^"\\]|\\.)*"|\S+) (.*)\[("(?:[^"\\]|\\.)*")\]')
COUNT = re.compile(r"# also hides (?:(1) value that is|(\d+) values that are) equal(; keeps which ids are equal)?")


def steps_of(place):
    """The steps of a place without the names of elements."""
    return tuple("[]" if step[0] == "[" else json.loads(step) if step[0] == '"' else step for step in STEP.findall(place))


def count_in(lines):
    return next((int(found[1] or found[2]) for found in map(COUNT.fullmatch, lines) if found), 0)


def named(word):
    return json.loads(word) if word[0] == '"' else word


def read_omissions(printed):
    """For each rule that omits elements the messages and the place of their lists, their name, and the number in its comment."""
    for block in printed.decode().split("\n\n"):
        lines = block.splitlines()
        for rule in filter(None, map(OMIT.fullmatch, lines)):
            yield (rule[1], named(rule[2]), steps_of(rule[3])), json.loads(rule[4]), count_in(lines)


def read_rules(printed):
    """The rules of each block for values without labels, the messages and the place without names, and the number in its comment."""
    for block in printed.decode().split("\n\n"):
        lines = block.splitlines()
        rules = [RULE.fullmatch(line) for line in lines]
        rules = [rule for rule in rules if rule]
        if rules:
            plain = "".join(" ".join(rule.groups()[:4]) + "\n" for rule in rules)
            yield plain, (rules[0][2], named(rules[0][3]), steps_of(rules[0][4])), count_in(lines)


def wrong_comments(printed):
    """The blocks whose comment does not say truly whether all of their rules have labels."""
    for block in printed.decode().split("\n\n"):
        lines = block.splitlines()
        said = [found for found in map(COUNT.fullmatch, lines) if found]
        labels = [rule[5] for rule in map(RULE.fullmatch, lines) if rule]
        if said and (said[0][3] is not None) != (labels != [] and all(labels)):
            yield block


def plain(value):
    """A value whose ids are all equal."""
    if isinstance(value, Id):
        return "an id"
    if isinstance(value, dict):
        return {name: plain(member) for name, member in value.items()}
    return [plain(item) for item in value] if isinstance(value, list) else value


def sort_of(value):
    return int if isinstance(value, int) and not isinstance(value, bool) else type(value)


def is_mended_inside(a, b):
    """Whether rules for parts of two values can make them equal."""
    if isinstance(a, dict) and isinstance(b, dict):
        return a.keys() == b.keys() and all(sort_of(a[name]) == sort_of(b[name]) for name in a)
    if isinstance(a, list) and isinstance(b, list):
        return len(a) == len(b) and all(
            is_mended_inside(x, y) or sort_of(x) == sort_of(y) and not isinstance(x, (dict, list)) for x, y in zip(a, b))
    return a == b


def is_called(item, name):
    return isinstance(item, dict) and item.get("name") == name


def without(one, other, names):
    """The indices of the pairs of elements of two lists without those of these names, or of all elements if other numbers of them are left.

    Each list is before and after the rules for names."""
    left = [[place for place, item in enumerate(after) if not any(is_called(item, name) for name in names)] for _, after in (one, other)]
    return zip(*left) if len(left[0]) == len(left[1]) else zip(range(len(one[0])), range(len(other[0])))


def reached(one, other, steps, lost, before=(), path=()):
    """The pairs of values of two messages at a place, each with the path of the first one. Each value is before and after the rules for names.

    `lost` has the names of the elements that are omitted from the lists at a place."""
    if not steps:
        yield path, one, other
    elif before in lost or is_mended_inside(one[0], other[0]):
        inside = (*before, steps[0])
        if steps[0] == "[]" and isinstance(one[0], list):
            for place, twin in without(one, other, lost.get(before, ())):
                yield from reached([it[place] for it in one], [it[twin] for it in other], steps[1:], lost, inside, (*path, place))
        elif isinstance(one[0], dict) and steps[0] in one[0]:
            yield from reached([it[steps[0]] for it in one], [it[steps[0]] for it in other], steps[1:], lost, inside, (*path, steps[0]))


def at(value, path):
    for step in path:
        value = value[step]
    return value


def is_name(steps):
    return steps[-2:] == ("[]", "name")


def is_for(message, kind, name):
    return message["type"] == kind and message["event" if kind == "event" else "command"] == name


def lost_names(printed):
    """The names of the elements that are omitted, by their messages and then by the places of their lists."""
    lost = {}
    for (kind, name, steps), element, _ in read_omissions(printed):
        lost.setdefault((kind, name), {}).setdefault(steps, []).append(element)
    return lost


def hidden_values(folder, printed):
    """For each rule for values the rule, the number of equal values in its comment, and the number of those that it changes. For each rule that omits
    elements, the number of those that both lists have. Rules for names in lists from which elements are omitted are left out."""
    lines = printed.decode().splitlines(keepends=True)
    folder.write("drops", "".join(line for line in lines if line.startswith(("drop ", "fill "))).encode())
    for given, dropped in (("a", "base"), ("b", "other")):
        folder.write(dropped, folder.run("mask", "drops", given)[1])
    marks = [marked(folder.read(dropped), False) for dropped in ("base", "other")]
    bases = [[plain(message) for _, message in messages] for messages in marks]
    names = "".join(rules for rules, (_, _, steps), _ in read_rules(printed) if is_name(steps))
    lost = lost_names(printed)

    def masked(rules, text="base"):
        folder.write("block", rules.encode())
        return [plain(message) for _, message in marked(folder.run("mask", "block", text)[1], False)]

    after = masked(names), masked(names, "other")
    pairs = [[(bases[side][it], after[side][it]) for side, it in enumerate(pair)] + [pair[0]] for pair in counterparts(*marks)]

    def pairs_at(kind, name, steps):
        for one, other, index in pairs:
            if is_for(one[0], kind, name):
                for path, value, twin in reached(one, other, steps, lost.get((kind, name), {})):
                    yield index, path, value, twin

    for place, element, count in read_omissions(printed):
        lists = ([items if isinstance(items, list) else [] for _, items in pair] for _, _, *pair in pairs_at(*place))
        yield element, count, sum(min(sum(is_called(it, element) for it in items) for items in pair) for pair in lists)
    hidden = {}
    for rules, place, count in read_rules(printed):
        kind, name, steps = place
        if is_name(steps) and any(steps[:end] in lost.get((kind, name), {}) for end in range(len(steps))):
            continue
        first = "" if is_name(steps) else names
        before, later = masked(first), masked(first + rules)
        equal = {(index, path) for index, path, value, twin in pairs_at(*place) if value[0] == twin[0]}
        changed = {(index, path) for index, path in equal if at(before[index], path) != at(later[index], path)}
        yield rules, count, len(changed - hidden.setdefault(place, set()))
        hidden[place] |= changed


def real_pairs(report, folders):
    """The printed file makes each pair the same, or a record is named. Returns how many became the same."""
    same, tried = 0, 0
    for name, a, b in pairs_in(*folders):
        tried += 1
        with Folder(a=read(a), b=read(b)) as files:
            status, printed, errors = files.run("suggest", "a", "b")
            if status == 0:
                same += report.check(f"what is suggested for {name} makes it the same", makes_same(files, printed, "a", "b"), printed.decode()[-400:])
                again = files.run("suggest", "--rules", "suggested", "a", "b")
                last = printed.splitlines()[-1].partition(b" (")[0] + b"\n"
                report.check(f"nothing is added to what was suggested for {name}", again == (0, last, b""), repr(again))
                wrong = [it for it in hidden_values(files, printed) if it[1] != it[2]]
                report.check(f"the comments count what the rules for {name} hide", wrong == [], repr(wrong[:3]))
                wrong = list(wrong_comments(printed))
                report.check(f"the comments say what the rules for {name} keep", wrong == [], repr(wrong[:3]))
            else:
                named = status == 1 and printed == b"" and NO_RULES.fullmatch(errors.decode())
                report.check(f"{name} has rules, or a record is named", named, repr((status, printed, errors)))
    return same, tried


# ---- a toy adapter, whose values change from run to run


def message(side, kind, name, seq, body=None, **members):
    """The line of a message."""
    content = {"type": kind, ("event" if kind == "event" else "command"): name, "seq": seq, **members}
    if body is not None:
        content["arguments" if kind == "request" else "body"] = body
    return side + json.dumps(content, sort_keys=True, separators=(",", ":"))


def toy(token, folder, address, time, process, outputs=1, stopped_first=False):
    """A session of an adapter that prints a token, a path, an address, a time and a process id."""
    lines = list(BEGUN)
    seqs = {">": 1, "<": 1}

    def add(side, kind, name, body=None, **members):
        seqs[side] += 1
        lines.append(message(side, kind, name, seqs[side], body, **members))
        return seqs[side]

    def ask(name, arguments, body, between=()):
        seq = add(">", "request", name, arguments)
        answer = ("<", "response", name, body), {"request_seq": seq, "success": True}
        steps = [*between, answer] if stopped_first else [answer, *between]
        for words, members in steps:
            add(*words, **members)

    add("<", "event", "process", {"name": f"{folder}/toy.py", "systemProcessId": process, "startMethod": "launch"})
    for _ in range(outputs):
        add("<", "event", "output", {"output": f"[{time}] session {token} at {address}\n"})
    ask("next", {"threadId": 1}, None, [(("<", "event", "stopped", {"reason": "step", "threadId": 1}), {})])
    ask("stackTrace", {"threadId": 1}, {"stackFrames": [{"id": 1000, "name": "main", "line": 3, "column": 1, "source": {"path": f"{folder}/toy.py"}}]})
    ask("scopes", {"frameId": 1000}, {"scopes": [{"name": "Locals", "variablesReference": 1001, "expensive": False}]})
    variables = [
        {"name": "token", "value": token, "variablesReference": 0}, {"name": "self", "value": f"table: {address}", "variablesReference": 0},
        {"name": "x", "value": "3", "variablesReference": 0},
    ]
    ask("variables", {"variablesReference": 1001}, {"variables": variables})
    ask("evaluate", {"expression": "time()", "frameId": 1000}, {"result": time, "variablesReference": 0})
    ask("disconnect", {}, None)
    return recording(lines)


FIRST = ("0f8fad5b-d9cb-469f-a165-70867728950e", "/tmp/run-1", "0x55d0c0ffee10", "12:30:01.125", 4711)
SECOND = ("7c9e6679-7425-40de-944b-e07fc1f90ae7", "/home/me/work", "0x7f00beef0020", "12:31:59.004", 815)


def toys(report):
    """The toy adapter is stable after one `suggest`."""
    tried = {
        "other values": (toy(*FIRST), toy(*SECOND)),
        "other values and another order": (toy(*FIRST), toy(*SECOND, stopped_first=True)),
        "another number of outputs": (toy(*FIRST), toy(*SECOND, outputs=3)),
        "no difference": (toy(*FIRST), toy(*FIRST)),
    }
    for name, (a, b) in tried.items():
        with Folder(a=a, b=b) as folder:
            status, printed, errors = folder.run("suggest", "a", "b")
            report.check(f"{name}: rules are found", (status, errors) == (0, b""), repr((status, errors)))
            report.check(f"{name}: they make it the same", makes_same(folder, printed, "a", "b"), printed.decode())


def worked(report):
    """The least of the actions that is enough at a place is suggested, and its comment shows the first two values."""
    def started(pid, text, number=7):
        return recording([*BEGUN, message("<", "event", "process", 2, {"name": text, "systemProcessId": pid, "x": [{"y": number}]})])

    def asked(a, b, *options, **files):
        with Folder(a=a, b=b, **files) as folder:
            return folder.run("suggest", *options, "a", "b")

    head = "# A record 3: %s\n# B record 3: %s\n%s event    process body.%s\n\n"
    same = "# with these rules: same\n"
    for name, a, b, verbs in (
        ("an address", "at 0x1f", "at 0x2e", ["hex address"]), ("a number", "run 17", "run 4", ["digits number"]), ("a word", "red", "blue", ["blank"]),
        ("a shortened address", "at 7f3a1c", "at 9b00d4e", ["long address"]), ("a UUID", f"at {FIRST[0]}", f"at {SECOND[0]}", ["uuid uuid"]),
        ("a digit and an address", "1 0xa", "2 0xb", ["digits number", "hex address"]),
        ("a UUID and an address", f"{FIRST[0]} 0xa", f"{SECOND[0]} 0xb", ["uuid uuid", "hex address"]),
        ("a shortened address and an address", "7f3a1c 0xa", "9b00d4e 0xb", ["long address", "hex address"]),
        ("a shortened address and a digit", "7f3a1c 1", "9b00d4e 2", ["long address", "digits number"]),
    ):
        lines = (it.partition(" ") for it in verbs)
        rules = "".join(f"{verb:6} event    process body.name{'  as ' if label else ''}{label}\n" for verb, _, label in lines)
        wanted = f"# A record 3: {json.dumps(a)}\n# B record 3: {json.dumps(b)}\n{rules}\n"
        answer = asked(started(1, a), started(1, b))
        report.check(f"{name} is masked by the least action", answer == (0, (wanted + same).encode(), b""), repr(answer))
    answer = asked(started(1, "x" * 300 + "1"), started(1, "x" * 300 + "2" * 200))
    wanted = (head % (f'...{"x" * 16}1"', f'...{"x" * 16}{"2" * 104}...', "digits", "name  as number") + same).encode()
    report.check("of long values the part that differs is shown", answer == (0, wanted, b""), repr(answer))
    answer = asked(started(1, "a"), started(2, "a"))
    report.check("a process id is blanked", answer == (0, (head % (1, 2, "blank ", "systemProcessId  as process") + same).encode(), b""), repr(answer))
    answer = asked(started(1, "a", 1), started(1, "a", 2))
    report.check("an element of a list", answer == (0, (head % (1, 2, "blank ", "x[].y") + same).encode(), b""), repr(answer))
    answer = asked(started(1, "a", 1), started(1, "a", "b"))
    wanted = (head % ('[{"y":1}]', '[{"y":"b"}]', "blank ", "x") + same).encode()
    report.check("values of two sorts: the list around their object", answer == (0, wanted, b""), repr(answer))
    answer = asked(started(1, "a", 0.5), started(1, "a", 1.25))
    wanted = ("# A record 3: 0.5\nblank  event    process body.x[].y\n\n" + same).encode()
    report.check("a number that is not an integer is blanked", answer == (0, wanted, b""), repr(answer))
    answer = asked(started(1, "red"), started(1, "blue"), "--rules", "given", given=b"blank event process body.name")
    report.check("what was given is not suggested again", answer == (0, b"\n" + same.encode(), b""), repr(answer))
    answer = asked(started(1, "1 0xa"), started(1, "2 0xb"), "--rules", "given", given=b"hex event process body.name\n")
    wanted = (head % ('"1 0x0"', '"2 0x0"', "digits", "name  as number") + same).encode()
    report.check("an action that comes before a given one", answer == (0, wanted, b""), repr(answer))
    answer = asked(started(1, "run 1"), started(1, "run 22"), "--rules", "given", given=b"uuid event process body.name\n")
    wanted = (head % ('"run 1"', '"run 22"', "blank ", "name") + same).encode()
    report.check("what the given rules contradict is not suggested", answer == (0, wanted, b""), repr(answer))
    answer = asked(started(1, "a"), started(1, "a"))
    report.check("two equal recordings need no rule", answer == (0, same.encode(), b""), repr(answer))
    answer = asked(b"", b"")
    report.check("two empty recordings need no rule", answer == (0, same.encode(), b""), repr(answer))


def stops(report):
    """The file has the line `per-stop` if the recordings are the same only by it. It is not added to rules that have it."""
    a, b = COMPARED["a stale frame"][:2]
    added, end = b"# without this line the ids differ\nper-stop\n\n" + PER_STOP + b"\n", PER_STOP + b"\n"
    for name, other, given, wanted in (
        ("ids that are used again", b, b"", added), ("ids that are used again, after rules", b, b"blank event x body", b"\n" + added),
        ("ids that are used again, with the line", b, b"per-stop\n", end), ("equal recordings, with the line", a, b"per-stop # all\n", end),
    ):
        with Folder(a=a, b=other, given=given) as folder:
            answer = folder.run("suggest", "--rules", "given", "a", "b")
            report.check(f"{name}: what is suggested", answer == (0, wanted, b""), repr(answer))
            report.check(f"{name}: it makes them the same", makes_same(folder, answer[1], "a", "b", given))
    with Folder(a=a, b=recording([*BEGUN, message(">", "request", "threads", 2)]), given=b"per-stop\n") as folder:
        answer = folder.run("suggest", "--rules", "given", "a", "b")
        report.check("no rules with the line", answer[0] == 1 and answer[2].startswith(b"no rules can: 7 places remain\n"), repr(answer))


def categories(report):
    """Events in different numbers are dropped by their categories, if these explain the difference; otherwise by their name."""
    def said(*events):
        return recording([*BEGUN, *(message("<", "event", name, seq, body) for seq, (name, body) in enumerate(events, 2))])

    def check(name, a, b, *rules, given=b""):
        with Folder(a=said(*a), b=said(*b), given=given) as folder:
            answer = folder.run("suggest", "--rules", "given", "a", "b")
        wanted = "".join(f"# {one} in A, {other} in B{''.join(order)}\ndrop   event    {rule}\n\n" for one, other, rule, *order in rules)
        report.check(name, answer == (0, (wanted + "# with these rules: same\n").encode(), b""), repr(answer))

    def output(category, text="x"):
        return "output", {"category": category, "output": text} if category is not None else {"output": text}

    printed, error, sent, plain = output("stdout"), output("stderr"), output("telemetry"), output(None)
    check("telemetry goes, and the output of the program stays", [printed, sent], [sent, printed, sent], (1, 2, "output category=telemetry"))
    check("telemetry of one recording", [printed, plain], [sent, printed, plain, sent, sent], (0, 3, "output category=telemetry"))
    check(
        "two categories", [printed, sent, error, printed], [sent, sent, printed],
        (1, 0, "output category=stderr"), (2, 1, "output category=stdout"), (1, 2, "output category=telemetry"),
    )
    check("a category in quotes", [], [output('my "log"'), output("")], (0, 1, 'output category=""'), (0, 1, 'output category="my \\"log\\""'))
    check("events without a category", [printed, plain], [printed, plain, plain], (2, 3, "output"))
    check("a category that is no text", [("x", {"category": 7})], [("x", {"category": 7})] * 2, (1, 2, "x"))
    check("events of a category, and others", [plain], [sent, plain, plain], (1, 3, "output"))
    check("the others in another order", [printed, error], [error, printed, sent], (2, 3, "output"))
    number, text = (("output", {"category": "stdout", "output": "x", "data": data}) for data in (1, "1"))
    check("others that no rule makes equal", [number], [text, sent], (1, 2, "output"))
    check("a category that a given rule changes", [], [sent], (0, 1, "output"), given=b"hex event output body.category\n")
    check("another event", [("x", {"category": "a"})], [("x", {"category": "a"}), ("x", {"category": "b"})], (0, 1, "x category=b"))
    check("equal numbers", [sent, printed], [sent, printed])
    stopped = ("stopped", {"reason": "pause"})
    x, y, z = (("module", {"reason": "new", "module": {"name": name}}) for name in "xyz")
    check("events in another order", [x, y, z, printed], [z, x, y, printed], (3, 3, "module", ", in another order"))
    check("events that are the same but for their ids in another order", *(
        [("breakpoint", {"reason": "changed", "breakpoint": {"id": number, "verified": True, "line": line}}) for number, line in it]
        for it in (((1, 5), (2, 9)), ((1, 9), (2, 5)))
    ), (2, 2, "breakpoint", ", in another order"))
    check("events in one order with other ids", *(
        [("thread", {"reason": "started", "threadId": it}) for it in threads] for threads in ((1, 2), (2, 1))
    ))

    def piece(text, **members):
        return "output", {"category": "stdout", "output": text, **members}

    pieces, others = "# in B output comes in other pieces\n", "# also hides other members of these events\n"
    for name, a, b, wanted in (
        (
            "two pieces are joined", [piece("ab"), stopped], [piece("a"), ("thread", {"reason": "started", "threadId": 1}), piece("b"), stopped],
            f"{pieces}join   event output per-stop\n\n# 0 in A, 1 in B\ndrop   event    thread\n\n",
        ),
        (
            "pieces of two categories are joined", [piece("ab"), output("stderr")], [piece("a"), output("stderr"), piece("b")],
            f"{pieces}join   event output per-stop\n\n",
        ),
        ("a piece after a stop is joined", [output(None, "a"), stopped, output(None, "b")], [stopped, output("console", "ab")], f"{pieces}join   event output\n\n"),
        (
            "pieces with other members are joined", [piece("ab", line=1), stopped], [piece("a", line=1), piece("b", line=2), stopped],
            f"{pieces}{others}join   event output per-stop\n\n",
        ),
        (
            "pieces with other members in A alone are joined", [piece("ab", source={"name": "a"})], [piece("a"), piece("b")],
            f"{pieces}{others}join   event output per-stop\n\n",
        ),
        (
            "pieces without children are joined", [piece("ab", variablesReference=0)], [piece("a"), piece("b", variablesReference=0)],
            f"{pieces}join   event output per-stop\n\n",
        ),
        (
            "another member of equal pieces is blanked", [piece("ab", line=1), piece("c", line=3)], [piece("ab", line=2), piece("c", line=3)],
            "# A record 3: 1\n# B record 3: 2\n# also hides 1 value that is equal\nblank  event    output body.line\n\n",
        ),
        (
            "the text of an event with children is blanked", [piece("a", variablesReference=5)], [piece("b", variablesReference=5)],
            '# A record 3: "a"\n# B record 3: "b"\nblank  event    output body.output\n\n',
        ),
        (
            "another text is blanked", [piece("ab"), piece("c")], [piece("ab"), piece("d")],
            '# A record 4: "c"\n# B record 4: "d"\n# also hides 1 value that is equal\nblank  event    output body.output\n\n',
        ),
    ):
        with Folder(a=said(*a), b=said(*b)) as folder:
            answer = folder.run("suggest", "a", "b")
        report.check(name, answer == (0, f"{wanted}# with these rules: same\n".encode(), b""), repr(answer))
    with Folder(a=said(), b=said(("continued", {"threadId": 1, "category": "a"}))) as folder:
        answer = folder.run("suggest", "a", "b")
    line = b'no rules can: record 3 of B, event "continued", has no counterpart in A\n'
    report.check("an event that a session needs is not dropped by its category", answer == (1, b"", line), repr(answer))


def elements(report):
    """Elements with up to 16 names have rules of their own, if these hide less."""
    def listed(*values):
        items = [{"name": name, "y": value} for name, value in values]
        return recording([*BEGUN, message("<", "event", "process", 2, {"x": items})])

    def check(name, a, b, *rules, given=b""):
        with Folder(a=listed(*a), b=listed(*b), given=given) as folder:
            answer = folder.run("suggest", "--rules", "given", "a", "b")
        wanted = "".join(f"# A record 3: {json.dumps(one)}\n# B record 3: {json.dumps(other)}\n{rule}\n\n" for one, other, rule in rules)
        report.check(name, answer == (0, (wanted + "# with these rules: same\n").encode(), b""), repr(answer))

    place = " event    process body.x"
    kept = ("kept", "3")
    check("one element", [("at", 1), kept], [("at", 2), kept], (1, 2, f'blank {place}["at"].y'))
    check("a name in quotes", [('a "b" \u00fc', 1), kept], [('a "b" \u00fc', 2), kept], (1, 2, f'blank {place}["a \\"b\\" \u00fc"].y'))
    check(
        "two elements, each with its least action", [("n", "run 1"), ("a", "red")], [("n", "run 22"), ("a", "blue")],
        ("run 1", "run 22", f'digits{place}["n"].y  as number'), ("red", "blue", f'blank {place}["a"].y'),
    )
    check(
        "digits for each name", [("n", "run 1"), ("a", "4"), kept], [("n", "run 22"), ("a", "5"), kept],
        ("4", "5", f'digits{place}["a"].y  as number'), ("run 1", "run 22", f'digits{place}["n"].y  as number'),
    )
    check("hex for all", [("n", "0x1f"), ("a", "0x1"), kept], [("n", "0x2"), ("a", "0x2"), kept], ("0x1f", "0x2", f"hex   {place}[].y"))
    check("hex for one, if others have an address", [("n", "0x1f"), ("a", "0x1")], [("n", "0x2"), ("a", "0x1")], ("0x1f", "0x2", f'hex   {place}["n"].y  as address'))
    names = [f"n{number:02}" for number in range(17)]
    check("16 elements", [(it, 1) for it in names[:16]], [(it, 2) for it in names[:16]], *((1, 2, f'blank {place}["{it}"].y') for it in names[:16]))
    check("17 elements", [(it, 1) for it in names], [(it, 2) for it in names], (1, 2, f"blank {place}[].y  as value"))
    check("an element without one name", [("a", 1), (7, 1)], [("a", 2), (7, 2)], (1, 2, f"blank {place}[].y  as value"))
    check(
        "other names", [("a1", 1), ("b", 1)], [("a22", 2), ("b", 1)],
        ("a1", "a22", f"digits{place}[].name"), (1, 2, f'blank {place}["a0"].y'),
    )
    check(
        "another name in the list", [("a1", 1), ("b", 1)], [("a22", 1), ("b", 2)],
        ("a1", "a22", f"digits{place}[].name"), (1, 2, f'blank {place}["b"].y'),
    )
    check("names that a given rule changes", [("a", 1)], [("a", 2)], (1, 2, f'blank {place}["a"].y'), given=b"hex event * body.x[].name\n")
    check(
        "an action that a given rule excludes", [("a", "run 1")], [("a", "run 22")],
        ("run 1", "run 22", f'blank {place}["a"].y'), given=b"uuid event process body.x[].y\n",
    )
    fields = [f"f{number:03}" for number in range(130)]
    one, other = ([{"name": it, **{field: value for field in fields}} for it in names[:8]] for value in (1, 2))
    with Folder(**{it: recording([*BEGUN, message("<", "event", "process", 2, {"x": x})]) for it, x in (("a", one), ("b", other))}) as folder:
        answer = folder.run("suggest", "a", "b")
    wanted = "".join(f"# A record 3: 1\n# B record 3: 2\nblank {place}[].{field}  as value\n\n" for field in fields) + "# with these rules: same\n"
    report.check("a thousand rules for elements", answer == (0, wanted.encode(), b""), repr(answer)[-300:])


def omitted(report):
    """Elements of at most four names that two lists have in different numbers are omitted. Lists that differ otherwise are blanked."""
    place = "event    process body.x"

    def sent(*lists):
        return recording([*BEGUN, *(message("<", "event", "process", seq, {"x": items}) for seq, items in enumerate(lists, 2))])

    def called(*names):
        return [{"name": name} for name in names]

    def valued(*pairs):
        return [{"name": name, "y": value} for name, value in pairs]

    def listed(command, member, arguments, items):
        lines = [*BEGUN, message(">", "request", command, 2, arguments)]
        return recording([*lines, message("<", "response", command, 2, {member: items}, request_seq=2, success=True)])

    def omit(name, *counts, number=3, hidden=0, check="", target=place):
        shown = "".join(f"# {side} record {number}: {count or 'no'} such element{'s' * (count > 1)}\n" for side, count in zip("AB", counts))
        shown += f"# also hides {'1 value that is' if hidden == 1 else f'{hidden} values that are'} equal\n" if hidden else ""
        return shown + (f"# CHECK: hides {check}\n" if check else "") + f"omit   {target}[{json.dumps(name, ensure_ascii=False)}]\n\n"

    def blank(a, b, number=3, check="", target=place):
        shown = "".join(f"# {side} record {number}: {json.dumps(items, separators=(',', ':'))}\n" for side, items in zip("AB", (a, b)))
        return shown + (f"# CHECK: hides {check}\n" if check else "") + f"blank  {target}\n\n"

    def check(name, a, b, wanted, *options, same="same"):
        with Folder(a=a, b=b) as folder:
            answer = folder.run("suggest", *options, "a", "b")
            report.check(f"omitted: {name}", answer == (0, f"{wanted}# with these rules: {same}\n".encode(), b""), repr(answer))
            report.check(f"omitted: {name}: they make it the same", makes_same(folder, answer[1], "a", "b"))
            wrong = [*(it for it in hidden_values(folder, answer[1]) if it[1] != it[2]), *wrong_comments(answer[1])]
            report.check(f"omitted: {name}: the comments", wrong == [], repr(wrong))

    kept = ("kept", "3")
    check("one more element in B", sent(called("k")), sent(called("k", "a")), omit("a", 0, 1))
    check("one more element in A, before others", sent(called("a", "k")), sent(called("k")), omit("a", 1, 0))
    check("an empty list", sent([]), sent(called("a")), omit("a", 0, 1))
    check("a name in quotes", sent([]), sent(called('a "b" \u00fc')), omit('a "b" \u00fc', 0, 1))
    check("an empty name", sent(called("k")), sent(called("", "k")), omit("", 0, 1))
    check("four names", sent(called("k")), sent(called("d", "b", "k", "a", "c")), "".join(omit(it, 0, 1) for it in "abcd"))
    check(
        "four names of both lists", sent(called("a", "k", "b", "e")), sent(called("d", "k")),
        "".join(omit(it, 1, 0) for it in "ab") + omit("d", 0, 1) + omit("e", 1, 0),
    )
    five = called("k"), called("a", "b", "k", "c", "d", "e")
    check("five names", *map(sent, five), blank(*five))
    check(
        "one name in each pair", sent(called("k", "p"), called("k")), sent(called("k"), called("q", "k")), omit("p", 1, 0) + omit("q", 0, 1, number=4),
    )
    check("five names of five pairs", sent(*[called("k")] * 5), sent(*(called("k", it) for it in "abcde")), blank(called("k"), called("k", "a")))
    check("two elements of one name", sent(called("k")), sent(called("a", "k", "a")), omit("a", 0, 2))
    check("a name twice in A and once in B", sent(called("a", "k", "a")), sent(called("a", "k")), omit("a", 2, 1, hidden=1))
    check(
        "elements that both have in other pairs", sent(called("k"), called("a"), called("a", "a", "k")),
        sent(called("k", "a"), called("a"), called("a", "a", "k")),
        omit("a", 0, 1, hidden=3),
    )
    check(
        "names that long makes equal", sent(called("7f3a1c0", "b"), called("1234567", "b")), sent(called("9b00d4e", "b"), called("89abcd0", "b", "c")),
        omit("c", 0, 1, number=4) + f'# A record 3: "7f3a1c0"\n# B record 3: "9b00d4e"\nlong   {place}[].name\n\n',
    )
    check(
        "an address in another element", sent(valued(("at", "0x1f"), kept)), sent(valued(("c", "0x5"), ("at", "0x2e"), kept)),
        omit("c", 0, 1) + f'# A record 3: "0x1f"\n# B record 3: "0x2e"\nhex    {place}[].y  as address\n\n',
    )
    check(
        "a number in an element of another name", sent(valued(("n", "run 1"), kept)), sent(valued(("c", "run 5"), ("n", "run 22"), kept)),
        omit("c", 0, 1) + f'# A record 3: "run 1"\n# B record 3: "run 22"\ndigits {place}["n"].y  as number\n\n',
    )
    check("elements without a name beside it", sent([*called("a"), 7]), sent([*called("a", "b"), 7]), omit("b", 0, 1))
    inner = ([{"name": "o", "w": called(*names)}] for names in ("i", "ij"))
    check("a list in an element", *map(sent, inner), omit("j", 0, 1, target=f"{place}[].w"))
    for command, member, arguments, item, exists in (
        ("threads", "threads", None, lambda number: {"id": number}, "threads"),
        ("stackTrace", "stackFrames", {"threadId": 1}, lambda number: {"id": number, "line": 3, "column": 1}, "frames"),
        ("scopes", "scopes", {"frameId": 7}, lambda number: {"variablesReference": number, "expensive": False}, "scopes"),
        ("variables", "variables", {"variablesReference": 9}, lambda _: {"value": "1", "variablesReference": 0}, "variables"),
        ("setFunctionBreakpoints", "breakpoints", {"breakpoints": []}, lambda _: {"verified": True}, "breakpoints"),
    ):
        a, b = (listed(command, member, arguments, [{**item(number), "name": name} for number, name in enumerate(names, 40)]) for names in ("kx", "akx"))
        wanted = omit("a", 0, 1, number=4, check=f"which {exists} exist", target=f"response {command} body.{member}")
        check(f"one of the {member}", a, b, wanted, same="same (1 rule to check)")
        with Folder(a=a, b=b) as folder:
            answer = folder.run("suggest", "--strict", "a", "b")
            line = f'no rules can: record 4 of A, response "{command}", differs where no rule may change it from B\n'.encode()
            report.check(f"omitted: one of the {member}, strict", answer == (1, b"", line), repr(answer))
    check("one more element, strict", sent(called("k")), sent(called("k", "a")), omit("a", 0, 1), "--strict")

    for name, a, b in (
        ("no names", [1], [1, 2]), ("an element without a name", called("a"), [*called("a"), 7]),
        ("others in another order", called("a", "b"), called("b", "c", "a")),
        ("others that no rules make equal", valued(("a", 1)), valued(("a", "1"), ("b", 1))),
        # A rule for all elements would take away the name by which one is omitted.
        ("a rule for all elements", [*called("a"), 7], [*called("a", "b"), 8]),
    ):
        check(name, sent(a), sent(b), blank(a, b))
    a, b = ([{"name": name, "verified": True} for name in names] for names in ("ab", "bca"))
    check(
        "breakpoints in another order", *(listed("setFunctionBreakpoints", "breakpoints", {"breakpoints": []}, it) for it in (a, b)),
        blank(a, b, 4, "which breakpoints exist", "response setFunctionBreakpoints body.breakpoints"), same="same (1 rule to check)",
    )


def strict(report):
    """With `--strict` nothing is hidden that a test looks at, and other rules are as without."""
    def exited(code, pid):
        return recording([
            *BEGUN, message("<", "event", "process", 2, {"name": "a", "systemProcessId": pid}), message("<", "event", "exited", 3, {"exitCode": code}),
        ])

    for name, a, b, given, wanted in (
        ("a process id", exited(0, 1), exited(0, 2), b"", (0, b"# A record 3: 1\n# B record 3: 2\nblank  event    process body.systemProcessId  as process\n\n" + SAME + b"\n", b"")),
        (
            "an exit code", exited(0, 1), exited(1, 2), b"",
            (1, b"", b'no rules can: record 4 of A, event "exited", differs where no rule may change it from B\n'),
        ),
        ("an exit code that the rules blank", exited(0, 1), exited(1, 1), b"blank event exited body.exitCode\n", (0, SAME + b"\n", b"")),
    ):
        with Folder(a=a, b=b, given=given) as folder:
            answer = folder.run("suggest", "--strict", "--rules", "given", "a", "b")
            report.check(f"strict: {name}", answer == wanted, repr(answer))


def fractions(report):
    """Numbers that are not integers are blanked, unless the given rules remove them. Records are counted after these rules."""
    def told(*times):
        return recording([*BEGUN, *(message("<", "event", name, seq, {"t": time}) for seq, (name, time) in enumerate(times, 2))])

    rule = "# %s record %d: %s\nblank  event    %s body.t\n\n"
    same = "# with these rules: same\n"
    for name, a, b, given, wanted in (
        ("one that a rule removes", [("x", 0.5), ("y", 1.5)], [("x", 2.5), ("y", 1.5)], b"blank event x body.t\n", rule % ("A", 4, "1.5", "y")),
        ("all that rules remove", [("x", 0.5)], [("x", 2.5)], b"blank event * body.t\n", ""),
        ("after an event that is dropped", [("x", 0.5), ("y", 1.5)], [("x", 2.5), ("y", 1.5)], b"drop event x\n", rule % ("A", 3, "1.5", "y")),
        ("in B alone", [("x", 1)], [("x", 2.5)], b"\n", rule % ("B", 3, "2.5", "x")),
    ):
        with Folder(a=told(*a), b=told(*b), given=given) as folder:
            answer = folder.run("suggest", "--rules", "given", "a", "b")
            report.check(f"a number that is not an integer, {name}", answer == (0, (wanted + same).encode(), b""), repr(answer))
    items = [[{"name": "a", "t": 0.5}, {"name": "b", "t": time}, {"name": "a"}] for time in (7, 1.5)]
    for name, given, wanted in (
        ("in an omitted element", b'omit event x body.t["a"]\nomit event x body.t["b"]\n', ""),
        ("after an omitted element", b'omit event x body.t["a"]\n', "# B record 3: 1.5\nblank  event    x body.t[].t\n\n"),
    ):
        with Folder(a=told(("x", items[0])), b=told(("x", items[1])), given=given) as folder:
            answer = folder.run("suggest", "--rules", "given", "a", "b")
            report.check(f"a number that is not an integer, {name}", answer == (0, (wanted + same).encode(), b""), repr(answer))
    exited = [recording([*BEGUN, message("<", "event", "exited", 2, {"exitCode": code})]) for code in (0.5, 1.5)]
    with Folder(a=exited[0], b=exited[1]) as folder:
        answer = folder.run("suggest", "a", "b")
        wanted = b"# A record 3: 0.5\n# CHECK: hides the exit code\nblank  event    exited body.exitCode\n\n# with these rules: same (1 rule to check)\n"
        report.check("an exit code that is not an integer", answer == (0, wanted, b""), repr(answer))


def cheapest(report):
    """The rules that hide the fewest equal values, how many they hide, and marks of those that hide what a test looks at."""
    def check(name, a, b, wanted, same="same"):
        with Folder(a=a, b=b) as folder:
            answer = folder.run("suggest", "a", "b")
            wanted = (wanted + f"# with these rules: {same}\n").encode()
            report.check(name, answer == (0, wanted, b""), repr(answer))
            report.check(f"{name}: they make it the same", makes_same(folder, answer[1], "a", "b"))
            report.check(f"{name}: the counts", all(one == other for _, one, other in hidden_values(folder, answer[1])), repr(list(hidden_values(folder, answer[1]))))

    def variables(*values):
        lines = [*BEGUN, message(">", "request", "variables", 2, {"variablesReference": 9})]
        body = {"variables": [{"name": name, "value": value, "variablesReference": 0} for name, value in values]}
        return recording([*lines, message("<", "response", "variables", 2, body, request_seq=2, success=True)])

    place = "response variables body.variables"
    others = [("x", "12"), ("y", "0x10"), ("z", "")]
    check(
        "a process id hides no other variable", variables(("pid", "4711"), *others), variables(("pid", "815"), *others),
        f'# A record 4: "4711"\n# B record 4: "815"\ndigits {place}["pid"].value  as number\n\n',
    )
    check(
        "names by address", variables(("139872345678912", "'a'"), ("139872345678999", "'c'"), ("len()", "2")),
        variables(("140123456789123", "'b'"), ("140123456789999", "'c'"), ("len()", "2")),
        f'# A record 4: "139872345678912"\n# B record 4: "140123456789123"\nlong   {place}[].name\n\n'
        f'# A record 4: "\'a\'"\n# B record 4: "\'b\'"\n# also hides 1 value that is equal\nblank  {place}["0"].value\n\n',
    )
    check(
        "a name that occurs twice", variables(("v", "1"), ("v", "2"), ("v", "3"), ("w", "4")), variables(("v", "5"), ("v", "2"), ("v", "3"), ("w", "4")),
        f'# A record 4: "1"\n# B record 4: "5"\n# also hides 2 values that are equal; keeps which ids are equal\ndigits {place}["v"].value  as number\n\n',
    )
    check(
        "other variables", variables(("x", "1"), ("y", "2")), variables(("x", "1")),
        f'# A record 4: 1 such element\n# B record 4: no such element\n# CHECK: hides which variables exist\nomit   {place}["y"]\n\n',
        "same (1 rule to check)",
    )
    stopped = [recording([*BEGUN, message("<", "event", "stopped", 2, {"reason": reason, "allThreadsStopped": all_stopped})])
               for reason, all_stopped in (("step", True), ("pause", False))]
    check(
        "why and how the program stopped", *stopped,
        "# A record 3: true\n# B record 3: false\n# CHECK: hides whether all threads stopped\nblank  event    stopped body.allThreadsStopped\n\n"
        '# A record 3: "step"\n# B record 3: "pause"\n# CHECK: hides why the program stopped\nblank  event    stopped body.reason\n\n',
        "same (2 rules to check)",
    )
    exited = [recording([*BEGUN, message("<", "event", "exited", 2, {"exitCode": code})]) for code in (0, 1)]
    check(
        "an exit code", *exited, "# A record 3: 0\n# B record 3: 1\n# CHECK: hides the exit code\nblank  event    exited body.exitCode\n\n",
        "same (1 rule to check)",
    )
    check(
        "another order", toy(*FIRST), toy(*FIRST, stopped_first=True),
        "# in A records 6 and 7, in B the other way round\nswap   response next event    stopped\n\n",
    )


# The members of ids that the protocol defines, around a value, each with its label.
IDENTITIES = {
    "progressId": "progress", "dataId": "data", "sourceReference": "source", "locationReference": "location", "valueLocationReference": "location",
    "declarationLocationReference": "location", "moduleId": "module", "module.id": "module", "modules[].id": "module", "targetId": "target",
    "targets[].id": "target", "systemProcessId": "process", "processId": "process", "shellProcessId": "process", "memoryReference": "address",
    "instructionReference": "address", "instructionPointerReference": "address", "instructions[].address": "address",
}
OTHERS = ("id", "source.id", "sources[].id", "address", "instruction.address", "processIds", "output.progressIds[]")


def within(place, value):
    """The body that has a value at a place."""
    for step in reversed(place.split(".")):
        value = {step.removesuffix("[]"): [value] if step.endswith("[]") else value}
    return value


def labels(report):
    """Rules keep which ids are equal, except for those by which the recordings would differ."""
    hexes, result = "hex    response variables body.variables[].value", "hex    response evaluate body.result"

    def asked(values, shown):
        """A session that shows variables, and then the result of an evaluation."""
        lines = [*BEGUN, message(">", "request", "variables", 2, {"variablesReference": 9})]
        body = {"variables": [{"name": name, "value": value, "variablesReference": 0} for name, value in values.items()]}
        lines.append(message("<", "response", "variables", 2, body, request_seq=2, success=True))
        lines.append(message(">", "request", "evaluate", 3, {"expression": "x"}))
        return recording([*lines, message("<", "response", "evaluate", 3, {"result": shown, "variablesReference": 0}, request_seq=3, success=True)])

    def sent(*bodies):
        return recording([*BEGUN, *(message("<", "event", f"x{seq}", seq, body) for seq, body in enumerate(bodies, 2))])

    def named(*events):
        return recording([*BEGUN, *(message("<", "event", name, seq, body) for seq, (name, body) in enumerate(events, 2))])

    def rules(printed):
        return [line for line in printed.decode().splitlines() if line and not line.startswith("#")]

    def check(name, a, b, *wanted, given=b"", options=()):
        with Folder(a=a, b=b, given=given) as folder:
            answer = folder.run("suggest", *options, "--rules", "given", "a", "b")
            report.check(f"labels: {name}", (answer[0], rules(answer[1]), answer[2]) == (0, list(wanted), b""), repr(answer))
            report.check(f"labels: {name}: they make it the same", makes_same(folder, answer[1], "a", "b", given + b"\n"), repr(answer))
            return answer[1]

    a, b = asked({"p": "0x7f", "q": "0x7f", "r": "0x5"}, "0x5"), asked({"p": "0x9", "q": "0x9", "r": "0x8"}, "0x8")
    printed = check("equal addresses", a, b, f"{result}  as address", f"{hexes}  as address")
    with Folder(a=a, rules=printed, broken=asked({"p": "0x1", "q": "0x2", "r": "0x3"}, "0x3"), other=asked({"p": "0x1", "q": "0x1", "r": "0x2"}, "0x1")) as folder:
        for name, line in (("broken", b"differ 4\n"), ("other", b"differ 6\n")):
            answer = folder.run("compare", "--rules", "rules", "a", name)
            report.check(f"labels: an error of aliases differs, {name}", answer == (1, line, b""), repr(answer))
    a, b = asked({"p": "0x7f", "q": "0x0"}, "0x7f"), asked({"p": "0x9", "q": "0x8"}, "0x9")
    check("a null pointer in A", a, b, f"{result}  as address", hexes)
    a, b = asked({"p": "0x7f", "q": "0x7f"}, "0x1"), asked({"p": "0x9", "q": "0x8"}, "0x3")
    check("an alias in A", a, b, f"{result}  as address", hexes)
    a, b = asked({"p": "0x7f", "q": "0x5"}, "0x7f"), asked({"p": "0x9", "q": "0x8"}, "0x8")
    check("another alias", a, b, result, f"{hexes}  as address")
    a, b = asked({"p": "0x7f", "n": "17"}, "0x7f"), asked({"p": "0x9", "n": "4"}, "0x9")
    check("two labels for one value", a, b, f"{result}  as address", f"{hexes}  as address", 'digits response variables body.variables["n"].value  as number')
    a, b = asked({"p": "7f3a1c", "q": "7f3a1c", "m": "17"}, "0x7f"), asked({"p": "9b00d4e", "q": "9b00d4f", "m": "4"}, "0x9")
    check(
        "a label beside which another one is left out", a, b, f"{result}  as address", "long   response variables body.variables[].value",
        'digits response variables body.variables["m"].value',
    )
    a, b = asked({}, "0x7f"), asked({}, "0x9")
    check("a given rule that would change a name", a, b, result, given=b"long response * body.result\n")
    check("a given rule for other values", a, b, f"{result}  as address", given=b"long response * body.type\n")
    check("a given rule that comes first", a, b, f"{result}  as address", given=b"uuid response * body.result")
    a, b = asked({"p": "0x7f"}, "0x7f"), asked({"p": "0x9"}, "0x9")
    check("a given label", a, b, f"{result}  as address", given=b"hex response variables body.variables[].value as address\n")
    check("another address than that of a given label", a, asked({"p": "0x9"}, "0x8"), result, given=b"hex response variables body.variables[].value as address\n")

    for place, label in (*IDENTITIES.items(), *((place, None) for place in OTHERS)):
        for name, values in (("text", ("red", "blue")), ("number", (17, 4))):
            rule = f"blank  event    x2 body.{place}" + (f"  as {label}" if label else "")
            check(f"{place}, a {name}", *(sent(within(place, value)) for value in values), rule)
    check("an id that is null in B", *(sent({"data": {"dataId": it}, "y": "a"}, {"dataId": one}) for it, one in (("red", "c"), ("", "d"))),
          "blank  event    x2 body.data.dataId", "blank  event    x3 body.dataId  as data")

    for count, is_kept in ((16, True), (17, False)):
        a, b = (sent(*({"x": "at 0x1f", "y": f"at 0x{it}f"} for _ in range(count))) for it in ("1", "2"))
        b = b.replace(b"at 0x1f", b"at 0x3f")
        wanted = (f"hex    event    x{number} body.{name}" + ("  as address" if is_kept and name == "x" else "")
                  for number in sorted(range(2, count + 2), key=str) for name in "xy")
        check(f"{count} messages that differ", a, b, *wanted)

    value = "blank  event    x body.y"
    for name, one, other, label in (
        ("a text that occurs twice", ("red", "red", "green"), ("blue", "blue", "grey"), "  as value"), ("a number that occurs twice", (17, 17), (4, 4), "  as value"),
        ("another value that is equal", ("red", "red", "green"), ("blue", "blue", "green"), "  as value"),
        ("values that occur once", ("red", "green", 17), ("blue", "grey", 4), ""), ("other values that are equal", ("red", "red", "green"), ("blue", "grey", "grey"), ""),
        ("a value that becomes another one", ("red", "red", "green"), ("blue", "blue", "red"), "  as value"), ("one value for two", ("red", "red", "green"), ("blue",) * 3, ""),
        ("an object", ("red", "red", {"a": 1}), ("blue", "blue", {"b": 1}), ""), ("booleans", (True, True), (False, False), ""),
        ("a number that is 0", (0, 0), (5, 5), ""), ("a text that is empty", ("", ""), ("red", "red"), ""),
    ):
        check(name, *(named(*(("x", {"y": it}) for it in values)) for values in (one, other)), value + label)
    check("null", *(named(*(("x", {"y": it}) for it in values)) for values in (("red", "red", None), ("blue", "blue", "blue"))), "blank  event    x body")
    a, b = (named(*(("x", {"y": it}) for it in values)) for values in (("red", "red", "green"), ("blue", "blue", "grey")))
    printed = check("values with an alias", a, b, f"{value}  as value")
    with Folder(a=a, rules=printed, broken=named(*(("x", {"y": it}) for it in ("p", "q", "r"))), other=named(*(("x", {"y": "p"}),) * 3)) as folder:
        for name, line in (("broken", b"differ 4\n"), ("other", b"differ 5\n")):
            answer = folder.run("compare", "--rules", "rules", "a", name)
            report.check(f"labels: an error of values differs, {name}", answer == (1, line, b""), repr(answer))
    for count, is_kept in ((16, True), (17, False)):
        places = range(10, count + 10)
        a, b = (named(*((f"x{it}", {"y": text or chr(87 + it)}) for it in places for _ in range(2)), ("z", {"y": at})) for text, at in (("red", "0x1f"), ("", "0x2e")))
        wanted = (f"blank  event    x{it} body.y" + ("  as value" if is_kept and it == 10 else "") for it in places)
        check(f"{count} places whose values contradict each other", a, b, *wanted, "hex    event    z body.y  as address")

    a, b = COMPARED["a stale frame"][:2]
    ended = [record(message("<", "event", "x", 99, {"y": f"at {it}"})) for it in ("0x1f", "0x2e")]
    check("ids at each stop", a + ended[0], b + ended[1], "hex    event    x body.y  as address", "per-stop")
    check("ids at each stop, given", a + ended[0], b + ended[1], "hex    event    x body.y  as address", given=b"per-stop\n")
    check("strict rules", sent({"processId": 7}), sent({"processId": 8}), "blank  event    x2 body.processId  as process", options=["--strict"])


def refused(report):
    """No rules, with the record that prevents them, and inputs that are rejected."""
    base = toy(*FIRST)
    disconnect = message(">", "request", "threads", 9)
    stopped = message("<", "event", "stopped", 2, {"reason": "pause", "threadId": 1})
    failed = message("<", "response", "next", 2, request_seq=2, success=False)
    passed = message("<", "response", "next", 2, request_seq=2, success=True)
    ask = message(">", "request", "next", 2, {"threadId": 1})
    session = recording([*BEGUN, ask, passed])
    tried = {
        "a request of B alone": (recording(BEGUN), recording([*BEGUN, disconnect]), 'record 3 of B, request "threads", has no counterpart in A'),
        "a request of A alone": (recording([*BEGUN, disconnect]), recording(BEGUN), 'record 3 of A, request "threads", has no counterpart in B'),
        "an event that is never dropped": (
            recording(BEGUN), recording([*BEGUN, stopped]), 'record 3 of B, event "stopped", has no counterpart in A'),
        "a failure": (session, recording([*BEGUN, ask, failed]), 'record 4 of A, response "next", differs where no rule may change it from B'),
        "requests in another order": (
            recording([*BEGUN, message(">", "request", "threads", 2), message(">", "request", "loadedSources", 3)]),
            recording([*BEGUN, message(">", "request", "loadedSources", 2), message(">", "request", "threads", 3)]),
            'record 4 of A, request "loadedSources", comes in an order that no rule allows in B'),
    }
    outcomes = [recording([*BEGUN, ask, failed, *(message("<", "event", "stopped", seq, {"reason": "pause"}) for seq in range(3, 25))]), session]
    shown = "".join(f'\n  record {number} of A, event "stopped", has no counterpart in B' for number in range(5, 25))
    tried["more than are shown"] = (*outcomes, f"23 places remain{shown}\n  and 3 more")
    tried["two that remain"] = (
        recording([*BEGUN, stopped]), recording([*BEGUN, disconnect]),
        '2 places remain\n  record 3 of A, event "stopped", has no counterpart in B\n  record 3 of B, request "threads", has no counterpart in A')
    tried["a failure and a record alone"] = (
        recording([*BEGUN, ask, failed, message("<", "event", "stopped", 3, {"reason": "pause"})]), session,
        '2 places remain\n  record 5 of A, event "stopped", has no counterpart in B\n'
        '  record 4 of A, response "next", differs where no rule may change it from B')
    for name, (a, b, line) in tried.items():
        with Folder(a=a, b=b) as folder:
            answer = folder.run("suggest", "a", "b")
            report.check(f"{name}: no rules, and why", answer == (1, b"", f"no rules can: {line}\n".encode()), repr(answer))
    with Folder(a=base, bad=base + b"x", rules=b"blank event\n") as folder:
        for words, line in ((["bad", "a"], "A: record 18: BadMarker"), (["a", "bad"], "B: record 18: BadMarker"), (["--rules", "rules", "a", "a"], "rules: line 1: BadRule")):
            status, printed, errors = folder.run("suggest", *words)
            wanted = re.sub(rb"record 18", b"record %d" % (base.count(b"Content-Length") + 1), refusal(line))
            report.check(f"{words} is refused", (status, printed, errors) == (2, b"", wanted), repr((status, printed, errors)))
        for words, line in ((["missing", "a"], "A: read fault"), (["a", "missing"], "B: read fault"), (["--rules", "missing", "a", "a"], "rules: read fault")):
            answer = folder.run("suggest", *words)
            report.check(f"{words} cannot be read", answer == (4, b"", refusal(line)), repr(answer))
        answer = folder.run("suggest", "-", "-")
        report.check("both cannot be standard input", answer[0] == 3, repr(answer))
        answer = folder.run("suggest", "-", "a", given=base)
        report.check("one can", answer == (0, b"# with these rules: same\n", b""), repr(answer))


def main():
    report = Report()
    toys(report)
    worked(report)
    stops(report)
    categories(report)
    elements(report)
    cheapest(report)
    omitted(report)
    labels(report)
    strict(report)
    fractions(report)
    refused(report)
    same, tried = real_pairs(report, FOLDERS)
    report.check("most pairs of real adapters become the same", tried >= 10 and same * 3 >= tried * 2, f"{same} of {tried}")
    return report.close()


if __name__ == "__main__":
    sys.exit(main())
