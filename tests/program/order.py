"""Puts recordings in order by `order`, and compares them up to order by `compare --rules` and `diff --rules`. Sessions made at random are
compared with the reference in order_reference.py.

    python3 -m tests.program.order [SESSIONS]

SESSIONS is how many sessions are made, 300 if it is left out. Before a release 20,000 are tried."""
import copy
import os
import random
import re
import sys
import tempfile
import time
from concurrent.futures import ProcessPoolExecutor
from typing import NamedTuple

from tests.program.order_reference import ordered, recorded
from tests.program.random_sessions import exchanged, forbidden, lines_of, renamed, rules_of, session_of
from tests.report import PROGRAM, TOP, Report, run
from tests.program.worked_runs import (
    BEGUN, DISCONNECT, DISCONNECTED, DONE, FILLED, FRAME, INITIALIZE, INITIALIZED, OUTPUT, RESPONSE, STACK, STOPPED as STOPPED_2, THREADS,
    recording, refusal, renumbered,
)

sys.path.insert(0, os.path.join(TOP, "scripts"))
from normalise_reference import fill, normalised

SESSIONS = 300
# How many sessions a process tries before it takes the next ones.
TOGETHER = 10

# ---- sessions by hand

CONTINUE = '>{"arguments":{"threadId":1},"command":"continue","seq":%d,"type":"request"}'
CONTINUED = '<{"command":"continue","request_seq":%d,"seq":0,"success":true,"type":"response"}'
STOPPED = '<{"body":{"reason":"step"},"event":"stopped","seq":0,"type":"event"}'
EXITED = '<{"body":{"exitCode":0},"event":"exited","seq":0,"type":"event"}'
TERMINATED = '<{"event":"terminated","seq":0,"type":"event"}'
STAR = '<{"event":"*","seq":0,"type":"event"}'
TERMINAL = '<{"arguments":{"args":["sh"],"cwd":"/"},"command":"runInTerminal","seq":7,"type":"request"}'
NEXT = '>{"arguments":{"threadId":1},"command":"next","seq":2,"type":"request"}'
STEPPED = '<{"command":"next","request_seq":2,"seq":3,"success":true,"type":"response"}'
THREADS_3 = renumbered(THREADS, seq=(2, 3))
ANSWERS = ['<{"body":{"threads":[]},"command":"threads","request_seq":%d,"seq":0,"success":true,"type":"response"}' % seq for seq in (2, 3)]
FAILED = DISCONNECTED.replace('"success":true', '"success":false')
ALL = "".join(f"swap {one} * {another} *\n" for one, another in [
    ("request", "request"), ("request", "response"), ("request", "event"), ("response", "response"), ("response", "event"), ("event", "event"),
])

# Rules, the lines of a session, and its lines in order. With `ALL` each order stays for the reason that the name says.
WORKED = {
    "nothing": ("", [], []),
    "no rule": ("", [*BEGUN, CONTINUE % 2, STOPPED, CONTINUED % 2], [*BEGUN, CONTINUE % 2, STOPPED, CONTINUED % 2]),
    "a stop before the response": (
        "swap response continue event stopped", [*BEGUN, CONTINUE % 2, STOPPED, CONTINUED % 2], [*BEGUN, CONTINUE % 2, CONTINUED % 2, STOPPED],
    ),
    "the halves the other way round": (
        "swap event stopped response continue", [*BEGUN, CONTINUE % 2, STOPPED, CONTINUED % 2], [*BEGUN, CONTINUE % 2, CONTINUED % 2, STOPPED],
    ),
    "a rule for another name": (
        "swap response next event stopped", [*BEGUN, CONTINUE % 2, STOPPED, CONTINUED % 2], [*BEGUN, CONTINUE % 2, STOPPED, CONTINUED % 2],
    ),
    "a message between that no rule names": (
        "swap response continue event stopped", [*BEGUN, CONTINUE % 2, STOPPED, OUTPUT, CONTINUED % 2],
        [*BEGUN, CONTINUE % 2, STOPPED, OUTPUT, CONTINUED % 2],
    ),
    "events by their names": ("swap event exited event terminated", [*BEGUN, TERMINATED, EXITED], [*BEGUN, EXITED, TERMINATED]),
    "an event that is named *": ('swap event "*" event exited', [*BEGUN, TERMINATED, STAR, EXITED], [*BEGUN, TERMINATED, STAR, EXITED]),
    "an event that is named *, and one that passes it": (
        'swap event "*" event exited', [*BEGUN, EXITED, STAR, TERMINATED], [*BEGUN, STAR, EXITED, TERMINATED],
    ),
    "responses in the order of their requests": (
        "swap response * response *", [*BEGUN, THREADS, THREADS_3, *reversed(ANSWERS)], [*BEGUN, THREADS, THREADS_3, *ANSWERS],
    ),
    "a response before a later request": (
        "swap response * request *", [*BEGUN, THREADS, THREADS_3, *ANSWERS], [*BEGUN, THREADS, ANSWERS[0], THREADS_3, ANSWERS[1]],
    ),
    "two requests of the client": (ALL, [*BEGUN, THREADS, CONTINUE % 3], [*BEGUN, THREADS, CONTINUE % 3]),
    "two events of one name": (ALL, [*BEGUN, STOPPED_2, STOPPED], [*BEGUN, STOPPED_2, STOPPED]),
    "a response and its request": (ALL, [*BEGUN, THREADS, ANSWERS[0]], [*BEGUN, THREADS, ANSWERS[0]]),
    "an event after the initialization": (ALL, [*BEGUN, EXITED], [*BEGUN, EXITED]),
    "a request after the initialization": (ALL, [*BEGUN, TERMINAL], [*BEGUN, TERMINAL]),
    "output in the initialization": (ALL, [OUTPUT, INITIALIZE, OUTPUT, RESPONSE], [OUTPUT, OUTPUT, INITIALIZE, RESPONSE]),
    "initialized and configurationDone": (ALL, [*BEGUN, INITIALIZED, DONE], [*BEGUN, INITIALIZED, DONE]),
    "a request before the end": (ALL, [*BEGUN, DISCONNECT, THREADS_3, DISCONNECTED], [*BEGUN, DISCONNECT, THREADS_3, DISCONNECTED]),
    "a request before a failed end": (ALL, [*BEGUN, DISCONNECT, THREADS_3, FAILED], [*BEGUN, DISCONNECT, FAILED, THREADS_3]),
}

# Lines that are refused, and why.
REFUSED = {
    "a response to no request": ([*BEGUN, ANSWERS[0]], "record 3: NoRequest"),
    "a request after the end": ([*BEGUN, DISCONNECT, DISCONNECTED, THREADS_3], "record 5: AfterDisconnect"),
    "a second response": ([*BEGUN, THREADS, ANSWERS[0], ANSWERS[0]], "record 5: AnsweredTwice"),
}


def reported(arguments, given=b""):
    """The status, the output and the first line of the errors: `order` explains a refusal in further lines."""
    status, output, errors = run(arguments, given)
    return status, output, errors[: errors.find(b"\n") + 1]


class Folder(NamedTuple):
    """A folder for the files that runs name."""
    path: str

    def file(self, name, text):
        path = os.path.join(self.path, name)
        with open(path, "wb") as file:
            file.write(text)
        return path

    def order(self, rules, given):
        return reported(["order", self.file("rules", rules)], given)

    def compare(self, rules, a, b, command="compare"):
        return run([command, "--rules", self.file("rules", rules), self.file("a", a), self.file("b", b)])


def written(lines):
    """The text that `order` writes of lines in order: capabilities that are left out are false."""
    return recording([FILLED if line == RESPONSE else line for line in lines])


def worked(report, folder):
    for name, (rules, lines, in_order) in WORKED.items():
        text = written(in_order)
        for title, given in (("", recording(lines)), (", again", text)):
            answer = folder.order(rules.encode(), given)
            report.check(f"order of {name}{title}", answer == (0, text, b""), repr(answer))
        answer = folder.compare(rules.encode(), recording(lines), text)
        report.check(f"compare of {name} and its order", (answer[0], answer[1][:5], answer[2]) == (0, b"same\n", b""), repr(answer))
        answer = folder.compare(rules.encode(), recording(lines), text, "diff")
        report.check(f"diff of {name} and its order", answer == (0, b"same\n", b""), repr(answer))


def document(report, folder):
    """The sessions that docs/RULES.md shows."""
    with open(os.path.join(TOP, "docs", "RULES.md"), encoding="utf-8") as file:
        text = file.read()
    steps, stack = [*BEGUN, NEXT], [renumbered(STACK, seq=(2, 3)), FRAME % (1000, 3, 4)]
    before, after, late = [*steps, STOPPED_2, STEPPED, *stack], [*steps, STEPPED, STOPPED_2, *stack], [*steps, STEPPED, *stack, STOPPED_2]
    for word, lines in (("before", before), ("after", after), ("late", late)):
        picture = re.search(rf"<!-- order: {word} -->\n((?: {{4}}.*\n)+)", text)[1].replace("\n    ", "\n")[4:]
        shown = run(["show"], recording(lines))[1].decode()
        report.check(f"the document's session {word}", shown.endswith(picture) and picture.startswith("3 "), repr((shown, picture)))
    rules = b"swap response next event stopped\nswap response * request *"
    for name, lines, in_order in (("before", before, after), ("after", after, after), ("late", late, late)):
        answer = folder.order(rules, recording(lines))
        report.check(f"order of the document's session {name}", answer == (0, written(in_order), b""), repr(answer))
    answer = folder.compare(rules, recording(before), recording(late))
    report.check("the document's bug stays visible", answer == (1, b"differ 5\n", b""), repr(answer))


def refused(report, folder):
    for name, (lines, why) in REFUSED.items():
        text = recording(lines)
        answer = folder.order(ALL.encode(), text)
        report.check(f"order of {name}", answer == (2, b"", refusal(why)), repr(answer))
        for title, a, b in (("A", text, recording(BEGUN)), ("B", recording(BEGUN), text)):
            for command in ("compare", "diff"):
                answer = folder.compare(ALL.encode(), a, b, command)
                report.check(f"{command} with {name} in {title}", answer == (2, b"", refusal(f"{title}: after the rules: {why}")), repr(answer))


def differing(report, folder):
    """What the rules do not declare is a difference, and is shown as such."""
    before, after = [*BEGUN, TERMINATED, EXITED], [*BEGUN, EXITED, TERMINATED]
    for rules, answer in ((b"", b"differ 3\n"), (b"swap event exited event terminated", b"same\n")):
        found = folder.compare(rules, recording(before), recording(after))
        report.check(f"compare by {rules!r}", found[1].startswith(answer), repr(found))
    answer = folder.compare(b"", recording(before), recording(after), "diff")
    report.check("diff of another order", answer == (1, b'differ 3\nA < event "terminated"\nB < event "exited"\n', b""), repr(answer))


def rules_that_are_refused(report, folder):
    for rules, why in ((b"swap event", "line 1: BadRule"), (b"\nswap event a event b\n" * 2, "line 4: Repeated")):
        line = refusal(f"rules: {why}")
        answer = folder.order(rules, b"nothing is read of this")
        report.check(f"order by {rules!r}", answer == (2, b"", line), repr(answer))
        for command in ("compare", "diff"):
            answer = folder.compare(rules, b"", b"", command)
            report.check(f"{command} by {rules!r}", answer == (2, b"", line), repr(answer))
    answer = reported(["order", os.path.join(folder.path, "none")])
    report.check("rules that do not open", answer == (4, b"", b"dapnorm: rules: read fault\n"), repr(answer))
    report.check("no rules are a usage error", run(["order"])[0] == 3)


# ---- sessions at random

class Tried(NamedTuple):
    """What came of a session: what failed, whether an exchange was made, and the answer to a comparison after an exchange that no rule
    allows: 0, 1 or 2, or None if there is none."""
    failures: list
    moved: bool
    answer: object


def record_all(found):
    """The text of the messages with the capabilities that an adapter leaves out."""
    filled = copy.deepcopy(found)
    for side, message in filled:
        fill(side, message)
    return recorded(filled)


class Trial:
    """A session, its rules, and its forms: two after exchanges that the rules allow, and one of them with other ids."""

    def __init__(self, seed, folder):
        self.dice, self.folder, self.failures = random.Random(seed), folder, []
        self.marked = seed % 3 != 0
        self.found = session_of(self.dice, self.marked)
        self.rules = rules_of(self.dice, self.found)
        self.lines = lines_of(self.rules)
        self.others = [exchanged(self.dice, self.rules, self.found) for _ in range(2)]
        self.renamed = renamed(self.dice, self.others[0])
        self.text = record_all(ordered(self.rules, self.found))

    def want(self, name, holds, detail=""):
        if not holds:
            self.failures.append(f"{name}: {detail!r}"[:400])

    def orders(self):
        """Each form is put in the one order, which is accepted, and which is in order."""
        forms = [("the session", self.found), ("a form", self.others[0]), ("another form", self.others[1])]
        for name, text in [*((name, recorded(found)) for name, found in forms), ("its order", self.text)]:
            answer = self.folder.order(self.lines, text)
            self.want(f"order of {name}", answer == (0, self.text, b""), answer)
        answer = run(["check"], self.text)
        self.want("check of the order", answer[0] == 0, answer)

    def renames(self):
        """The order of a form with other ids has the same normal form."""
        text = record_all(ordered(self.rules, self.renamed))
        answer = self.folder.order(self.lines, recorded(self.renamed))
        self.want("order with other ids", answer == (0, text, b""), answer)
        normal = normalised(self.text)
        for name, given in (("its order", self.text), ("the order with other ids", text)):
            answer = run(["normalise"], given)
            self.want(f"normalise of {name}", answer == (0, normal, b""), answer)

    def compares(self):
        """A form with other ids is the same. Returns the answer after an exchange that no rule allows, which differs or is refused."""
        answer = self.folder.compare(self.lines, recorded(self.found), recorded(self.renamed))
        self.want("compare with other ids", (answer[0], answer[1][:5]) == (0, b"same\n"), answer)
        other = forbidden(self.dice, self.rules, self.others[1])
        if other is None:
            return None
        answer = self.folder.compare(self.lines, recorded(self.found), recorded(other))
        if run(["check"], recorded(other))[0] == 2:
            wanted = 2
        else:
            wanted = 0 if normalised(record_all(ordered(self.rules, other))) == normalised(self.text) else 1
        # Each marked message differs from each other one.
        self.want("compare after another exchange", answer[0] == wanted and not (self.marked and wanted == 0), (wanted, answer))
        return answer[0]

    def tried(self):
        self.orders()
        self.renames()
        answer = self.compares()
        return Tried(self.failures, any(other != self.found for other in self.others), answer)


def try_sessions(seeds):
    with tempfile.TemporaryDirectory() as path:
        return [Trial(seed, Folder(path)).tried() for seed in seeds]


def random_sessions(report, count):
    parts = [range(at, min(at + TOGETHER, count)) for at in range(0, count, TOGETHER)]
    begun = time.monotonic()
    with ProcessPoolExecutor(len(os.sched_getaffinity(0))) as workers:
        found = [each for part in workers.map(try_sessions, parts) for each in part]
    for seed, each in enumerate(found):
        report.check(f"session {seed}", not each.failures, "; ".join(each.failures[:2]))
    answers = [each.answer for each in found]
    moved = sum(each.moved for each in found)
    print(f"{count} sessions in {time.monotonic() - begun:.0f} seconds: {moved} with exchanges; after another one {answers.count(0)} are the same, "
          f"{answers.count(1)} differ, {answers.count(2)} are refused", flush=True)
    report.check("there are enough of each sort", 3 * moved > count and 8 * answers.count(1) > count and 30 * answers.count(2) > count)


# ---- time

def asked(numbers):
    return [f'>{{"command":"threads","seq":{number},"type":"request"}}' for number in numbers]


def answered(numbers):
    return [
        f'<{{"body":{{"threads":[]}},"command":"threads","request_seq":{number},"seq":0,"success":true,"type":"response"}}' for number in numbers
    ]


def events(names):
    return [f'<{{"event":"{name}","seq":0,"type":"event"}}' for name in names]


def reversed_responses(count):
    """Requests, and their responses in the other order, which all pass each other."""
    numbers = range(2, count + 2)
    return b"swap response * response *", asked(numbers) + answered(reversed(numbers)), asked(numbers) + answered(numbers)


def late_responses(count):
    """Requests, and then their responses, each of which passes the requests after its own."""
    numbers = range(2, count + 2)
    pairs = zip(asked(numbers), answered(numbers))
    return b"swap response * request *", asked(numbers) + answered(numbers), [line for pair in pairs for line in pair]


def reversed_events(count):
    """Events of as many names, in the other order, which all pass each other."""
    lines = events(f"e{number:07}" for number in range(count))
    return b"swap event * event *", lines[::-1], lines


def events_without_rules(count):
    """Events of as many names, none of which a rule names."""
    lines = events(f"e{number:07}" for number in reversed(range(count)))
    return b"swap response * request *", lines, lines


def many_rules(count):
    """A hundred rules, and events of all their names: each passes the one before it, or none."""
    rules = "".join(f"swap event e{number:03} event f{number:03}\n" for number in range(100))
    pairs = [(f"f{number % 100:03}", f"e{number % 100:03}") for number in range(count // 2)]
    return rules.encode(), events(name for pair in pairs for name in pair), events(name for pair in pairs for name in reversed(pair))


# Inputs, how many messages of each sort they have, and the aim: within how many seconds they are put in order.
TIMES = [
    (reversed_responses, 100_000, 2), (reversed_responses, 400_000, 10), (late_responses, 100_000, 2), (reversed_events, 100_000, 2),
    (reversed_events, 400_000, 10), (events_without_rules, 100_000, 2), (many_rules, 100_000, 5),
]
# How many times as long a machine may take.
SLOWER = 4


def times(report, folder):
    for made, count, most in TIMES:
        rules, lines, in_order = made(count)
        given = recording([*BEGUN, *lines])
        begun = time.monotonic()
        status, text, errors = folder.order(rules, given)
        seconds = time.monotonic() - begun
        name = f"{made.__name__} of {count}"
        report.check(f"order of {name}", (status, errors) == (0, b"") and text == written([*BEGUN, *in_order]), repr((status, errors)))
        print(f"order of {name}: {seconds:.1f} seconds; the aim is less than {most}", flush=True)
        report.check(f"order of {name} takes less than {SLOWER * most} seconds", seconds < SLOWER * most, f"{seconds:.1f}")


def main():
    report = Report()
    count = int(sys.argv[1]) if len(sys.argv) == 2 else SESSIONS
    if report.check("the gate has built the program", os.access(PROGRAM, os.X_OK)):
        with tempfile.TemporaryDirectory() as path:
            for test in (worked, document, refused, differing, rules_that_are_refused, times):
                test(report, Folder(path))
        random_sessions(report, count)
    return report.close()


if __name__ == "__main__":
    sys.exit(main())
