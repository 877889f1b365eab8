"""Takes pairs of recordings through `diff --all`: sessions written by hand, with the lines that are expected, and sessions of real adapters, whose
differences are computed here once more."""
import collections
import itertools
import json
import os
import sys
import tempfile

from tests.program.differing import CAPTURES, EXAMPLES, head, leaf_lines
from tests.report import TOP, Report, run
from tests.program.worked_runs import (
    BEGUN, CONFIGURED, DONE, DONE_RESPONSE, FRAME, FRAMES, INITIALIZE, INITIALIZED, NEW_FRAME, OUTPUT, RESPONSE, STACK, STOPPED, THREADS,
    TWO_STOPS, UNNUMBERED, recording, refusal, renumbered,
)

sys.path.insert(0, os.path.join(TOP, "scripts"))
from normalise_reference import FRAME as FRAME_SORT
from normalise_reference import REFERENCE, fill, places, rename
from one_direction import records

MARKERS = {"client": ">", "adapter": "<"}
OTHER = {"client": "adapter", "adapter": "client"}


def numbered(lines):
    """The lines with the sequence numbers of each side counted from 1, and with the responses that follow them."""
    counts, renamed, written = {">": 0, "<": 0}, {}, []
    for line in lines:
        side, message = line[0], json.loads(line[1:])
        counts[side] += 1
        renamed[side, message["seq"]] = message["seq"] = counts[side]
        if message["type"] == "response":
            message["request_seq"] = renamed["<" if side == ">" else ">", message["request_seq"]]
        written.append(side + json.dumps(message))
    return written


def output(number, said):
    return '<{"body":{"output":"%s"},"event":"output","seq":%d,"type":"event"}' % (said, number)


SAME = (0, "same\n")
STACKED = [*BEGUN, STACK, FRAMES % (1000, 1001)]
EXCHANGED = [*BEGUN, STACK, FRAMES % (1001, 1000)]
NAMED = STACKED[:3] + [STACKED[3].replace('"name":"g"', '"name":"h"')]
ONE_FRAME = [*BEGUN, STACK, FRAME % (1000, 2, 2)]
STEP, HIT = [*BEGUN, STOPPED], [*BEGUN, STOPPED.replace("step", "breakpoint")]
ANSWERED = [*BEGUN, INITIALIZED, DONE, DONE_RESPONSE]
LONG_OUTPUTS = [[*BEGUN, output(2, "x" * 997 + it)] for it in "AB"]
TWO_OUTPUTS = [INITIALIZE, output(5, "a"), RESPONSE.replace('"seq":1,"success"', '"seq":6,"success"'), output(7, "b")]

# Two recordings, the option `--per-stop` or none, and the status and the output of `diff --all`.
WORKED = {
    "nothing": ([], [], [], SAME),
    "a recording and itself": (CONFIGURED, CONFIGURED, [], SAME),
    "frames exchanged": (STACKED, EXCHANGED, [], SAME),
    "another reason": (
        STEP, HIT, [], (1, 'differ: 1 paired, 0 only in A, 0 only in B\n3/3 < event "stopped"\nA body.reason "step"\nB body.reason "breakpoint"\n'),
    ),
    "long texts that differ in their last character": (
        LONG_OUTPUTS[0], LONG_OUTPUTS[1], [],
        (1, 'differ: 1 paired, 0 only in A, 0 only in B\n3/3 < event "output"\n' + "".join(f'{it} body.output ...{"x" * 16}{it}"\n' for it in "AB")),
    ),
    "another name of a frame": (
        STACKED, NAMED, [],
        (1, 'differ: 1 paired, 0 only in A, 0 only in B\n4/4 < response "stackTrace"\nA body.stackFrames[1].name "g"\nB body.stackFrames[1].name "h"\n'),
    ),
    # The frame of A alone has a joint number, which only the first of A's frames shares with B.
    "a frame of A alone": (
        STACKED, ONE_FRAME, [],
        (1, 'differ: 1 paired, 0 only in A, 0 only in B\n4/4 < response "stackTrace"\nA body.stackFrames[1] {"column":1,"id":2,"line":9,"name":"g"}\n'),
    ),
    "an event of B alone": (
        BEGUN, [OUTPUT.replace('"seq":1', '"seq":9'), *BEGUN], [], (1, 'differ: 0 paired, 0 only in A, 1 only in B\n-/1 < event "output"\n'),
    ),
    "an event of A alone": (
        [*BEGUN, INITIALIZED], BEGUN, [], (1, 'differ: 0 paired, 1 only in A, 0 only in B\n3/- < event "initialized"\n'),
    ),
    # A's further event makes all later numbers of the adapter differ; none of them is reported.
    "an event between others": (
        [*BEGUN, OUTPUT.replace('"seq":1', '"seq":9'), *CONFIGURED[2:]], CONFIGURED, [],
        (1, 'differ: 0 paired, 1 only in A, 0 only in B\n3/- < event "output"\n'),
    ),
    "an empty recording": (
        [], BEGUN, [],
        (1, 'differ: 0 paired, 0 only in A, 2 only in B\n-/1 > request "initialize"\n-/2 < response "initialize"\n'),
    ),
    # The second event of A has no second one of B as its counterpart, and the first ones differ.
    "the second output": (
        TWO_OUTPUTS, [INITIALIZE, TWO_OUTPUTS[2], output(7, "b")], [],
        (1, 'differ: 1 paired, 1 only in A, 0 only in B\n2/3 < event "output"\nA body.output "a"\nB body.output "b"\n4/- < event "output"\n'),
    ),
    "a request without a counterpart": (
        [*BEGUN, THREADS], [*BEGUN, STACK, FRAME % (7, 2, 2)], [],
        (
            1,
            'differ: 0 paired, 1 only in A, 2 only in B\n3/- > request "threads"\n-/3 > request "stackTrace"\n-/4 < response "stackTrace"\n',
        ),
    ),
    "another order": (
        ANSWERED, numbered([*BEGUN, INITIALIZED, DONE, OUTPUT.replace('"seq":1', '"seq":8'), DONE_RESPONSE]), [],
        (1, 'differ: 0 paired, 0 only in A, 1 only in B\n-/5 < event "output"\n'),
    ),
    "only the order": (
        [*BEGUN, INITIALIZED, DONE, DONE_RESPONSE, renumbered(STOPPED, seq=(2, 4))],
        numbered([*BEGUN, INITIALIZED, DONE, renumbered(STOPPED, seq=(2, 4)), DONE_RESPONSE]), [],
        (1, 'differ: 0 paired, 0 only in A, 0 only in B\nout of order: 6/5 < event "stopped"\n'),
    ),
    # The frame 1000 comes again in A and not in B.
    "a stale frame": (
        TWO_STOPS, NEW_FRAME, [],
        (
            1,
            'differ: 1 paired, 0 only in A, 0 only in B\n8/8 < response "stackTrace"\n'
            'A body.stackFrames[0].id 1\nB body.stackFrames[0].id 2\n',
        ),
    ),
    "a stale frame per stop": (TWO_STOPS, NEW_FRAME, ["--per-stop"], SAME),
}

# Two recordings of which one is refused, and the line that reports it.
TWICE = [*BEGUN, RESPONSE]
REFUSED = {
    "a refusal of the first": (TWICE, CONFIGURED, "A: record 3: AnsweredTwice"),
    "a refusal of the second": (CONFIGURED, TWICE, "B: record 3: AnsweredTwice"),
    "a refusal of both": (TWICE, TWICE, "A: record 3: AnsweredTwice"),
    "a refusal after a difference": (CONFIGURED, [*UNNUMBERED[:4], UNNUMBERED[3]], "B: record 5: SeqUsed"),
}

Id = collections.namedtuple("Id", "sort stop number")


class Marking:
    """Gives each number of a sort the id that it is after a stop."""

    def __init__(self, sort, stop):
        self.sort, self.stop = sort, stop

    def __len__(self):
        return 0

    def setdefault(self, number, _):
        return Id(self.sort, self.stop, number)


class Marked:
    """The markings of all sorts after a stop."""

    def __init__(self, stop):
        self.stop = stop

    def setdefault(self, sort, _):
        return Marking(sort, self.stop if sort in (FRAME_SORT, REFERENCE) else 0)


def marked(given, per_stop):
    """The messages of a recording with their sides, and with their ids marked."""
    found, stop = [], 0
    for number, (side, _, content) in enumerate(records(given), 1):
        message = json.loads(content)
        fill(side, message)
        found.append((side, rename(Marked(stop), dict(places(message, first_rows=False)), side, "", message)))
        if per_stop and (message["type"], message.get("event")) == ("event", "stopped"):
            stop = number
    return found


def head_of(record):
    side, message = record
    return head((MARKERS[side], message))


def counterparts(ours, theirs):
    """The pairs of places of counterparts."""
    waiting = collections.defaultdict(list)
    responses, requests, pairs = {}, {}, []
    for place, (side, message) in enumerate(ours):
        if message["type"] == "response":
            responses[message["request_seq"]] = place
        else:
            waiting[head_of((side, message))].append(place)
    for place, (side, message) in enumerate(theirs):
        if message["type"] == "response":
            found = responses.get(requests.get(message["request_seq"]))
        else:
            queue = waiting[head_of((side, message))]
            found = queue.pop(0) if queue else None
            if found is not None:
                requests[message["seq"]] = ours[found][1]["seq"]
        if found is not None:
            pairs.append((found, place))
    return pairs


def rows_of(ours, theirs, pairs):
    """The places of all records in the order of the report, None for a counterpart that is missing."""
    of_a, of_b = dict(pairs), {b for _, b in pairs}
    rows, passed = [], 0
    for a in range(len(ours)):
        b = of_a.get(a)
        if b is not None:
            rows += [(None, other) for other in range(passed, b) if other not in of_b]
            passed = max(passed, b)
        rows.append((a, b))
    return rows + [(None, other) for other in range(passed, len(theirs)) if other not in of_b]


class Joint:
    """The joint numbers of the ids of A and of B."""

    def __init__(self):
        self.numbers = {}
        self.given = collections.Counter()

    def next(self, sort):
        self.given[sort] += 1
        return self.given[sort]

    def join(self, a, b):
        """Joins the ids of one sort at one path."""
        if isinstance(a, Id) and isinstance(b, Id):
            if a.sort == b.sort and ("A", a) not in self.numbers and ("B", b) not in self.numbers:
                self.numbers["A", a] = self.numbers["B", b] = self.next(a.sort)
        elif isinstance(a, dict) and isinstance(b, dict):
            for name in sorted(a.keys() & b.keys(), key=str.encode):
                self.join(a[name], b[name])
        elif isinstance(a, list) and isinstance(b, list):
            for x, y in zip(a, b):
                self.join(x, y)

    def numbered(self, which, value):
        if isinstance(value, Id):
            if (which, value) not in self.numbers:
                self.numbers[which, value] = self.next(value.sort)
            return self.numbers[which, value]
        if isinstance(value, dict):
            return {name: self.numbered(which, value[name]) for name in sorted(value, key=str.encode)}
        return [self.numbered(which, item) for item in value] if isinstance(value, list) else value


def report_of(ours, theirs):
    """The output of `diff --all` for the marked messages of two recordings, and its status."""
    pairs = counterparts(ours, theirs)
    rows, joint, lines = rows_of(ours, theirs, pairs), Joint(), []
    counts = {"pairs": 0, "a": 0, "b": 0}
    for a, b in rows:
        if None not in (a, b):
            joint.join(ours[a][1], theirs[b][1])
    for a, b in rows:
        place = f"{'-' if a is None else a + 1}/{'-' if b is None else b + 1} {head_of(theirs[b] if a is None else ours[a])}"
        if a is None or b is None:
            counts["b" if a is None else "a"] += 1
            lines.append(place)
            continue
        one, other = joint.numbered("A", ours[a][1]), joint.numbered("B", theirs[b][1])
        found = list(leaf_lines(one, other))
        if found:
            counts["pairs"] += 1
            lines += [place, *found]
    order = [(a, b) for a, b in rows if None not in (a, b)]
    moved = [pair for before, pair in itertools.pairwise(order) if pair[1] < before[1]]
    if not lines and moved:
        a, b = moved[0]
        lines.append(f"out of order: {a + 1}/{b + 1} {head_of(ours[a])}")
    if not lines:
        return 0, "same\n"
    first = f"differ: {counts['pairs']} paired, {counts['a']} only in A, {counts['b']} only in B"
    return 1, "".join(line + "\n" for line in [first, *lines])


def diff_all(folder, a, b, options=()):
    """The answer of `diff --all` for two recordings."""
    paths = []
    for which, given in (("a.rec", a), ("b.rec", b)):
        paths.append(os.path.join(folder, which))
        with open(paths[-1], "wb") as file:
            file.write(given)
    return run(["diff", "--all", *options, *paths])


def worked(report, folder):
    for name, (ours, theirs, options, (status, lines)) in WORKED.items():
        answer = diff_all(folder, recording(ours), recording(theirs), options)
        report.check(f"diff --all: {name}", answer == (status, lines.encode(), b""), repr(answer))
    for name, (ours, theirs, line) in REFUSED.items():
        answer = diff_all(folder, recording(ours), recording(theirs))
        report.check(f"diff --all: {name}", answer == (2, b"", refusal(line)), repr(answer))


def read(name):
    with open(os.path.join(EXAMPLES, name + ".rec"), "rb") as file:
        return file.read()


def captured(report, folder):
    """Sessions of one adapter, each with each, and with it."""
    given = {name: read(name) for name in CAPTURES}
    found = {(name, option): marked(given[name], option) for name in CAPTURES for option in (False, True)}
    reported = collections.Counter()
    for a, b in itertools.product(CAPTURES, CAPTURES):
        if os.path.basename(a).split("-")[0] != os.path.basename(b).split("-")[0]:
            continue
        for option in (False, True):
            status, lines = report_of(found[a, option], found[b, option])
            answer = diff_all(folder, given[a], given[b], ["--per-stop"] if option else [])
            report.check(f"diff --all of {a} and {b}, per stop {option}", answer == (status, lines.encode(), b""), repr((answer, status, lines)))
            reported.update(line.split(" ")[0] for line in lines.splitlines())
    report.check("leaves, records of one recording and `same` were reported", min(reported["A"], reported["same"]) > 20, repr(reported.most_common(5)))


def main():
    report = Report()
    with tempfile.TemporaryDirectory() as folder:
        worked(report, folder)
        captured(report, folder)
    return report.close()


if __name__ == "__main__":
    sys.exit(main())
