"""Takes recordings through `diff`, by pairs: those of real adapters. What differs is computed here once more, with Python's json."""
import itertools
import json
import os
import re
import sys

from tests.report import TOP, Report, run

sys.path.insert(0, os.path.join(TOP, "scripts"))
from normalise_reference import normalised
from one_direction import records

EXAMPLES = os.path.join(TOP, "examples")
CAPTURES = [
    "captures/debugpy-a-basic.1", "captures/debugpy-i-terminal.1", "captures/debugpy-l-stopentry.1", "captures/dlv-a-basic.1",
    "captures/dlv-l-stopentry.3", "captures/dlv-l-stopentry.5", "captures/lldb14-b-loop.1", "captures/lldb14-k-badlaunch.1", "captures/lldb14-k-badlaunch.5",
    "captures/rdbg-e-errors.3", "captures/rdbg-e-errors.5", "pairs/debugpy-e-errors.1", "pairs/debugpy-e-errors.2", "pairs/debugpy-l-stopentry.3",
    "pairs/debugpy-l-stopentry.4", "pairs/dlv-a-basic.2", "pairs/dlv-f-edit.1", "pairs/dlv-f-edit.2", "pairs/lldb14-b-loop.2", "pairs/lldb14-e-errors.1",
    "pairs/lldb14-e-errors.2", "pairs/rdbg-g-cancel.1", "pairs/rdbg-g-cancel.2",
]
MARKERS = {"client": ">", "adapter": "<"}
PLAIN = set("abcdefghijklmnopqrstuvwxyzABCDEFGHIJKLMNOPQRSTUVWXYZ0123456789_-$")


def text(value):
    return json.dumps(value, ensure_ascii=False, sort_keys=True, separators=(",", ":"))


def path_text(path):
    """A path as it is written: names joined by dots, the places of items in brackets."""
    written = ""
    for step in path:
        if isinstance(step, int):
            written += f"[{step}]"
        else:
            written += ("." if written else "") + (step if step and set(step) <= PLAIN else text(step))
    return written or "."


def leaves(a, b, path=()):
    """The leaves that differ, in the order of their paths: the path, and a list of the values of A and of B."""
    if isinstance(a, dict) and isinstance(b, dict):
        for name in sorted(a.keys() | b.keys(), key=str.encode):
            if name in a and name in b:
                yield from leaves(a[name], b[name], (*path, name))
            else:
                yield (*path, name), [("A", a[name])] if name in a else [("B", b[name])]
    elif isinstance(a, list) and isinstance(b, list):
        for place, (x, y) in enumerate(itertools.zip_longest(a, b, fillvalue=leaves)):
            if x is leaves or y is leaves:
                yield (*path, place), [("B", y)] if x is leaves else [("A", x)]
            else:
                yield from leaves(x, y, (*path, place))
    elif type(a) is not type(b) or a != b:
        yield path, [("A", a), ("B", b)]


def head(record):
    """The side, the kind and the name of a message, as a line tells them."""
    side, message = record
    return f"{side} {message['type']} {text(message['event' if message['type'] == 'event' else 'command'])}"


def messages(name):
    with open(os.path.join(EXAMPLES, name + ".rec"), "rb") as file:
        return [(MARKERS[side], json.loads(content)) for side, _, content in records(normalised(file.read()))]


# What starts a sign in the bytes of a JSON text: an escape sequence, or a character.
SIGN = re.compile(rb"\\u[0-9a-f]{4}|\\.|[\x00-\x7f\xc0-\xff]")


def cut(value, limit=200):
    return value if len(value) <= limit else value[:limit] + "..."


def window(value, other, limit=200):
    """A text as it is printed beside another: a long one from the last 16 signs that start before the first byte that differs."""
    whole = value.encode()
    shared = len(os.path.commonprefix([whole, other.encode()]))
    starts = [sign.start() for sign in SIGN.finditer(whole)]
    before = sum(start < shared for start in starts) - 16
    if len(value) <= limit or before <= 0:
        return cut(value, limit)
    return "..." + cut(whole[starts[before]:].decode(), limit)


def leaf_lines(a, b):
    """The lines of the leaves at which two messages differ."""
    for path, values in leaves(a, b):
        texts = [text(value) for _, value in values]
        shown = [cut(texts[0])] if len(texts) == 1 else [window(*texts), window(*reversed(texts))]
        yield from (f"{which} {path_text(path)} {it}" for (which, _), it in zip(values, shown))


def told(ours, theirs):
    """What `diff` is to print of two lists of messages of normal forms, and its status."""
    for number, (a, b) in enumerate(itertools.zip_longest(ours, theirs), 1):
        if a == b and text(a) == text(b):
            continue
        lines = [f"differ {number}"]
        if a is not None and b is not None and head(a) == head(b):
            lines.append(head(a))
            lines += leaf_lines(a[1], b[1])
        else:
            lines += [f"{which} {head(it) if it else 'ends'}" for which, it in (("A", a), ("B", b))]
        return 1, "".join(line + "\n" for line in lines)
    return 0, "same\n"


def main():
    report = Report()
    found = {name: messages(name) for name in CAPTURES}
    paths = {name: os.path.join(EXAMPLES, name + ".rec") for name in CAPTURES}
    leaves_told = 0
    for a, b in itertools.product(CAPTURES, CAPTURES):
        if os.path.basename(a).split("-")[0] != os.path.basename(b).split("-")[0]:
            continue
        status, lines = told(found[a], found[b])
        answer = run(["diff", paths[a], paths[b]])
        report.check(f"diff of {a} and {b}", answer == (status, lines.encode(), b""), repr((answer, status, lines)))
        leaves_told += lines.count("\nA ") + lines.count("\nB ")
    report.check("differences were told", leaves_told > 100, str(leaves_told))
    answer = run(["diff", paths[CAPTURES[0]], os.path.join(EXAMPLES, "no such file")])
    report.check("a file that is not there", answer == (4, b"", b"dapnorm: B: read fault\n"), repr(answer))
    answer = run(["diff", paths[CAPTURES[0]], os.path.join(EXAMPLES, "captures", "debugpy-a-basic.1.trace")])
    report.check("a file that is no recording", (answer[0], answer[1]) == (2, b"") and answer[2].startswith(b"dapnorm: B: record 1: "), repr(answer))
    return report.close()


if __name__ == "__main__":
    sys.exit(main())
