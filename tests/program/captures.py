"""Takes each recording of a real adapter through `check`, and each side of it through `compact`."""
import json
import os
import sys

from tests.report import PROGRAM, TOP, Report, run

sys.path.insert(0, os.path.join(TOP, "scripts"))
from one_direction import one_direction, records

CAPTURES = os.path.join(TOP, "examples", "captures")

# The one side that is refused, and where its first fraction is, of the frames of that side.
REFUSED = {("lldb16-a-basic.1.rec", "adapter"): 191}

# The recordings that are refused, and those in which requests stay open.
REFUSED_RECORDINGS = {
    "dlv-e-errors.1.rec": "record 57: OtherCommand",
    "lldb16-a-basic.1.rec": "record 364: Fraction",
    "perl-a-basic.1.rec": "record 4: Missing row 1",
}
OPEN = {"rdbg-e-errors.3.rec": (1, 0), "rdbg-e-errors.5.rec": (1, 0)}
OTHER = {"client": "adapter", "adapter": "client"}


def canonical(content):
    """The canonical form of a content, by Python's own JSON. It orders names by characters, as UTF-8 orders their bytes."""
    return json.dumps(json.loads(content), sort_keys=True, separators=(",", ":"), ensure_ascii=False).encode()


def counts(recording):
    """How many records there are, and how many requests of each side no response of the other side answers."""
    asked, answered, number = {"client": [], "adapter": []}, {"client": set(), "adapter": set()}, 0
    for side, _, content in records(recording):
        number += 1
        message = json.loads(content)
        if message["type"] == "request":
            asked[side].append(message["seq"])
        elif message["type"] == "response":
            answered[OTHER[side]].add(message["request_seq"])
    return number, tuple(sum(seq not in answered[side] for seq in asked[side]) for side in ("client", "adapter"))


def check_recording(report, name, recording):
    for arguments in (["check"], ["check", "--complete"]):
        answer = run(arguments, recording)
        title = f"{name}: {' '.join(arguments)}"
        if name in REFUSED_RECORDINGS:
            wanted = (2, b"", f"dapnorm: {REFUSED_RECORDINGS[name]}\n".encode())
            report.check(f"{title} refuses it", answer == wanted, repr(answer))
            continue
        number, (client, adapter) = counts(recording)
        report.check(f"{name}: its open requests are known", (client, adapter) == OPEN.get(name, (0, 0)), repr((client, adapter)))
        if "--complete" in arguments and (client, adapter) != (0, 0):
            wanted = (2, b"", f"dapnorm: incomplete: {client} client, {adapter} adapter\n".encode())
        else:
            wanted = (0, f"accepted records={number} open={client},{adapter}\n".encode(), b"")
        report.check(f"{title} tells its numbers", answer == wanted, repr(answer))


def compact_sides(report, name, recording):
    for side in ("client", "adapter"):
        frames, contents = one_direction(recording, side)
        answer = run(["compact"], b"".join(frames))
        if (name, side) in REFUSED:
            line = f"dapnorm: record {REFUSED[name, side]}: Fraction\n".encode()
            report.check(f"{name}: the {side}'s fraction is refused", answer == (2, b"", line), repr(answer))
        else:
            wanted = b"".join(b"Content-Length: %d\r\n\r\n%s" % (len(text), text) for text in map(canonical, contents))
            report.check(f"{name}: the {side}'s contents come out canonical", contents and answer == (0, wanted, b""))


def main():
    report = Report()
    if not report.check("the gate has built the program", os.access(PROGRAM, os.X_OK)):
        return report.close()
    names = sorted(name for name in os.listdir(CAPTURES) if name.endswith(".rec"))
    report.check("each recording is there", len(names) == 15, str(len(names)))
    for name in names:
        with open(os.path.join(CAPTURES, name), "rb") as file:
            recording = file.read()
        check_recording(report, name, recording)
        compact_sides(report, name, recording)
    return report.close()


if __name__ == "__main__":
    sys.exit(main())
