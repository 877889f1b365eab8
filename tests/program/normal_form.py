"""Takes recordings through `normalise`: those of real adapters, a golden file, and the example of the document."""
import hashlib
import itertools
import json
import os
import sys

from tests.program.captures import REFUSED_RECORDINGS
from tests.report import PROGRAM, TOP, Report, run

sys.path.insert(0, os.path.join(TOP, "scripts"))
from normalise_reference import CAPABILITIES, normal_records, normalised

CAPTURES = os.path.join(TOP, "examples", "captures")

# Two runs of one session each, with other numbers.
PAIRS = [
    ("dlv-l-stopentry.3.rec", "dlv-l-stopentry.5.rec"),
    ("lldb14-k-badlaunch.1.rec", "lldb14-k-badlaunch.5.rec"),
    ("rdbg-e-errors.3.rec", "rdbg-e-errors.5.rec"),
]


def read(*path):
    with open(os.path.join(TOP, *path), "rb") as file:
        return file.read()


def leading(recording, count, per_stop=False):
    """The normal form of so many leading records, as the script has it."""
    return b"".join(itertools.islice(normal_records({}, recording, per_stop=per_stop), count))


def captures(report):
    names = sorted(name for name in os.listdir(CAPTURES) if name.endswith(".rec"))
    report.check("each recording is there", len(names) == 15, str(len(names)))
    normal = {}
    for name in names:
        recording = read("examples", "captures", name)
        status, written, errors = run(["normalise"], recording)
        if name in REFUSED_RECORDINGS:
            line = f"dapnorm: {REFUSED_RECORDINGS[name]}\n".encode()
            before = int(REFUSED_RECORDINGS[name].split()[1].rstrip(":")) - 1
            report.check(f"{name} is refused", (status, errors) == (2, line), repr((status, errors)))
            report.check(f"{name}: the normal form of the records before is written", written == leading(recording, before), repr(len(written)))
            continue
        report.check(f"{name} is normalised", (status, errors) == (0, b""), repr((status, errors)))
        report.check(f"{name}: its normal form is the script's too", written == normalised(recording))
        report.check(f"{name}: a second run changes nothing", run(["normalise"], written) == (0, written, b""))
        answer = run(["check"], written)
        report.check(f"{name}: its normal form is accepted with the same numbers", answer[0] == 0 and answer == run(["check"], recording), repr(answer))
        normal[name] = written
    for one, other in PAIRS:
        report.check(f"{one} and {other} have one normal form", one in normal and normal[one] == normal.get(other))
    report.check("no other two do", len(set(normal.values())) == len(normal) - len(PAIRS))


def old_golden_files(report):
    """What the program wrote when its profile had 139 rows is normalised to what it writes now. Of the captures the digests were kept."""
    digests = dict(reversed(line.split()) for line in read("examples", "captures", "normal-by-139-rows.sha256").decode().splitlines())
    accepted = {name for name in os.listdir(CAPTURES) if name.endswith(".rec")} - set(REFUSED_RECORDINGS)
    report.check("each capture that was accepted has a digest", digests.keys() == accepted, repr(sorted(digests)))
    changed = set()
    for name, digest in sorted(digests.items()):
        recording = read("examples", "captures", name)
        old, new = normalised(recording, first_rows=True), normalised(recording)
        report.check(f"{name}: the script writes what the program wrote", hashlib.sha256(old).hexdigest() == digest)
        report.check(f"{name}: its old golden file is normalised to the new one", run(["normalise"], old) == (0, new, b""))
        changed |= {name} if old != new else set()
    report.check("some have other numbers now", len(changed) == 7, repr(sorted(changed)))


def golden_file(report):
    golden = read("examples", "dlv-stopentry.golden")
    for name in ("dlv-l-stopentry.3.rec", "dlv-l-stopentry.5.rec"):
        answer = run(["normalise"], read("examples", "captures", name))
        report.check(f"the golden file is the normal form of {name}", answer == (0, golden, b""))


def session(lines):
    """The recording of messages that stand as the document writes them."""
    out = []
    for line in lines:
        content = line[2:].encode()
        out.append(b"%sContent-Length: %d\r\n\r\n%s\n" % (line[:1].encode(), len(content), content))
    return b"".join(out)


def example(report):
    document = read("docs", "NORMAL-FORM.md").decode()
    before, after = document.split("<!-- before -->")[1].split("<!-- after -->")
    told = [[line.strip() for line in part.splitlines() if line.startswith("    ")] for part in (before, after)]
    capabilities = json.dumps({name: False for name in CAPABILITIES}, separators=(",", ":"))
    wanted = session(line.replace("{CAPABILITIES}", capabilities) for line in told[1])
    report.check("the document has an example", len(told[0]) == len(told[1]) > 0)
    answer = run(["normalise"], session(told[0]))
    report.check("the document's example is what the program does", answer == (0, wanted, b""), repr(answer))


def main():
    report = Report()
    if not report.check("the gate has built the program", os.access(PROGRAM, os.X_OK)):
        return report.close()
    captures(report)
    golden_file(report)
    old_golden_files(report)
    example(report)
    return report.close()


if __name__ == "__main__":
    sys.exit(main())
