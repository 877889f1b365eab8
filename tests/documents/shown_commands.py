"""Runs each block of dapnorm's commands that the README, the man page, COMMANDS.md, HOWTO.md, RULES.md and the help show: as it is written, with
each of its input files damaged, and with each of its commands failing. No golden file may come out of it that the block as it is written would
not write."""
import os
import re
import shutil
import subprocess
import sys
import tempfile

from tests.report import PROGRAM, TOP, Report, run

EXAMPLES = os.path.join(TOP, "examples")
CAPTURES = os.path.join(EXAMPLES, "captures")
COMMANDS = ("golden", "record", "check", "normalise", "compare", "diff", "show", "compact", "mask", "rows")
# Two runs of one session, whose normal forms are equal, in the names that the blocks give them.
INPUTS = {
    "session.trace": os.path.join(CAPTURES, "dlv-l-stopentry.3.trace"), "later.trace": os.path.join(CAPTURES, "dlv-l-stopentry.5.trace"),
    "session.rec": os.path.join(CAPTURES, "dlv-l-stopentry.3.rec"), "later.rec": os.path.join(CAPTURES, "dlv-l-stopentry.5.rec"),
    "session.frames": os.path.join(EXAMPLES, "debugpy-adapter.frames"),
    "lldb.rules": os.path.join(EXAMPLES, "rules", "lldb.rules"), "delve.rules": os.path.join(EXAMPLES, "rules", "delve.rules"),
    "examples/rules/debugpy.rules": os.path.join(EXAMPLES, "rules", "debugpy.rules"),
}
# The golden file of a block, in each form, and what is there before: that of this session. There may also be one of another session, or none.
GOLDEN = {it: os.path.join(EXAMPLES, "dlv-stopentry" + it) for it in (".golden.yaml", ".golden")}
OTHER = os.path.join(CAPTURES, "rdbg-e-errors.3.rec")
# The program in the place of the built one, of whose calls the one with the number FAILING fails after half of its output.
SHIM = """#!/bin/sh
echo >> "$CALLS"
if test "$(wc -l < "$CALLS")" -eq "$FAILING"; then "$BUILT" "$@" | head -c 300; exit 137; fi
exec "$BUILT" "$@"
"""


def read(path):
    try:
        with open(path, "rb") as file:
            return file.read()
    except FileNotFoundError:
        return None


def write(path, content):
    with open(path, "wb") as file:
        file.write(content)


def indented(path):
    """The indented blocks of a document, without comments at the ends of lines."""
    text = re.sub(r" +# .*", "", read(path).decode())
    return [block.group().replace("\n    ", "\n").strip() for block in re.finditer(r"(?:^    .*\n)+", text, re.MULTILINE)]


def blocks():
    """The blocks of which each line is a command of dapnorm, each with the document that shows it."""
    manual = read(os.path.join(TOP, "docs", "dapnorm.1")).decode()
    shown = [("the README", it) for it in indented(os.path.join(TOP, "README.md"))]
    shown += [(name, it) for name in ("COMMANDS.md", "HOWTO.md", "RULES.md") for it in indented(os.path.join(TOP, "docs", name))]
    shown += [("the man page", it.strip()) for it in re.findall(r"^\.Bd -literal.*\n((?:.*\n)*?)\.Ed", manual, re.MULTILINE)]
    shown += [(f"the help of {it}", re.search(r"^Example: (.*)$", run([it, "--help"])[1].decode(), re.MULTILINE)[1]) for it in COMMANDS]
    return [(where, it) for where, it in shown if all(line.startswith("dapnorm ") for line in it.splitlines())]


def form(block):
    """The end of the name of the block's golden file."""
    return next((it for it in GOLDEN if "session" + it in block), ".golden")


class Run:
    """A block run by a shell in a folder of its own: the status and the golden file that it leaves."""

    def __init__(self, block, golden=None, damaged=None, content=None, failing=0):
        own = "session" + form(block)
        with tempfile.TemporaryDirectory() as folder:
            os.makedirs(os.path.join(folder, "examples", "rules"))
            for name, source in INPUTS.items():
                shutil.copy(source, os.path.join(folder, name))
            if golden is not None:
                shutil.copy(golden, os.path.join(folder, own))
            if damaged is not None and content is None:
                os.remove(os.path.join(folder, damaged))
            elif damaged is not None:
                write(os.path.join(folder, damaged), content)
            with tempfile.TemporaryDirectory() as programs:
                self.run(block, folder, programs, failing)
            self.golden = read(os.path.join(folder, own))
            self.left = set(os.listdir(folder)) - {"examples", own, *INPUTS}

    def run(self, block, folder, programs, failing):
        with open(os.path.join(programs, "dapnorm"), "w", encoding="utf-8") as file:
            file.write(SHIM)
        os.chmod(file.name, 0o755)
        environment = {**os.environ, "PATH": f"{programs}:{os.environ['PATH']}", "BUILT": PROGRAM, "FAILING": str(failing)}
        environment["CALLS"] = os.path.join(programs, "calls")
        ran = subprocess.run(["sh", "-c", block], cwd=folder, capture_output=True, env=environment, timeout=120)
        self.status, self.told = ran.returncode, ran.stdout + ran.stderr


def damages(name):
    """Contents in the place of an input file, each with its name. A part of a file of rules may be rules too, so that is no damage."""
    whole = read(INPUTS[name])
    yield "missing", None
    if name.endswith((".rules", ".mask")):
        yield "no rules", b"blank everything\n"
        return
    yield "empty", b""
    yield "cut in half", whole[:len(whole) // 2]
    yield "cut in its last byte", whole[:-1]
    yield "something else", b"no session\n"


def inputs(block):
    """The input files of a block."""
    return [name for name in INPUTS if re.search(rf"(?<!-o ){re.escape(name)}", block)]


def normal(golden, block):
    """Whether a golden file is accepted and in normal form; in that of `--per-stop` if the block has this option."""
    if golden is None:
        return False
    mode = ["--per-stop"] if "--per-stop" in block else []
    with tempfile.NamedTemporaryFile() as file:
        write(file.name, golden)
        status, written, _ = run(["normalise", *mode, file.name])
    if form(block) == ".golden.yaml":
        written = run(["show", "--yaml"], written)[1]
    return status == 0 and written == golden != b""


def tried(report, where, block):
    """A block over a folder without golden file and with two of them."""
    same = GOLDEN[form(block)]
    for golden in (None, same, OTHER) if "--update" in block else (same,):
        before = None if golden is None else read(golden)
        good = Run(block, golden)
        report.check(f"{where}: {block}", good.status == 0, repr(good.told))
        report.check(f"{where} leaves a golden file: {block}", normal(good.golden, block))
        bad = [(f"{name} {how}", Run(block, golden, name, content)) for name in inputs(block) for how, content in damages(name)]
        bad += [(f"call {number} fails", Run(block, golden, failing=number)) for number in range(1, block.count("dapnorm ") + 1)]
        for how, after in bad:
            report.check(f"{how}, no wrong golden file: {block}", after.golden in (before, good.golden), repr(after.told))
            report.check(f"{how}, no other file is left: {block}", after.left <= good.left, repr(after.left))
        if block.count("dapnorm ") == 1:
            for how, after in bad:
                report.check(f"{how}, the status says so: {block}", after.status != 0 or "empty" in how and "golden" not in block, repr(after.told))


def main():
    report = Report()
    if not report.check("the gate has built the program", os.access(PROGRAM, os.X_OK)):
        return report.close()
    shown = blocks()
    from_documents = {where for where, _ in shown}
    report.check("the README, the man page and each help show blocks", len(from_documents) >= 2 + len(COMMANDS), repr(from_documents))
    for where, block in shown:
        tried(report, where, block)
    return report.close()


if __name__ == "__main__":
    sys.exit(main())
