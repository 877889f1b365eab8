"""Runs each script of scripts/ at small sizes and each target of the Makefile, over the programs that the gate built.

The targets run in a scratch copy of the repository, with the built program as bin/dapnorm. A stand-in replaces `rt` there: it proves
nothing, and its `rt try` runs the program that is already built. SCRIPTS and TARGETS name, for each script and each target, the
function below or the other test that runs it. A script or a target without a test is a failure."""
import glob
import json
import os
import re
import shutil
import subprocess
import sys
import tempfile
import time
from typing import NamedTuple

from tests import all as all_tests
from tests.report import PROGRAM, TOP, Report

CAPTURE = os.path.join(TOP, "examples", "captures", "debugpy-l-stopentry.1.rec")
FRAMES = os.path.join(TOP, "examples", "debugpy-adapter.frames")

# Appends each call to a file, and fails if a call would prove something.
RT = """#!/bin/sh
echo "$*" >> "$CALLS"
case "$1" in
try)
    for file in "$3"/*; do
        echo "== $(basename "$file")"
        "$BUILT/dapnorm" normalise < "$file"
        echo "run=ended status=$?" >&2
    done ;;
*)
    echo "this test proves nothing" >&2
    exit 1 ;;
esac
"""
# Writes one byte more than the built program.
ALTERED = """#!/bin/sh
"$BUILT/dapnorm" "$@" && echo
"""
# Uses the processor until it is ended, for at most 30 seconds of its time.
BUSY = "ulimit -t 30; while :; do :; done"


class Scratch(NamedTuple):
    """A copy of the repository, the environment for commands in it, and the files for the calls of `rt` and for figures."""

    tree: str
    environment: dict
    calls: str
    figures: str

    def run(self, *words):
        return subprocess.run(words, cwd=self.tree, env=self.environment, capture_output=True, text=True, timeout=60)

    def make(self, *words):
        return self.run("make", "--no-print-directory", *words)

    def script(self, name, *words):
        return self.run(sys.executable, os.path.join("scripts", name), *words)

    def path(self, *names):
        return os.path.join(self.tree, *names)

    def calls_of_rt(self):
        """Returns the calls since the last time, and forgets them."""
        if not os.path.exists(self.calls):
            return []
        with open(self.calls, encoding="utf-8") as file:
            lines = file.read().splitlines()
        os.remove(self.calls)
        return lines


def write(path, text="", mode=0o644):
    with open(path, "w", encoding="utf-8") as file:
        file.write(text)
    os.chmod(path, mode)
    return path


def not_sources(folder, names):
    """The entries of a folder that the scratch copy leaves out: git's own folder, and what checks and builds write."""
    left_out = {"__pycache__"}
    if folder == TOP:
        left_out |= {".git", "bin", "dist"}
    if os.path.dirname(folder) == os.path.join(TOP, "crates"):
        left_out.add("out")
    return left_out & set(names)


def scratch_copy(folder):
    tree, built, tools, figures = (os.path.join(folder, name) for name in ("tree", "built", "tools", "figures"))
    shutil.copytree(TOP, tree, ignore=not_sources, symlinks=True)
    for path in (built, tools, figures, os.path.join(tree, "bin")):
        os.mkdir(path)
    shutil.copy(PROGRAM, os.path.join(built, "dapnorm"))
    shutil.copy(PROGRAM, os.path.join(tree, "bin", "dapnorm"))
    write(os.path.join(tools, "rt"), RT, 0o755)
    dropped = ("MAKEFLAGS", "MFLAGS", "MAKELEVEL", "PROGRAM", "PROOFS", "PACK", "SIZE", "FIGURES")
    environment = {name: value for name, value in os.environ.items() if name not in dropped}
    calls = os.path.join(folder, "calls")
    environment.update(PATH=tools + os.pathsep + os.environ["PATH"], BUILT=built, CALLS=calls, PYTHONDONTWRITEBYTECODE="1")
    return Scratch(tree, environment, calls, figures)


def output_of(ran):
    return ran.stdout + ran.stderr


def build(report, scratch):
    """`make` keeps a program that is newer than its sources, and would build it again if a source were newer."""
    ran = scratch.make("all")
    report.check("make keeps the built program", (ran.returncode, scratch.calls_of_rt()) == (0, []), output_of(ran))
    kept = scratch.make("--dry-run", "bin/dapnorm").stdout
    source = scratch.path("crates", "dap_device", "src", "lib.rt")
    os.utime(source, (time.time() + 60,) * 2)
    again = scratch.make("--dry-run", "bin/dapnorm").stdout
    report.check("make builds it again if a source is newer", len(again) > len(kept), again)
    os.utime(source, (0, 0))


def install_by_root(report, scratch):
    """`make install` of a built program needs no `rt`: `sudo` replaces PATH. With a source that is newer than the program it does."""
    path, staged = "/usr/bin:/bin", os.path.join(scratch.figures, "staged")
    if shutil.which("rt", path=path) or not shutil.which("python3", path=path):
        print("make install without rt is not tried, since PATH of sudo has rt or lacks python3", flush=True)
        return
    words = ["make", "--no-print-directory", "install", "PREFIX=/usr", f"DESTDIR={staged}"]

    def tried():
        environment = {**scratch.environment, "PATH": path}
        return subprocess.run(words, cwd=scratch.tree, env=environment, capture_output=True, text=True, timeout=60)

    ran = tried()
    good = ran.returncode == 0 and os.path.exists(os.path.join(staged, "usr", "bin", "dapnorm"))
    report.check("make install of a built program needs no rt", good, output_of(ran))
    source = scratch.path("crates", "dap_device", "src", "lib.rt")
    os.utime(source, (time.time() + 60,) * 2)
    ran = tried()
    report.check("make install of an older program needs rt", ran.returncode != 0 and "rt, the command" in ran.stdout, output_of(ran))
    os.utime(source, (0, 0))
    shutil.rmtree(staged)


def help_lists(report, scratch):
    """`make help` lists each target that a user runs."""
    ran = scratch.make("help")
    listed = set(re.findall(r"\bmake (\w+)", ran.stdout)) | {"all", "test"}
    wanted = {it for it in targets() if "/" not in it} | {"test"}
    report.check("make help lists the targets", ran.returncode == 0 and listed >= wanted, repr(wanted - listed) + output_of(ran))
    report.check("make help prints no comment sign", "#" not in ran.stdout, ran.stdout)


def documents(report, scratch):
    """`make documents` writes what the documents of the sources have."""
    paths = [os.path.join("docs", name) for name in sorted(os.listdir(os.path.join(TOP, "docs"))) if name != "reference"]
    write(scratch.path("docs", "CONTRACTS.md"))
    ran = scratch.make("documents")
    report.check("make documents ends well", ran.returncode == 0, output_of(ran))
    for path in paths:
        with open(scratch.path(path), encoding="utf-8") as file:
            report.check(f"make documents writes {path} as it is", file.read() == read(path))
    written = os.path.exists(scratch.path("docs", "reference", "dap_normalise.md"))
    report.check("make documents writes the contracts of each crate", written)


def figures_of(scratch, name):
    """The rows of figures that a benchmark has written."""
    try:
        with open(os.path.join(scratch.figures, f"{name}.json"), encoding="utf-8") as file:
            return json.load(file)["figures"]
    except (OSError, ValueError, KeyError):
        return []


# The commands that the benchmarks measure, and options that they reject.
MEASURED = {
    "bench": "check compact compare diff golden mask normalise order record show suggest",
    "costs": "check compact compare mask name normalise order record suggest",
}
WRONG_OPTIONS = [
    ("--size", "smal", "invalid choice"), ("--program", "nothing", "is not a program"), ("--json", "no/such", "does not exist"),
]


def bench(report, scratch):
    """`make bench` at the small size; its scripts reject another output, and arguments that are wrong."""
    ran = scratch.make("bench", "SIZE=small", f"FIGURES={scratch.figures}")
    report.check("make bench ends well", ran.returncode == 0, output_of(ran))
    calls = scratch.calls_of_rt()
    report.check("it proves nothing", calls == [], repr(calls))
    for name, commands in MEASURED.items():
        rows = figures_of(scratch, name)
        found = {row["command"].split()[0] for row in rows if row["program"] == "dapnorm"}
        report.check(f"{name}.py measures each command", sorted(found) == commands.split(), repr(found))
        columns = ("bytes", "seconds", "memory")
        report.check(f"{name}.py writes its figures", len(rows) > 20 and all(row[it] > 0 for row in rows for it in columns), repr(rows))
    altered = write(os.path.join(scratch.figures, "altered"), ALTERED, 0o755)
    for name, words in (("bench.py", "wrote different bytes"), ("costs.py", "did not write the expected output")):
        ran = scratch.script(name, "--size", "small", "--program", altered)
        report.check(f"{name} rejects another output", ran.returncode == 1 and words in ran.stderr, output_of(ran))
        for option, value, words in WRONG_OPTIONS:
            ran = scratch.script(name, option, value)
            report.check(f"{name} rejects {option} {value}", ran.returncode == 2 and words in ran.stderr, output_of(ran))


def compare_programs(report, scratch):
    """Random runs of the program and itself, and of an altered one."""
    altered = write(os.path.join(scratch.figures, "altered"), ALTERED, 0o755)
    for other, status, words in (("bin/dapnorm", 0, "60 runs, 0 differ"), (altered, 1, "normalise")):
        ran = scratch.script("compare_programs.py", "bin/dapnorm", other, "--to", "60")
        good = ran.returncode == status and words in ran.stdout
        report.check(f"compare_programs.py with {os.path.basename(other)}", good, output_of(ran))


def first_look(report, scratch):
    """`make try` with the built program, and with a program that it builds by `rt try`."""
    for words, calls in (((), []), (("PROGRAM=absent",), ["try --cases"])):
        ran = scratch.make("try", *words)
        last = ["", *ran.stdout.splitlines()][-1]
        report.check("make try ends well", ran.returncode == 0 and last.startswith("The two outputs are equal: "), output_of(ran))
        found = [" ".join(call.split()[:2]) for call in scratch.calls_of_rt()]
        report.check(f"make try calls {calls or 'no rt'}", found == calls, repr(found))


def clean(report, scratch):
    """`make clean` removes what is built and no source."""
    sources = {path for path in files_of(scratch.tree) if not path.startswith(("bin/", "docs/reference/")) and "/out/" not in path}
    for folder in (("bin",), ("dist",), ("crates", "dap_device", "out", "incremental")):
        os.makedirs(scratch.path(*folder), exist_ok=True)
        write(scratch.path(*folder, "built"))
    ran = scratch.make("clean")
    report.check("make clean ends well", ran.returncode == 0, output_of(ran))
    left = set(files_of(scratch.tree))
    report.check("make clean removes what is built and no source", left == sources, repr(sorted(left ^ sources)))


def files_of(folder):
    return [os.path.relpath(os.path.join(at, name), folder) for at, _, names in os.walk(folder) for name in names]


def one_direction(report, scratch):
    with open(CAPTURE, "rb") as file:
        recording = file.read()
    with open(FRAMES, "rb") as file:
        frames = file.read()
    words = [sys.executable, scratch.path("scripts", "one_direction.py")]
    ran = subprocess.run([*words, "adapter"], input=recording, capture_output=True)
    report.check("one_direction.py prints the frames of the adapter", (ran.returncode, ran.stdout) == (0, frames), repr(ran.stderr))
    for wrong in ([], ["server"], ["client", "adapter"]):
        ran = subprocess.run([*words, *wrong], input=recording, capture_output=True)
        good = (ran.returncode, ran.stdout) == (1, b"") and b"one_direction.py adapter" in ran.stderr
        report.check(f"one_direction.py rejects {wrong}", good, repr(ran.stderr))


# When a prover wrote its files, in seconds.
WRITTEN = {
    "Rattle-probe": 10, "Rattle-probe-proofs.scan.Scan.step.Kinds": 13, "Rattle-probe-specs.Lines": 20,
    "Rattle-probe-proofs.scan.Scan.step.Symbol.decls": 21.5,
}
SLOWEST, TOTAL = ["7.0  specs.Lines", "4.5  proofs.scan.Scan.step"], "11.5  all"


def proof_times(report, scratch):
    """A function takes, for each of its files, the time since the file that was written before."""
    folder = scratch.path("crates", "probe", "out", "incremental", "checked")
    os.makedirs(folder)
    for name, second in WRITTEN.items():
        path = write(os.path.join(folder, f"{name}.oantt"))
        os.utime(path, (1_000_000_000 + second,) * 2)
    for words, lines in ((["probe"], [*SLOWEST, TOTAL]), (["probe", "1"], [SLOWEST[0], TOTAL])):
        ran = scratch.script("proof_times.py", *words)
        found = [line.strip() for line in ran.stdout.splitlines()]
        report.check(f"proof_times.py {' '.join(words)} prints the slowest", found == lines, output_of(ran))
    for wrong, words in (([], "CRATE [N]"), (["probe", "some"], "CRATE [N]"), (["absent"], "has no files")):
        ran = scratch.script("proof_times.py", *wrong)
        report.check(f"proof_times.py rejects {wrong}", ran.returncode == 1 and words in ran.stderr, output_of(ran))
    shutil.rmtree(scratch.path("crates", "probe"))


# What provers took, as the gate's watcher collects it: process, start, crate, part and CPU seconds.
TAKEN = [
    (1, "10", "low", "proof", 120), (2, "20", "low", "edits", 60), (3, "30", "low", "edits", 30), (4, "40", "low", "edits", 12),
    (5, "15", "high", "proof", 66), (6, "16", "high", "tests", 600), (7, "70", "single", "edits", 90),
]
COST = """
CPU minutes                  proof   tests   edits     all
high                           1.1    10.0     0.0    11.1
low                            2.0     0.0     1.7     3.7
single                         0.0     0.0     1.5     1.5
all                            3.1    10.0     3.2    16.3
CPU seconds of the most expensive edits
    30.0  low/second.edit
"""


def probe_edits(scratch, crate, names):
    folder = scratch.path("crates", crate, "must-fail")
    os.makedirs(folder)
    for name in names:
        write(os.path.join(folder, f"{name}.edit"))


def cost_table(report, scratch):
    """The tables of the gate's cost for a crate with two edits, one with tests and no edit, and one with one edit."""
    probe_edits(scratch, "low", ("first", "second"))
    probe_edits(scratch, "single", ("lone",))
    code = (
        "import gate_cost, json, sys\ncost = gate_cost.Cost(0)\ncost.close()\n"
        "cost.taken = {(f'/proc/{n}', begun): ((crate, part), seconds) for n, begun, crate, part, seconds in json.loads(sys.argv[1])}\n"
        "print('\\n'.join(cost.table() + cost.dearest(30)))\n"
    )
    environment = {**scratch.environment, "PYTHONPATH": scratch.path("scripts")}
    ran = subprocess.run([sys.executable, "-c", code, json.dumps(TAKEN)], env=environment, capture_output=True, text=True, timeout=60)
    report.check("gate_cost.py adds up what provers took", ran.stdout.strip() == COST.strip(), output_of(ran))
    for crate in ("low", "single"):
        shutil.rmtree(scratch.path("crates", crate))


def prover(folder, *words):
    """A process with the command line of a prover of the crate `probe`."""
    return subprocess.Popen(["rattle", "-c", BUSY, "--crate-name", "probe", *words], executable="/bin/sh", cwd=folder)


def run_provers(scratch, edits):
    """Runs processes that look like the provers of a proof, of tests and, one after the other, of two edits."""
    begun = [prover(scratch.tree), prover(scratch.tree, "--test"), prover(edits)]
    try:
        # Long enough for a busy machine, on which the watcher starts late.
        time.sleep(4)
        begun[-1].kill()
        begun.append(prover(edits))
        time.sleep(3)
    finally:
        for process in begun:
            process.kill()
            process.wait()


def gate_cost(report, scratch):
    """The cost of these processes, as the script prints it."""
    cost_table(report, scratch)
    probe_edits(scratch, "probe", ("first", "second"))
    edits = os.path.join(scratch.figures, "rt-edit-probe")
    os.mkdir(edits)
    words = [sys.executable, scratch.path("scripts", "gate_cost.py"), str(os.getpid()), "2"]
    with subprocess.Popen(words, env=scratch.environment, stdout=subprocess.PIPE, text=True) as watcher:
        run_provers(scratch, edits)
        out = watcher.communicate(timeout=30)[0]
    found = re.findall(r"^ +(\d+\.\d)  probe/(\w+)\.edit$", out, re.MULTILINE)
    good = [name for _, name in found] == ["second"] and 0 < float(found[0][0]) < 10
    report.check("gate_cost.py finds the prover of the second edit", good, out)
    lines = re.findall(r"^(\w+) +(?:\d+\.\d +){3}\d+\.\d$", out, re.MULTILINE)
    report.check("gate_cost.py prints the crate", lines == ["probe", "all"], out)
    ran = scratch.script("gate_cost.py", "all")
    report.check("gate_cost.py rejects a word", ran.returncode == 1 and "PROCESS" in ran.stderr, output_of(ran))
    shutil.rmtree(scratch.path("crates", "probe"))


# The function that runs a script, or the test that does.
SCRIPTS = {
    "bench.py": bench, "compact_reference.py": bench, "compare_reference.py": bench, "costs.py": bench, "generated_inputs.py": bench,
    "measured.py": bench, "measuring.py": bench, "normalise_reference.py": bench, "record_reference.py": bench, "show_reference.py": bench,
    "compare_programs.py": compare_programs,
    "first_look.py": first_look, "gate_cost.py": gate_cost, "one_direction.py": one_direction, "proof_times.py": proof_times,
    **dict.fromkeys(["kit.py", "make_package.py", "pack_file.py", "proof_pack.py", "prove_all.py", "side_by_side.py"], "tools/package.py"),
    **dict.fromkeys(["mutants.py", "mutation_record.py", "mutation_rounds.py", "mutation_scratch.py", "mutation_source.py"], "tools/mutants.py"),
}
# The function that runs a target, or the test that does.
TARGETS = {
    "all": build, "bin/dapnorm": build, "bench": bench, "try": first_look, "clean": clean,
    "documents": documents, "help": help_lists,
    "install": install_by_root, "uninstall": "documents/manual.py",
    "dist": "tools/package.py", "proofs": "tools/package.py", "bin/dapnorm.proofs": "tools/package.py",
    "mutants": "tools/mutants.py",
    "real": "kit/adapter_kit.py",
}


# Programs of tests/ that are not tests: one that a test starts.
NOT_TESTS = ("kit/fake_adapter.py",)


def targets():
    """The targets of the Makefile, except `test`, which runs this script, and those that only check that a tool is found."""
    ran = subprocess.run(["make", "-pRrq"], cwd=TOP, env={**os.environ, "LC_ALL": "C"}, capture_output=True, text=True)
    rules = ran.stdout.split("\n# Files\n")[1].split("\n# files hash-table stats")[0]
    found = re.findall(r"(?:^|(?<!# Not a target:)\n)([^\s#:][^\n:]*):(?!=)", rules)
    return {name for name in found if name != "test" and not name.startswith((".", "need-"))}


def read(*path):
    with open(os.path.join(TOP, *path), encoding="utf-8") as file:
        return file.read()


def texts_of(test, scripts):
    """The text of a test, and the texts of the scripts that it names, directly or through others."""
    texts, rest = [read("tests", test)], set(scripts)
    for text in texts:
        for name in sorted(rest):
            if re.search(rf"\b{name.removesuffix('.py')}\b", text):
                rest.remove(name)
                texts.append(read("scripts", name))
    return "\n".join(texts)


def tables(report):
    """tests/all.py runs each test, each script and each target is in its table, and a test that a table names also names what it runs."""
    listed = {f"{folder}/{name}.py" for folder, names in all_tests.SCRIPTS.items() for name in names}
    scripts = {os.path.basename(path) for path in glob.glob(os.path.join(TOP, "scripts", "*.py"))}
    for folder in all_tests.SCRIPTS:
        for path in sorted(glob.glob(os.path.join(TOP, "tests", folder, "*.py"))):
            name = f"{folder}/{os.path.basename(path)}"
            if name not in NOT_TESTS and 'if __name__ == "__main__":' in read(path):
                report.check(f"tests/all.py runs tests/{name}", name in listed)
    for kind, there, table in (("script", scripts, SCRIPTS), ("target", targets(), TARGETS)):
        report.check(f"there are {kind}s", len(there) > 5, repr(there))
        for name in sorted(there | set(table)):
            report.check(f"a test runs the {kind} {name}", name in table)
            report.check(f"the {kind} {name} exists", name in there)
        for name, test in sorted(table.items()):
            if isinstance(test, str) and report.check(f"tests/{test} exists", os.path.exists(os.path.join(TOP, "tests", test))):
                is_named = re.search(rf"\b{name.removesuffix('.py')}\b", texts_of(test, scripts - {name}))
                report.check(f"tests/{test} runs the {kind} {name}", test in listed and is_named)


def main():
    report = Report()
    tables(report)
    if not report.check(f"the gate has built {os.path.relpath(PROGRAM, TOP)}", os.access(PROGRAM, os.X_OK)):
        return report.close()
    with tempfile.TemporaryDirectory() as folder:
        scratch = scratch_copy(folder)
        # `clean` comes last, since it removes the program.
        for run in dict.fromkeys([*SCRIPTS.values(), *TARGETS.values()]):
            if run is not clean and not isinstance(run, str):
                run(report, scratch)
        clean(report, scratch)
    return report.close()


if __name__ == "__main__":
    sys.exit(main())
