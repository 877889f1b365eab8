"""The tests: the gate `rt ci`, and then the runs around it, one for each processor at a time. The last line is the sum, 'N passed, M failed'."""
import os
import re
import subprocess
import sys
import time
from concurrent.futures import ThreadPoolExecutor

from tests.report import TOP, toolchain

sys.path.append(os.path.join(TOP, "scripts"))
import mutation_record
from gate_cost import Cost

COUNT = re.compile(r"^(\d+) passed, (\d+) failed$")


# The tests after the gate, by their folders, each with what it tests.
SCRIPTS = {
    "program": {
        "examples": "the program on the examples",
        "captures": "the captures of real adapters",
        "recording": "their traces recorded",
        "tracing": "a trace made by hand",
        "typed_recordings": "their messages typed",
        "normal_form": "the normal form",
        "comparing": "recordings compared",
        "per_stop": "names that begin again at each stop",
        "differing": "what differs told",
        "masks": "recordings of fresh runs masked",
        "joining": "output that is joined",
        "filling": "members that are filled in",
        "omitting": "elements that are omitted",
        "order": "recordings in order",
        "names": "names of declared ids",
        "example_rules": "the rules of the examples",
        "showing": "recordings shown",
        "transcripts": "recordings as transcripts and back",
        "command_lines": "the words of command lines",
        "golden": "golden files",
        "ruled": "commands that apply rules",
        "suggest": "rules that are suggested",
        "suggest_fills": "members that suggested rules set",
        "files": "inputs and outputs in files",
        "kept_files": "files that must not be lost",
        "replacing": "links, permissions and temporary files",
        "matching": "all differences of recordings",
        "explaining": "explanations of refusals",
        "explained_commands": "explanations by each command",
        "refusals": "the lines of refusals",
        "limits": "the limits of the program",
        "writes": "how the program writes",
        "messages": "messages and their ids",
        "sessions": "the rules of a session",
        "trees": "contents and their texts",
        "frames": "faults of frames, records and traces",
        "mask_rules": "the rules of masks",
        "leaves": "the leaves of differences",
        "views": "the elements that messages list",
        "fault_injection": "growths of memory refused in turn",
        "hostile": "hostile inputs and failing devices",
    },
    "engines": {
        "driver": "calls of the driver",
        "check": "the engine check",
        "normalise": "the engine normalise",
        "compare": "the engine compare",
        "record": "the engine record",
        "compact": "the engine compact over devices that fail",
        "per_stop": "engines with names that begin again at each stop",
        "streams": "how much engines read",
        "tables": "engines with tables that are handed in",
        "random": "engines on random inputs",
        "growths": "growths of memory of engines refused in turn",
        "limits": "limits that the program does not have",
        "contents": "random contents and their texts",
    },
    "kit": {
        "adapter_kit": "the test kit for adapters",
        "examples": "the examples",
        "how_to": "the how-to pages",
    },
    "documents": {
        "shown_commands": "the commands that documents show",
        "manual": "the man page, completions and installation",
        "usage": "the synopses and the completions",
        "names": "what the documents name",
        "profile": "the document of the profile",
        "contracts": "the document of the contracts",
        "errors": "the document of the errors",
        "architecture": "the document of the crates",
        "library": "the document of the library",
        "benchmarks": "the figures of the benchmarks",
        "prose": "the prose",
        "pictures": "the drawn pictures",
    },
    "tools": {
        "package": "the packages",
        "mutants": "the script of make mutants",
        "scripts": "the scripts and the targets of the Makefile",
    },
}

# What a prover may take at most, in bytes: where memory is short, fewer run side by side.
MOST = 5 << 30


def provers():
    """The number of provers that `rt ci` runs side by side: one for each processor that the process may use, as far as memory holds them.

    `rt ci` takes it from RT_JOBS. Without it, it starts a proof only where its own estimate of the memory fits, so that processors wait."""
    with open("/proc/meminfo", encoding="ascii") as file:
        free = 1024 * int(re.search(r"^MemAvailable:\s+(\d+)", file.read(), re.MULTILINE)[1])
    return max(1, min(len(os.sched_getaffinity(0)), free // MOST))


def counts(last, status):
    """The counts of the last line of a run that ended with this status."""
    found = COUNT.match(last)
    passed, failed = (int(found[1]), int(found[2])) if found else (0, 0)
    if found is None or (status != 0 and failed == 0):
        failed = max(failed, 1)
    return passed, failed


def end_of(name, begun, status):
    return f"== {name}: {(time.monotonic() - begun) / 60:.1f} minutes, status {status}"


def gate():
    """Runs the gate, prints its output as it comes, and returns the counts of its last line."""
    name = "the gate, rt ci"
    print(f"== {name}", flush=True)
    begun = time.monotonic()
    last = ""
    environment = {"RT_JOBS": str(provers()), **os.environ}
    with subprocess.Popen(["rt", "ci"], cwd=TOP, stdout=subprocess.PIPE, text=True, errors="replace", env=environment) as process:
        for line in process.stdout:
            print(line, end="", flush=True)
            last = line.strip() or last
    print(end_of(name, begun, process.returncode), flush=True)
    return counts(last, process.returncode)


def run_script(script):
    """Runs a script, and returns its output with its name and the counts of its last line."""
    module, name = script
    begun = time.monotonic()
    arguments = [sys.executable, "-m", module]
    done = subprocess.run(arguments, cwd=TOP, stdout=subprocess.PIPE, text=True, errors="replace", check=False)
    lines = [it.strip() for it in done.stdout.splitlines() if it.strip()]
    passed, failed = counts(lines[-1] if lines else "", done.returncode)
    return f"== {name}\n{done.stdout}{end_of(name, begun, done.returncode)}", passed, failed


def main():
    toolchain()
    cost = Cost(os.getpid())
    passed, failed = gate()
    cost.close()
    print("\n".join(cost.table() + cost.dearest(20) + mutation_record.table(TOP)), flush=True)
    if failed == 0:
        scripts = [(f"tests.{folder}.{script}", name) for folder, names in SCRIPTS.items() for script, name in names.items()]
        with ThreadPoolExecutor(len(os.sched_getaffinity(0))) as pool:
            for output, more_passed, more_failed in pool.map(run_script, scripts):
                print(output, flush=True)
                passed, failed = passed + more_passed, failed + more_failed
    print(f"{passed} passed, {failed} failed", flush=True)
    return 1 if failed else 0


if __name__ == "__main__":
    sys.exit(main())
