"""Prints the cost of the gate: CPU minutes for each crate's proof, its tests' proof and its must-fail edits; CPU seconds for single edits.

    python3 scripts/gate_cost.py [PROCESS [SECONDS]]

It looks at the running provers once a second, so at most one second of each prover is missing. As a program it watches the provers that
PROCESS has started, by default all provers, until none has run for SECONDS, by default 60. `tests/all.py` prints these tables after
the gate."""
import collections
import glob
import os
import sys
import threading
import time

TOP = os.path.dirname(os.path.dirname(os.path.abspath(__file__)))
TICK = os.sysconf("SC_CLK_TCK")
PARTS = ("proof", "tests", "edits")


def prover(process):
    """The crate and the part that a process proves, its start, and its CPU seconds; None if it is not a prover."""
    try:
        with open(f"{process}/cmdline", "rb") as file:
            words = file.read().decode(errors="replace").split("\0")
        if os.path.basename(words[0]) != "rattle" or "--crate-name" not in words:
            return None
        with open(f"{process}/stat", encoding="utf-8", errors="replace") as file:
            fields = file.read().rsplit(")", 1)[1].split()
        folder = os.readlink(f"{process}/cwd")
    except (OSError, IndexError):
        return None
    crate = words[words.index("--crate-name") + 1]
    part = "edits" if "/rt-edit-" in folder else "tests" if "--test" in words else "proof"
    # Its own time, and the time of its children that have ended.
    return (crate, part), fields[19], sum(int(fields[it]) for it in (11, 12, 13, 14)) / TICK


def is_below(process, root):
    """Whether the process with the number `root` has started this one, directly or through others."""
    number = os.path.basename(process)
    while number not in ("0", "1", str(root)):
        try:
            with open(f"/proc/{number}/stat", encoding="utf-8", errors="replace") as file:
                number = file.read().rsplit(")", 1)[1].split()[1]
        except (OSError, IndexError):
            return False
    return number == str(root)


def row(name, parts):
    return f"{name:26}" + "".join(f"{parts[part]:8.1f}" for part in PARTS) + f"{sum(parts.values()):8.1f}"


class Cost:
    """Collects the CPU time of provers until `close`: of those that the process with the number `root` has started, or of all."""

    def __init__(self, root=None):
        self.root = root
        self.taken = {}
        self.ended = threading.Event()
        self.seen = time.monotonic()
        self.watcher = threading.Thread(target=self.watch, daemon=True)
        self.watcher.start()

    def watch(self):
        while not self.ended.wait(1):
            for process in glob.glob("/proc/[0-9]*"):
                found = prover(process)
                if found and (self.root is None or is_below(process, self.root)):
                    key, begun, seconds = found
                    self.taken[process, begun] = key, seconds
                    self.seen = time.monotonic()

    def close(self):
        self.ended.set()
        self.watcher.join()

    def table(self):
        """The lines of the table, the most expensive crate first."""
        minutes = collections.defaultdict(collections.Counter)
        for (crate, part), seconds in self.taken.values():
            minutes[crate][part] += seconds / 60
        lines = [f"{'CPU minutes':26}" + "".join(f"{part:>8}" for part in PARTS) + f"{'all':>8}"]
        total = collections.Counter()
        for crate, parts in sorted(minutes.items(), key=lambda it: -sum(it[1].values())):
            total += parts
            lines.append(row(crate, parts))
        return [*lines, row("all", total)]

    def dearest(self, count):
        """The lines of the most expensive must-fail edits: CPU seconds, crate and edit.

        `rt ci` tries a crate's edits in the order of their names, each by one prover. The first also proves the crate, and is left out."""
        seconds = collections.defaultdict(list)
        for (_, begun), ((crate, part), taken) in self.taken.items():
            if part == "edits":
                seconds[crate].append((int(begun), taken))
        tried = []
        for crate, times in seconds.items():
            edits = sorted(os.path.basename(it) for it in glob.glob(os.path.join(TOP, "crates", crate, "must-fail", "*.edit")))
            tried += [(taken, f"{crate}/{edit}") for edit, (_, taken) in list(zip(edits, sorted(times)))[1:]]
        lines = [f"{taken:8.1f}  {name}" for taken, name in sorted(tried, reverse=True)[:count]]
        return ["CPU seconds of the most expensive edits", *lines]


def main():
    numbers = sys.argv[1:]
    if len(numbers) > 2 or not all(number.isdigit() for number in numbers):
        sys.exit(__doc__)
    root, seconds = [*map(int, numbers), *(None, 60)[len(numbers):]]
    cost = Cost(root)
    while time.monotonic() - cost.seen < seconds:
        time.sleep(1)
    cost.close()
    print("\n".join(cost.table() + cost.dearest(30)))
    return 0


if __name__ == "__main__":
    sys.exit(main())
