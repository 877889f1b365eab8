"""Tries the wrong bodies of crates, those of must-fail/ and those of mutants/: the prover must refuse each.

Many are tried in one check, at most one for each function, over what `make` kept. The check proves only the functions that they
change. An edit that it does not refuse for a reason of its own is tried alone, as `rt must-fail` does. The last line is
'N passed, M failed'. The record of what passed is crates/mutants.json; --table prints it and proves nothing."""
import argparse
import contextlib
import os
import signal
import sys
import threading
import time
from concurrent.futures import FIRST_COMPLETED, ThreadPoolExecutor, wait
from typing import Callable, Dict, Iterator, List, NamedTuple, Optional

import kit
import mutation_record
from mutation_record import TIERS
from mutation_rounds import Edit, Output, Verdict, in_rounds, is_readable, joined, judged, only, read_edits, tried_alone
from mutation_scratch import Interrupted, Scratch

TOP = os.path.dirname(os.path.dirname(os.path.abspath(__file__)))
JOBS = ["--jobs", "1"]
# The status of a check that was asked for a function that it does not find.
NOT_FOUND = 2


class Task(NamedTuple):
    """One check: the memory that it may need, in bytes, and a call that runs it and gives the tasks that follow."""

    need: int
    call: Callable[[], List["Task"]]


class Report:
    """Prints each verdict as it comes, and counts."""

    def __init__(self, count: int):
        self.count = count
        self.lock = threading.Lock()
        self.verdicts: Dict[str, List[Verdict]] = {}

    def add(self, verdict: Verdict) -> None:
        with self.lock:
            self.verdicts.setdefault(verdict.edit.crate, []).append(verdict)
            print(f"{verdict.edit.label()}: {verdict.line}", flush=True)

    def failed(self, crate: str) -> int:
        return sum(not it.is_refused for it in self.verdicts.get(crate, []))

    def close_crate(self, crate: str, seconds: float) -> None:
        with self.lock:
            tried, all_tried = len(self.verdicts.get(crate, [])), sum(len(it) for it in self.verdicts.values())
            failed = self.failed(crate)
            counted = f"{tried - failed} passed, {failed} failed, {seconds / 60:.1f} processor minutes"
            print(f"== {crate}: {counted} ({all_tried} of {self.count} edits)", flush=True)


class CrateRun:
    """Tries the edits of one crate: first the crate without any, then the rounds, then what has to be tried alone."""

    def __init__(self, scratch: Scratch, name: str, report: Report):
        self.scratch, self.report, self.name = scratch, report, name
        self.crate = scratch.crates[name]
        self.is_proved = scratch.is_proved(name)
        self.need = scratch.need(name)
        self.lock = threading.Lock()
        self.left = 1

    def task(self, call: Callable[[], List[Task]]) -> Task:
        return Task(self.need, lambda: self.counted(call))

    def counted(self, call: Callable[[], List[Task]]) -> List[Task]:
        """Runs a task, and closes the crate when its last one has ended."""
        more = call()
        with self.lock:
            self.left += len(more) - 1
            is_done = self.left == 0
        if is_done:
            self.scratch.forget(self.name)
            self.report.close_crate(self.name, self.scratch.seconds.get(self.name, 0.0))
        return more

    def begin(self) -> List[Task]:
        """Sees that the crate is proved without any edit, and puts the edits into rounds."""
        edits = read_edits(self.scratch.rt, self.crate, TIERS)
        why = self.why_unproved()
        for edit in [it for it in edits if it.why or why]:
            self.report.add(Verdict(edit, False, f"FAILED: {'BAD EDIT: ' + edit.why if edit.why else why}"))
        good = [it for it in edits if not it.why and not why]
        rounds = in_rounds([it for it in good if it.functions])
        alone = [it for it in good if not it.functions]
        print(f"{self.name}: {len(edits)} edits, {len(rounds)} rounds, {len(alone)} alone", flush=True)
        return [self.task(lambda it=it: self.round(it)) for it in rounds] + [self.task(lambda it=it: self.alone(it)) for it in alone]

    def why_unproved(self) -> str:
        """Proves the crate if no earlier run has kept that, and returns why it is not proved, if so."""
        kept = self.scratch.base(self.name)
        if self.is_proved:
            return ""
        ran = self.scratch.check(self.crate, {}, JOBS, kept)
        return f"the crate is not proved without any edit: {Output(ran.stdout).first_error()[:300]}" if ran.returncode else ""

    def round(self, edits: List[Edit]) -> List[Task]:
        """Tries several edits in one check, and gives the checks of those that it does not decide."""
        texts = joined(self.scratch.rt, self.crate, edits)
        output = None if texts is None else self.output(edits, texts)
        if output is not None:
            return self.read_round(edits, output)
        if len(edits) == 1:
            return [self.task(lambda: self.alone(edits[0]))]
        half = len(edits) // 2
        return [self.task(lambda it=it: self.round(it)) for it in (edits[:half], edits[half:])]

    def output(self, edits: List[Edit], texts: Dict[str, str]) -> Optional[Output]:
        """Returns what a check of these edits printed, or None if it says nothing for certain.

        Only the functions that the edits change are checked. The whole crate is, if the prover does not find one of them."""
        for flags in ([*JOBS, *only(edits)], JOBS):
            with self.scratch.over(self.name) as kept:
                ran = self.scratch.check(self.crate, texts, flags, kept)
            if ran.returncode != NOT_FOUND:
                break
        output = Output(ran.stdout)
        is_certain = is_readable(self.scratch.rt, ran, texts) and (len(edits) == 1 or not output.strays(edits))
        return output if is_certain else None

    def read_round(self, edits: List[Edit], output: Output) -> List[Task]:
        """Reports the edits that a round refuses, and gives the checks of the others.

        A caller of a function that is refused may not have been tried, so the others are tried again without those that are refused.
        If none is, each is tried alone."""
        verdicts = [judged(edit, output) for edit in edits]
        for verdict in filter(None, verdicts):
            self.report.add(verdict)
        undecided = [edit for edit, verdict in zip(edits, verdicts) if verdict is None]
        if 0 < len(undecided) < len(edits):
            return [self.task(lambda: self.round(undecided))]
        return [self.task(lambda it=it: self.alone(it)) for it in undecided]

    def alone(self, edit: Edit) -> List[Task]:
        with self.scratch.over(self.name) as kept:
            self.report.add(tried_alone(self.scratch.rt, self.crate, edit, kept))
        return []


def in_lanes(tasks: List[Task], lanes: int, memory: float) -> None:
    """Runs tasks side by side, the last of the list first, as many as there are lanes and memory."""
    running: Dict[object, int] = {}
    with ThreadPoolExecutor(lanes) as pool:
        while tasks or running:
            while tasks and len(running) < lanes and (not running or sum(running.values()) + tasks[-1].need <= memory):
                task = tasks.pop()
                running[pool.submit(task.call)] = task.need
            for it in wait(running, return_when=FIRST_COMPLETED).done:
                del running[it]
                tasks += it.result()


def counts(top: str, name: str) -> int:
    """Returns how many edits a crate has in both tiers."""
    return sum(len(mutation_record.edits_in(os.path.join(top, "crates", name, tier))) for tier in TIERS)


def tried(scratch: Scratch, names: List[str], jobs: int) -> Report:
    """Tries all edits of the crates and returns the report."""
    rt = scratch.rt
    report = Report(sum(counts(scratch.folder, it) for it in names))
    scratch.take_libraries(names)
    # the most expensive crate starts first
    names = sorted(names, key=lambda it: counts(scratch.folder, it) * scratch.crates[it].count(rb"\n"))
    runs = [CrateRun(scratch, it, report) for it in names]
    memory = float("inf") if jobs else 0.85 * rt.free()
    in_lanes([it.task(it.begin) for it in runs], jobs or rt.processors(), memory)
    return report


def run(top: str, names: List[str], jobs: int) -> int:
    """Tries the edits of crates, all crates if none is named, writes the record and prints the sum."""
    begun = time.monotonic()
    with Scratch(top) as scratch, interrupted_by(scratch):
        try:
            scratch.copy_sources()
            chosen = [it for it in names or scratch.crates if counts(scratch.folder, it)]
            for name in sorted(set(names) - set(chosen)):
                print(f"{name} has no wrong bodies")
            report = tried(scratch, chosen, jobs)
            version = kit.version()
            folders = {it: os.path.join(scratch.folder, "crates", it) for it in chosen if not report.failed(it)}
            entries = {it: mutation_record.entry(folder, counts(scratch.folder, it), version) for it, folder in folders.items()}
        except (KeyboardInterrupt, Interrupted):
            print("interrupted: nothing in the repository was changed", file=sys.stderr)
            return 130
        except BaseException:
            scratch.stop()
            raise
    if entries:
        mutation_record.write(top, entries)
    return closed(report, chosen, begun)


@contextlib.contextmanager
def interrupted_by(scratch: Scratch) -> Iterator[None]:
    """Has the signals that end this script end its provers first, so that no lane waits for them."""

    def interrupt(*_) -> None:
        scratch.stop()
        raise KeyboardInterrupt

    before = {it: signal.signal(it, interrupt) for it in (signal.SIGINT, signal.SIGTERM)}
    try:
        yield
    finally:
        for number, handler in before.items():
            signal.signal(number, handler)


def closed(report: Report, names: List[str], begun: float) -> int:
    """Prints the times and the sum, and returns the status."""
    used = os.times()
    seconds = used.user + used.system + used.children_user + used.children_system
    failed = sum(report.failed(it) for it in names)
    passed = sum(len(it) for it in report.verdicts.values()) - failed
    for verdict in [it for name in names for it in report.verdicts.get(name, []) if not it.is_refused]:
        print(f"FAILED {verdict.edit.label()}")
    print(f"{seconds / 60:.1f} processor minutes, {(time.monotonic() - begun) / 60:.1f} minutes")
    print(f"{passed} passed, {failed} failed", flush=True)
    return 1 if failed else 0


def main() -> int:
    parser = argparse.ArgumentParser(description=__doc__, formatter_class=argparse.RawDescriptionHelpFormatter)
    parser.add_argument("crates", nargs="*", metavar="CRATE", help="a crate of crates.txt; without any, all are tried")
    parser.add_argument("--jobs", type=int, default=0, help="provers at a time; without it, as many as there are processors and memory")
    parser.add_argument("--table", action="store_true", help="print when each crate's edits were last tried, and try none")
    given = parser.parse_args()
    unknown = sorted(set(given.crates) - set(mutation_record.listed(TOP)))
    if unknown:
        parser.error(f"crates.txt lists no crate {unknown[0]}")
    if given.jobs < 0:
        parser.error("--jobs is a number from 1 on")
    if given.table:
        print("\n".join(mutation_record.table(TOP)))
        return 0
    return run(TOP, list(dict.fromkeys(given.crates)), given.jobs)


if __name__ == "__main__":
    sys.exit(main())
