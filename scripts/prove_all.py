"""Proves the crates of the program and builds it: python3 scripts/prove_all.py CRATE [--keep]

CRATE is the folder of the program's crate. The crates are proved side by side, in the order of their chains. This prints a line for
each crate that is checked, and stops at the first failure, with what the prover printed. CRATE/out/proved.log has all that the provers
print.

Without --keep, this proves from scratch each crate that changed or uses one that changed. It builds the libraries in CRATE/out/rlib, with
their statements and without their proofs. The crates above then take less time to prove, since the prover does not load those proofs.

With --keep, or if rt has kept work of all libraries, the commands of `rt` prove the crates. They keep the work in the folders out, so a
crate takes less time to prove after an edit."""
import contextlib
import os
import subprocess
import sys
import tempfile
import time
from types import ModuleType
from typing import IO, Callable, Iterator, List

import kit
import pack_file
from side_by_side import MOST_JOBS, SideBySide, Task


class Reports:
    """Logs what the provers print, and prints a line for each crate."""

    def __init__(self, log: IO[str], done: str = "is checked") -> None:
        self.log, self.done = log, done

    def ended(self, name: str, jobs: int, said: str, status: int, begun: float) -> bool:
        """Returns whether the crate was proved."""
        seconds = time.monotonic() - begun
        self.log.write(f"== {name}\n{said}{name}: {seconds:.0f} seconds, {jobs} jobs, status {status}\n")
        self.log.flush()
        print(f"{name} {self.done}." if status == 0 else f"{said}{name}: failed (status {status}).", flush=True)
        return status == 0

    def ran(self, crate: object, jobs: int, work: Callable[[], int]) -> bool:
        """Calls the work on a crate, which prints to the crate's `out` and returns a status, and returns whether that is 0."""
        begun = time.monotonic()
        with tempfile.TemporaryFile("w+", errors="replace") as crate.out:
            try:
                status = work()
            except SystemExit:
                status = 2
            crate.out.seek(0)
            return self.ended(crate.name, jobs, crate.out.read(), status, begun)


@contextlib.contextmanager
def locked(library: ModuleType, crates: List[object]) -> Iterator[None]:
    """Keeps other runs of rt out of the crates' folders."""
    held = library.lock(crates)
    try:
        yield
    finally:
        for it in held:
            os.close(it)


def crates_in_order(library: ModuleType, folder: str) -> List[object]:
    """Returns the crate in the folder and those that it uses, lowest first, after the tests of `rt all check` that need no proof."""
    crates = library.crates_below(folder)
    library.stop_on_unread(folder, crates)
    for crate in crates:
        library.stop_on_links(crate.folder)
        library.stop_on_unread(crate.folder, [*crates, *library.crates_below(crate.folder)])
        library.stop_on_text(crate, "check")
    return sorted(crates, key=lambda crate: len(crate.below()))


# How many lines a prover checks in the time in which it loads what it knows of the libraries.
LINES_OF_LOADING = 1500


def task(crate: object, run: Callable[[int], bool]) -> Task:
    """Returns the task of a crate. Its lines of code, and those for what the prover loads, are the measure of the work."""
    return Task(crate.name, [it.name for it in crate.below()], LINES_OF_LOADING + crate.count(rb"\n"), run)


def all_built(rt: ModuleType, reports: Reports, crates: List[object], build: Callable[[object, int], int]) -> bool:
    """Calls the build on each of the crates with a number of jobs, and returns whether it returned 0 for all."""

    def built(crate: object) -> Callable[[int], bool]:
        return lambda jobs: reports.ran(crate, jobs, lambda: build(crate, jobs))

    tasks = [task(crate, built(crate)) for crate in crates]
    return SideBySide(tasks, kit.processors(rt), kit.jobs_in_memory(rt)).run()


class Kept:
    """Proves the crates by the commands of rt, which keep their work in the folders out."""

    def library(self, crate: object, jobs: int) -> int:
        return crate.build_rlib(["--jobs", str(jobs)], anew=False)

    def program(self, reports: Reports, name: str, jobs: int) -> bool:
        begun = time.monotonic()
        words = [sys.executable, os.path.abspath(__file__), "--program", str(jobs)]
        how = {"stdin": subprocess.DEVNULL, "stdout": subprocess.DEVNULL, "stderr": subprocess.PIPE, "text": True, "errors": "replace"}
        ran = subprocess.run(words, **how)
        return reports.ended(name, jobs, ran.stderr, ran.returncode, begun)


class Afresh:
    """Proves the crates from scratch, and builds the libraries in a folder of its own, apart from those of rt."""

    def __init__(self, rt: ModuleType, crates: List[object]) -> None:
        self.rt, self.crates = rt, crates
        # The first call sets the handler of a signal, which only the main thread may do.
        rt.rtlib.guarded()
        folder = os.path.abspath(kit.LIBRARIES)
        os.makedirs(folder, exist_ok=True)
        for crate in crates:
            crate.rlib = os.path.join(folder, f"{crate.name}.rlib")

    def sum_of(self, made: str) -> str:
        """Returns the sum of the bytes of a program, and nothing for a library, which is a folder."""
        return pack_file.sum_of(made) if os.path.isfile(made) else ""

    def once(self, crate: object, made: str, work: Callable[[], int]) -> int:
        """Makes a library or a program, if it was not made of these sources, and returns the status."""
        kept, stamp = f"{made}.stamp", crate.stamp()
        if os.path.exists(made) and self.rt.rtlib.text_of(kept) == stamp + self.sum_of(made):
            return 0
        with contextlib.suppress(FileNotFoundError):
            os.remove(kept)
        status = work()
        # No stamp is written if a source changed during the proof.
        if status == 0 and stamp == crate.stamp():
            with open(kept, "w", encoding="utf-8") as file:
                file.write(stamp + self.sum_of(made))
        return status

    def library(self, crate: object, jobs: int) -> int:
        words = crate.words(["--jobs", str(jobs)], keeps=False)
        return self.once(crate, crate.rlib, lambda: crate.prove(["build", *words, "--statements", "-o", crate.rlib]))

    def program(self, reports: Reports, name: str, jobs: int) -> bool:
        crate, made = self.crates[-1], os.path.join("out", name)
        words = crate.words(["--jobs", str(jobs)], keeps=False)
        words += ["--toolchain", os.path.join(self.rt.rtlib.KIT, "toolchain"), "--backend", "llvm", "-o", f"{made}.o"]

        def work() -> int:
            return crate.prove(["build", *words]) or kit.link_program(self.rt, crate, f"{made}.o", made) or crate.call(made, "--help")

        with locked(self.rt.rtlib, self.crates):
            return reports.ran(crate, jobs, lambda: self.once(crate, made, work))


def proved(rt: ModuleType, reports: Reports, keeps: bool) -> bool:
    """Proves the libraries that the program in this folder uses, proves and builds the program, runs it for its help, and returns whether
    all are proved.

    The program comes last, when no other crate is left to prove, so it takes all processors."""
    crates = crates_in_order(rt.rtlib, os.getcwd())
    for crate in crates:
        os.makedirs(os.path.join(crate.folder, "out"), exist_ok=True)
    libraries = [crate for crate in crates if not crate.is_program]
    way = Kept() if keeps or all(crate.has_kept() for crate in libraries) else Afresh(rt, crates)
    with locked(rt.rtlib, crates):
        if not all_built(rt, reports, libraries, way.library):
            return False
    return way.program(reports, os.path.basename(os.getcwd()), min(kit.processors(rt), MOST_JOBS))


def main() -> int:
    if len(sys.argv) == 3 and sys.argv[1] == "--program":
        return kit.load().main(["run", "--jobs", sys.argv[2], "--", "--help"])
    if len(sys.argv) not in (2, 3) or sys.argv[2:] not in ([], ["--keep"]):
        sys.exit(__doc__)
    os.chdir(sys.argv[1])
    os.makedirs("out", exist_ok=True)
    rt = kit.load()
    with open(os.path.join("out", "proved.log"), "w", encoding="utf-8", errors="replace") as log:
        reports = Reports(log)
        # rt prepares its library for a run over all crates, and this then takes the place of that run.
        rt.rtlib.every = lambda verb, at_once: 0 if proved(rt, reports, "--keep" in sys.argv) else 1
        status = rt.main(["all", "check"])
    sys.stdout.flush()
    # The provers that still run end with this process.
    os._exit(status)


if __name__ == "__main__":
    sys.exit(main())
