"""Makes and uses proof packs. A pack has what the prover recorded of each crate, so that the program can be built without a proof.

    python3 scripts/proof_pack.py make CRATE PACK [PROGRAM]   proves each crate from scratch and writes the file PACK
    python3 scripts/proof_pack.py build CRATE PACK PROGRAM    builds the file PROGRAM from the sources over the file PACK

CRATE is the folder of the program's crate. `make` also builds the program over the pack. If PROGRAM is given and has other bytes, it
writes no pack. `build` refuses a pack of other sources, a pack of another kit and a damaged pack. It compiles the sources: for each
crate the prover compares the files, and the code that it makes of them, with what it recorded when the crate was proved, and the library
that it builds has to be the pack's. That the proofs passed is taken from whoever made the pack."""
import contextlib
import os
import shutil
import subprocess
import sys
import tempfile
from types import ModuleType
from typing import Dict, Iterator, List

import kit
import pack_file
from prove_all import Reports, crates_in_order, task
from side_by_side import SideBySide, Task


def without_logic(words: List[str]) -> List[str]:
    """Returns the words of a check without those that a build over a checked crate refuses."""
    for flag in ("--logic-built", "--jobs"):
        at = words.index(flag)
        words = [*words[:at], *words[at + 2 :]]
    return words


class Room:
    """A folder in which the crates of a program are checked and built, apart from what rt keeps in the crates."""

    def __init__(self, rt: ModuleType, folder: str, crates: List[object]) -> None:
        self.rt, self.folder, self.crates = rt, folder, crates
        for part in (pack_file.CHECKED, pack_file.BUILT, "again"):
            os.makedirs(os.path.join(folder, part), exist_ok=True)
        for crate in crates:
            crate.rlib = os.path.join(folder, pack_file.BUILT, f"{crate.name}.rlib")

    def checked(self, crate: object) -> str:
        return os.path.join(self.folder, pack_file.CHECKED, crate.name)

    def program(self) -> str:
        return os.path.join(self.folder, self.crates[-1].name)

    def prove(self, crate: object, jobs: int) -> int:
        """Proves a crate from scratch, records that and builds the crate, and returns the status."""
        words = crate.words(["--jobs", str(jobs)], keeps=False)
        words += [] if crate.is_program else ["--statements"]
        return crate.prove(["check", *words, "-o", self.checked(crate)]) or self.build(crate, crate.rlib)

    def compare(self, crate: object, _: int) -> int:
        """Builds a crate again over its record, and returns 0 if a library has the bytes of the pack's."""
        again = os.path.join(self.folder, "again", f"{crate.name}.rlib")
        status = self.build(crate, again)
        if status == 0 and not crate.is_program and not same(again, crate.rlib):
            print(f"{crate.name} of the pack is not made of these sources", file=crate.out)
            return 1
        return status

    def build(self, crate: object, library: str) -> int:
        """Builds a crate over its record, which rattle compares with the sources, and returns the status."""
        rattle, tools = self.rt.rtlib.RATTLE, os.path.join(self.rt.rtlib.KIT, "toolchain")
        words = [*without_logic(crate.words(["--jobs", "1"], keeps=False)), "--crate-checked", self.checked(crate)]
        if not crate.is_program:
            return crate.call(rattle, "build", *words, "-o", library)
        made = f"{self.program()}.o"
        status = crate.call(rattle, "build", *words, "--toolchain", tools, "--backend", "llvm", "-o", made)
        return status or kit.link_program(self.rt, crate, made, self.program())

    def work(self, tasks: List[Task]) -> bool:
        """Does the tasks side by side, and returns whether all succeeded."""
        return SideBySide(tasks, kit.processors(self.rt), kit.jobs_in_memory(self.rt)).run()


@contextlib.contextmanager
def place() -> Iterator[str]:
    """Makes a folder for the time of a run. A prover that still runs after a failure may write to it, so what cannot be removed is left."""
    folder = tempfile.mkdtemp(prefix="dapnorm-proofs-")
    try:
        yield folder
    finally:
        shutil.rmtree(folder, ignore_errors=True)


def contents(path: str) -> Dict[str, str]:
    """Returns the sums of a file, or of the files below a folder."""
    if os.path.isfile(path):
        return {"": pack_file.sum_of(path)}
    return {it: pack_file.sum_of(os.path.join(path, it)) for it in pack_file.files_below(path)}


def same(one: str, other: str) -> bool:
    """Returns whether two files or folders have the same bytes."""
    return contents(one) == contents(other)


def prepared(folder: str) -> ModuleType:
    """Returns rt, in the folder of the program's crate."""
    rt = kit.load()
    # The first call sets the handler of a signal, which only the main thread may do.
    rt.rtlib.guarded()
    os.chdir(folder)
    return rt


def make(folder: str, pack: str, program: str) -> int:
    top, name = os.path.dirname(os.path.dirname(folder)), os.path.basename(folder)
    said = pack_file.manifest(top, name, kit.version())
    rt = prepared(folder)
    crates = crates_in_order(rt.rtlib, folder)
    with place() as at, open(os.path.join(at, "log"), "w", encoding="utf-8") as log:
        room, reports = Room(rt, at, crates), Reports(log)
        if not room.work([task(it, lambda jobs, it=it: reports.ran(it, jobs, lambda: room.prove(it, jobs))) for it in crates]):
            return 1
        if program and not same(program, room.program()):
            print(f"no pack is made: over it, the program has other bytes than {program}")
            return 1
        if said != pack_file.manifest(top, name, kit.version()):
            print("no pack is made: a source file changed during the proofs")
            return 1
        pack_file.write(pack, said, at)
    print(f"{pack} is written: {os.path.getsize(pack) / 1e6:.1f} MB.")
    return 0


def build(folder: str, pack: str, program: str) -> int:
    top, name = os.path.dirname(os.path.dirname(folder)), os.path.basename(folder)
    with place() as at, open(os.path.join(at, "log"), "w", encoding="utf-8") as log:
        try:
            pack_file.refuse(pack_file.read(pack), top, name, kit.version())
            pack_file.unpack(pack, at)
        except pack_file.Refused as why:
            print(f"{pack} is refused: {why}")
            return 1
        rt = prepared(folder)
        crates = sorted(rt.rtlib.crates_below(folder), key=lambda it: len(it.below()))
        room, reports = Room(rt, at, crates), Reports(log, "is as the pack has it")
        # The pack has the library of each crate, so none waits for another. The program takes longest.
        work = {it: it.count(rb"\n") for it in crates[:-1]}
        work[crates[-1]] = 1 + sum(work.values())
        tasks = [Task(it.name, [], work[it], lambda _, it=it: reports.ran(it, 1, lambda: room.compare(it, 1)), 1) for it in crates]
        if not room.work(tasks):
            print(f"{pack} is refused: the prover did not find its records to be of these sources")
            return 1
        put(room.program(), program)
    return 0


def put(made: str, program: str) -> None:
    """Runs a program for its help, and puts it at its place."""
    subprocess.run([made, "--help"], stdin=subprocess.DEVNULL, stdout=subprocess.DEVNULL, check=True)
    os.makedirs(os.path.dirname(program), exist_ok=True)
    shutil.copy(made, f"{program}.new")
    os.replace(f"{program}.new", program)


def main() -> int:
    words = sys.argv[1:]
    if len(words) not in (3, 4) or words[0] not in ("make", "build") or (words[0], len(words)) == ("build", 3):
        sys.exit(__doc__)
    folder, pack, program = [os.path.abspath(it) if it else "" for it in [*words[1:], ""][:3]]
    return make(folder, pack, program) if words[0] == "make" else build(folder, pack, program)


def ended() -> None:
    """Ends this process, and with it the provers that still run after a failure."""
    try:
        status = main()
    except KeyboardInterrupt:
        status = 130
    sys.stdout.flush()
    os._exit(status)


if __name__ == "__main__":
    ended()
