"""A scratch copy of the repository, in which wrong bodies are tried by the toolchain's own functions.

The sources are copied and what earlier checks kept is linked, so nothing in the repository changes while provers run."""
import glob
import os
import shutil
import signal
import subprocess
import sys
import tempfile
import threading
from typing import Dict, List, Optional

import kit
from mutation_record import PARTS, TIERS


class Interrupted(Exception):
    """The run was interrupted, so no further prover is started."""


def clone(source: str, to: str) -> None:
    """Makes a folder whose files are those of another one."""
    if os.path.isdir(source):
        shutil.copytree(source, to, copy_function=kit.link_file)
    else:
        os.makedirs(to)


class Scratch:
    """The scratch copy of a repository. As a context it removes its folder in the end, and `stop` ends the provers."""

    def __init__(self, top: str):
        self.top = top
        self.rt = kit.load()
        # its first call sets a signal's handler, which only the main thread may
        self.rt.rtlib.guarded()
        # rt tries an edit by this function of its own: here its provers are counted, and can be ended
        self.rt.checked = self.check
        self.room = tempfile.TemporaryDirectory(prefix="dapnorm-mutants-")
        self.folder = self.room.name
        self.lock = threading.Lock()
        self.running: Dict[int, subprocess.Popen] = {}
        self.seconds: Dict[str, float] = {}
        self.is_stopped = False
        self.is_kept_by_rt = False
        self.has_built = False
        self.copies = 0
        self.crates: Dict[str, object] = {}

    def __enter__(self) -> "Scratch":
        return self

    def __exit__(self, *_) -> None:
        self.stop()
        self.room.cleanup()

    def copy_sources(self) -> None:
        """Copies the crates' sources and edits, and reads the list of crates."""
        shutil.copyfile(os.path.join(self.top, "crates.txt"), os.path.join(self.folder, "crates.txt"))
        for name in sorted(os.listdir(os.path.join(self.top, "crates"))):
            for part in (*PARTS, *TIERS):
                source = os.path.join(self.top, "crates", name, part)
                if os.path.isdir(source):
                    shutil.copytree(source, os.path.join(self.folder, "crates", name, part))
        self.crates = {it.name: it for it in self.rt.rtlib.crates_below(self.folder)}

    def take_libraries(self, names: List[str]) -> None:
        """Links the libraries below the crates, and builds those that no earlier run has left.

        They are those of rt, or those of `make` if rt lacks one: the libraries of `make` do not fit those of rt."""
        below = {it.name: it for name in names for it in self.crates[name].below()}
        self.is_kept_by_rt = all(os.path.isfile(os.path.join(self.out(name), "rlib", "stamp")) for name in below)
        for crate in sorted(below.values(), key=lambda it: len(it.below())):
            self.take_library(crate)

    def out(self, name: str) -> str:
        return os.path.join(self.top, "crates", name, "out")

    def copy_library(self, crate) -> None:
        """Links a library and the stamp of what it was made from, if an earlier run has left them."""
        made = os.path.dirname(crate.rlib)
        if self.is_kept_by_rt:
            shutil.copytree(os.path.join(self.out(crate.name), "rlib"), made, copy_function=kit.link_file)
            return
        for library in glob.glob(os.path.join(self.top, "crates", "*", kit.LIBRARIES, f"{crate.name}.rlib")):
            if os.path.isfile(f"{library}.stamp"):
                shutil.copytree(library, crate.rlib, copy_function=kit.link_file)
                kit.link_file(f"{library}.stamp", os.path.join(made, "stamp"))

    def take_library(self, crate) -> None:
        self.copy_library(crate)
        if crate.is_built():
            return
        print(f"{crate.name}: builds this library first, since no run of `make` has left one of these sources", flush=True)
        clone(os.path.join(self.out(crate.name), "incremental"), os.path.join(crate.folder, "out", "incremental"))
        self.has_built = True
        said = self.build(crate)
        if said:
            sys.exit(f"{crate.name} is not proved, so no crate above it can be tried:\n{said}")

    def build(self, crate) -> str:
        """Builds a library in the scratch copy, and returns the last lines of what was printed if it is not proved."""
        printed = []

        def call(*words: str) -> int:
            ran = self.prove(crate.name, crate.folder, [*self.rt.rtlib.guarded(), *words])
            printed.extend(ran.stdout.rstrip("\n").split("\n"))
            return ran.returncode

        # the toolchain's own function that runs a prover: here it is counted, and can be ended
        crate.call = call
        try:
            status = crate.build_rlib(["--jobs", "1"], anew=False)
        finally:
            del crate.call
        return "\n".join(printed[-12:]) if status else ""

    def is_proved(self, name: str) -> bool:
        """Returns whether rt has left a library of these very sources, and the work of its proof."""
        kept = os.path.join(self.out(name), "incremental")
        has_work = self.is_kept_by_rt and os.path.isdir(kept) and bool(os.listdir(kept))
        return has_work and self.rt.rtlib.text_of(os.path.join(self.out(name), "rlib", "stamp")) == self.crates[name].stamp()

    def need(self, name: str) -> int:
        """Returns how much memory a check of a crate is likely to take, in bytes.

        rt estimates it for libraries with their proofs. Those of `make` have none, so a check over them alone takes less."""
        whole = self.rt.need(self.crates[name])
        if not self.is_kept_by_rt and not self.has_built:
            return min(whole, 2 * kit.MEMORY_OF_JOB)
        # A check over kept work takes a third of the memory of one from scratch, as measured.
        return whole // 2 if self.is_proved(name) else whole

    def base(self, name: str) -> str:
        """Returns a folder with the work that earlier checks of the crate kept, made at the first call."""
        folder = os.path.join(self.folder, "kept", name)
        if not os.path.isdir(folder):
            clone(os.path.join(self.top, "crates", name, "out", "incremental"), folder)
        return folder

    def forget(self, name: str) -> None:
        """Removes the kept work of a crate that is done."""
        shutil.rmtree(os.path.join(self.folder, "kept", name), ignore_errors=True)

    def over(self, name: str) -> tempfile.TemporaryDirectory:
        """Returns a copy of the crate's kept work, as a context: what a check of a wrong body leaves there is used by no other check."""
        room = tempfile.TemporaryDirectory(prefix="over-", dir=self.folder)
        os.rmdir(room.name)
        clone(self.base(name), room.name)
        return room

    def check(self, crate, texts: Dict[str, str], flags: List[str], kept: Optional[str]) -> subprocess.CompletedProcess:
        """Checks a copy of the crate with these texts in place of its own, as `rt must-fail` does."""
        with tempfile.TemporaryDirectory(prefix="edit-", dir=self.folder) as room:
            for part in PARTS:
                if os.path.isdir(os.path.join(crate.folder, part)):
                    shutil.copytree(os.path.join(crate.folder, part), os.path.join(room, part))
            for path, text in texts.items():
                with open(os.path.join(room, path), "w", encoding="utf-8") as out:
                    out.write(text)
            words = [self.rt.rtlib.RATTLE, "check", *crate.words(flags, keeps=False)]
            words += ["--incremental", kept] if kept else []
            return self.prove(crate.name, room, [*self.rt.rtlib.guarded(), *words])

    def prove(self, name: str, folder: str, words: List[str]) -> subprocess.CompletedProcess:
        """Runs one prover, and adds its processor time to the crate's."""
        with self.lock:
            if self.is_stopped:
                raise Interrupted
            how = {"stdin": subprocess.DEVNULL, "stdout": subprocess.PIPE, "stderr": subprocess.STDOUT, "text": True, "errors": "replace"}
            process = subprocess.Popen(words, cwd=folder, **how)
            self.running[process.pid] = process
        said = process.stdout.read()
        process.stdout.close()
        _, status, usage = os.wait4(process.pid, 0)
        process.returncode = os.waitstatus_to_exitcode(status)
        with self.lock:
            del self.running[process.pid]
            self.seconds[name] = self.seconds.get(name, 0.0) + usage.ru_utime + usage.ru_stime
            if self.is_stopped:
                raise Interrupted
        return subprocess.CompletedProcess(words, process.returncode, said)

    def stop(self) -> None:
        """Ends the provers that run, with what they started, and lets no other one start."""
        self.is_stopped = True
        for process in list(self.running.values()):
            try:
                group = os.getpgid(process.pid)
                # one that has only just started is still in the group of this script
                if group == os.getpgrp():
                    process.kill()
                else:
                    os.killpg(group, signal.SIGKILL)
            except ProcessLookupError:
                pass
