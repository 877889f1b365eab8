"""Loads the Python code of `rt`, the command of the Rattle toolchain, so that a script can order the checks of the crates itself."""
import importlib.machinery
import importlib.util
import os
import shutil
import subprocess
import sys
import threading
from types import ModuleType
from typing import List

# The names that the scripts use of rt's module, of its library and of a crate. They refuse a kit that lacks one.
NEEDED = ("checked", "free", "main", "must_fail", "need", "processors", "read_edit", "rtlib", "unread")
NEEDED_OF_LIBRARY = (
    "crates_below", "every", "guarded", "lock", "stop_on_links", "stop_on_text", "stop_on_unread", "Crate", "KIT", "RATTLE",
)
NEEDED_OF_CRATE = ("below", "build_rlib", "call", "count", "has_kept", "prove", "stamp", "words")
TARGET = "x86_64-unknown-linux-gnu"
# The folder, below that of the program's crate, of the libraries that `make` builds without their proofs. rt accepts such files in no other
# folder.
LIBRARIES = os.path.join("out", "rlib")
# The most memory that one job of a prover is likely to take, in bytes.
MEMORY_OF_JOB = 1_600_000_000


def folder() -> str:
    """Returns the folder of the toolchain, found through `rt doc`."""
    if shutil.which("rt") is None:
        sys.exit("rt, the command of the Rattle toolchain, is not found: put its folder bin on PATH")
    page = subprocess.run(["rt", "doc"], stdout=subprocess.PIPE, text=True, check=True).stdout.split()[0]
    return os.path.dirname(page)


def version() -> str:
    """Returns the line that names the kit."""
    return subprocess.run(["rt", "version"], stdout=subprocess.PIPE, text=True, check=True).stdout.strip()


def link_file(source: str, to: str) -> None:
    """Links a file, or copies it if the two folders are on different file systems. The provers replace files and never write into them."""
    try:
        os.link(source, to)
    except OSError:
        shutil.copyfile(source, to)


def missing(rt: ModuleType) -> List[str]:
    """Returns the names that the scripts use and that this kit's rt lacks."""
    lacking = [name for name in NEEDED if not hasattr(rt, name)]
    if lacking:
        return lacking
    lacking = [name for name in NEEDED_OF_LIBRARY if not hasattr(rt.rtlib, name)]
    return lacking or [name for name in NEEDED_OF_CRATE if not hasattr(rt.rtlib.Crate, name)]


def load() -> ModuleType:
    """Returns rt's module, changed so that the stamp of a crate takes little time."""
    sys.dont_write_bytecode = True
    loader = importlib.machinery.SourceFileLoader("rt", os.path.join(folder(), "bin", "rt"))
    rt = importlib.util.module_from_spec(importlib.util.spec_from_loader("rt", loader))
    sys.modules["rt"] = rt
    loader.exec_module(rt)
    lacking = missing(rt)
    if lacking:
        sys.exit(f"this kit's rt lacks {', '.join(lacking)}, which the script uses: prove the crates by rt all check")
    keep_stamps(rt.rtlib.Crate)
    return rt


def keep_stamps(crate: type) -> None:
    """Has the stamp of a crate compute the stamp of each crate below it once, and not once for each path to it.

    Each stamp that is asked for from outside still reads all files."""
    whole, kept = crate.stamp, threading.local()

    def stamp(self) -> str:
        if getattr(kept, "stamps", None) is None:
            kept.stamps = {}
            try:
                return whole(self)
            finally:
                kept.stamps = None
        if self.folder not in kept.stamps:
            kept.stamps[self.folder] = whole(self)
        return kept.stamps[self.folder]

    crate.stamp = stamp


def jobs_in_memory(rt: ModuleType) -> int:
    """Returns how many jobs of provers fit into memory, at least one."""
    return max(1, int(rt.free() // MEMORY_OF_JOB))


def processors(rt: ModuleType) -> int:
    """Returns how many provers can run side by side: the processors, or fewer if there is little memory."""
    return min(rt.processors(), jobs_in_memory(rt))


def link_program(rt: ModuleType, crate: object, made: str, program: str) -> int:
    """Links the object file of a program with the C library, and returns the status."""
    folder = rt.rtlib.KIT
    words = ["--target", TARGET, "--toolchain", f"{folder}/toolchain", "-o", program, made]
    return crate.call(f"{folder}/bin/rattle-link", *words, f"{folder}/c/libos_c.a", f"{folder}/c/liblibc_c.a")
