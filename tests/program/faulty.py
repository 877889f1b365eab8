"""Runs of the program under the shim of tests/program/fault_injection.c: its memory, its reads and its writes fail as a run asks."""
import os
import subprocess
from concurrent.futures import ThreadPoolExecutor
from threading import Lock

from tests.report import PROGRAM, TOP, first_line, toolchain


def build_shim(folder):
    kit = toolchain()
    shim = os.path.join(folder, "fault_injection.so")
    subprocess.run(
        [
            os.path.join(kit, "toolchain", "bin", "clang"), "--target=x86_64-unknown-linux-gnu", "-O2", "-shared",
            "-fPIC", "-nostdlib", "-fno-builtin", "-fuse-ld=" + os.path.join(kit, "toolchain", "bin", "ld.lld"),
            "-o", shim, os.path.join(TOP, "tests", "program", "fault_injection.c"),
        ],
        check=True,
    )
    return shim


class Faulty:
    """The program under the shim. Each set of files that a run names has a folder of its own, in which it is run."""

    def __init__(self, folder):
        self.folder = folder
        self.shim = build_shim(folder)
        self.places = {}
        self.placing = Lock()

    def place(self, files):
        """The folder that has these files; runs that want the same ones at a time wait until they are written."""
        key = tuple(sorted(files.items()))
        with self.placing:
            if key not in self.places:
                self.places[key] = os.path.join(self.folder, str(len(self.places)))
                os.mkdir(self.places[key])
                for name, text in files.items():
                    with open(os.path.join(self.places[key], name), "wb") as file:
                        file.write(text)
            return self.places[key]

    def run(self, run, passed=(), **asked):
        """The status, the output and the first line of the errors of a run under what is asked of the shim, as `read_fails=3`."""
        environment = {f"FAULT_INJECTION_{name.upper()}": str(number) for name, number in asked.items()}
        ran = subprocess.run(
            ["dapnorm", *run.arguments], executable=PROGRAM, input=run.given, capture_output=True, cwd=self.place(run.files), pass_fds=passed,
            timeout=120, env={"LD_PRELOAD": self.shim, **environment},
        )
        return ran.returncode, ran.stdout, first_line(ran.stderr)

    def run_refused(self, run, turn, **asked):
        """The same with the growth of this turn refused, and whether it was."""
        reads, writes = os.pipe()
        with os.fdopen(reads, "rb") as told:
            try:
                answer = self.run(run, passed=[writes], turn=turn, told=writes, **asked)
            finally:
                os.close(writes)
            return answer, told.read() != b""


def side_by_side(function, cases):
    """What the function gives of each case, as many at a time as there are processors."""
    with ThreadPoolExecutor(len(os.sched_getaffinity(0))) as workers:
        return list(workers.map(function, cases))
