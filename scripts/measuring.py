"""Measures how long a command takes and how much memory it uses, and collects the figures of a benchmark."""
import argparse
import hashlib
import json
import os
import subprocess
import sys
import tempfile
from typing import NamedTuple

TOP = os.path.dirname(os.path.dirname(os.path.abspath(__file__)))
SCRIPTS = os.path.join(TOP, "scripts")
ROUNDS = {"full": 3, "small": 1}


class Measured(NamedTuple):
    """The shortest time in seconds, the largest memory in bytes, and the SHA-256 sum of the output."""

    seconds: float
    memory: int
    output: str


class Figures:
    """The figures of one benchmark, one row for each measurement."""

    def __init__(self, size):
        self.size = size
        self.rows = []

    def add(self, measured, **columns):
        self.rows.append({**columns, "seconds": measured.seconds, "memory": measured.memory})

    def write(self, path):
        """Writes the rows as JSON: times in seconds, sizes and memory in bytes."""
        with open(path, "w", encoding="utf-8") as file:
            json.dump({"size": self.size, "rounds": ROUNDS[self.size], "figures": self.rows}, file, indent=1)
            file.write("\n")


def options(description, **programs):
    """Parses the arguments of a benchmark. `programs` has an option and its default path for each program that is measured."""
    parser = argparse.ArgumentParser(description=description, formatter_class=argparse.RawDescriptionHelpFormatter)
    parser.add_argument("--size", choices=list(ROUNDS), default="full", help="small: measure each command once, on small inputs")
    parser.add_argument("--json", metavar="FILE", help="also write the figures to FILE")
    for name, path in programs.items():
        parser.add_argument(f"--{name.replace('_', '-')}", metavar="FILE", default=os.path.join(TOP, path), help=f"by default {path}")
    found = parser.parse_args()
    if found.json and not os.path.isdir(os.path.dirname(os.path.abspath(found.json))):
        parser.error(f"the folder of {found.json} does not exist")
    for name in programs:
        if not os.access(getattr(found, name), os.X_OK):
            parser.error(f"{getattr(found, name)} is not a program: make bench builds it")
        setattr(found, name, os.path.abspath(getattr(found, name)))
    if found.size == "small":
        print("Small inputs: the outputs are checked; the figures do not show the speed.")
    return found


def digest(output):
    return hashlib.sha256(output).hexdigest()


def run(command, source, out, wanted=0):
    """Runs a command, and returns its seconds and the most bytes of memory that it used. Ends the benchmark if the command ends with
    another status than the wanted one."""
    reads, writes = os.pipe()
    with open(reads, "rb") as report:
        starter = [sys.executable, "-I", "-S", os.path.join(SCRIPTS, "measured.py"), str(writes), *command]
        errors = subprocess.DEVNULL if wanted else None
        process = subprocess.Popen(starter, stdin=source, stdout=out, stderr=errors, pass_fds=[writes])
        os.close(writes)
        words = report.read().split()
        process.wait()
    if len(words) != 3:
        sys.exit(f"{command} did not start")
    seconds, status, memory = words
    if int(status) != wanted:
        sys.exit(f"{command} ended with status {int(status)}")
    return float(seconds), int(memory)


def measure(command, path, size, status=0):
    """Runs a command on a file as often as the size of the benchmark requires. It has to end with this status."""
    runs, sums = [], set()
    for _ in range(ROUNDS[size]):
        with open(path, "rb") as source, tempfile.TemporaryFile() as out:
            runs.append(run(command, source, out, status))
            out.seek(0)
            total = hashlib.sha256()
            for chunk in iter(lambda: out.read(1 << 20), b""):
                total.update(chunk)
            sums.add(total.hexdigest())
    if len(sums) != 1:
        sys.exit(f"{command} wrote different bytes on the same input")
    return Measured(min(seconds for seconds, _ in runs), max(memory for _, memory in runs), sums.pop())
