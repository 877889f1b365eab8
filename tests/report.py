"""What the checks around the gate share: counting, and the toolchain's folder."""
import os
import shutil
import subprocess
import sys

TOP = os.path.dirname(os.path.dirname(os.path.abspath(__file__)))
PROGRAM = os.path.join(TOP, "crates", "dapnorm_main", "out", "dapnorm_main")


class Report:
    """Counts what passed and what failed, and says of each failure what it was."""

    def __init__(self):
        self.passed = 0
        self.failed = 0

    def check(self, name, holds, detail=""):
        if holds:
            self.passed += 1
        else:
            self.failed += 1
            print(f"FAILED {name} {detail}".rstrip(), flush=True)
        return holds

    def close(self):
        print(f"{self.passed} passed, {self.failed} failed", flush=True)
        return 1 if self.failed else 0


def toolchain():
    """The folder of the toolchain, found through `rt doc`."""
    if shutil.which("rt") is None:
        sys.exit("rt, the command of the Rattle toolchain, is not found: put its folder bin on PATH")
    page = subprocess.run(["rt", "doc"], capture_output=True, text=True, check=True).stdout.split()[0]
    return os.path.dirname(page)


def first_line(errors):
    """The line of a fault. The lines after it explain it, and begin with two spaces. Other errors are returned as they are."""
    if not errors.startswith(b"dapnorm: "):
        return errors
    first, *others = errors.splitlines(keepends=True)
    assert all(line.startswith(b"  ") for line in others), errors
    return first


def run(arguments, given=b"", environment=None):
    """Runs the program that the gate built, and gives its status, its output and the first line of its errors."""
    ran = subprocess.run([PROGRAM, *arguments], input=given, capture_output=True, env=environment, timeout=120)
    return ran.returncode, ran.stdout, first_line(ran.stderr)
