"""Runs the program `dapnorm`."""
from __future__ import annotations

import os
import re
import shlex
import shutil
import subprocess
from typing import List, NamedTuple, Optional

from .errors import GoldenFailed, ProgramMissing

# Seconds for one run of the program.
LIMIT = 120
MISSING = """\
dapnorm is not on PATH, so nothing was compared
  build it (`make` in its repository), or install it (`make install`, or the package dapnorm)
  or set DAPNORM to the path of the program"""


class Ran(NamedTuple):
    """What a run of the program gave."""

    status: int
    output: bytes
    errors: str

    @property
    def lines(self) -> List[str]:
        return self.output.decode(errors="replace").splitlines()


def program() -> str:
    """The path of `dapnorm`. Raises `ProgramMissing` if it is not there."""
    named = os.environ.get("DAPNORM")
    found = shutil.which(named or "dapnorm")
    if found is None:
        raise ProgramMissing(f"DAPNORM={named} is not a program, so nothing was compared" if named else MISSING, 127)
    return found


def run(*words: str, given: bytes = b"") -> Ran:
    try:
        ran = subprocess.run([program(), *words], input=given, capture_output=True, timeout=LIMIT)
    except (OSError, subprocess.TimeoutExpired) as error:
        raise GoldenFailed(f"dapnorm {words[0]} does not end well: {error}", 4) from None
    return Ran(ran.returncode, ran.stdout, ran.stderr.decode(errors="replace").rstrip())


def command(*words: Optional[str]) -> str:
    """A command as one types it."""
    return " ".join(shlex.quote(it) for it in ("dapnorm", *words) if it is not None)


def is_trace(content: bytes) -> bool:
    """Whether these bytes are a trace: a marker, digits and LF. Otherwise they are a recording or a transcript."""
    return re.match(rb"[<>]\d{1,10}\n", content) is not None


def is_transcript(content: bytes) -> bool:
    """Whether these bytes start like a transcript: with the head of a record."""
    return content.startswith((b"- client: ", b"- adapter: "))
