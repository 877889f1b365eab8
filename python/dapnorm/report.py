"""Lines that explain a failure."""
from __future__ import annotations

import os
import re
import traceback
from types import TracebackType
from typing import List, Optional

HERE = os.path.dirname(os.path.abspath(__file__))
# Files whose lines are not those of a test.
OTHERS = re.compile(r"/contextlib\.py$|/_pytest/|/pluggy/|/unittest/")


def quoted(title: str, text: str, most: int = 10) -> str:
    """The last lines of a text under a title, or nothing if there are none."""
    lines = text.rstrip().splitlines()[-most:]
    return "\n".join([f"{title}:", *(f"  {it}" for it in lines)]) if lines else ""


def user_frames(where: Optional[TracebackType]) -> List[str]:
    """The lines of the test that led to an error, the innermost first."""
    frames = [it for it in traceback.extract_tb(where) if not it.filename.startswith((HERE, "<")) and not OTHERS.search(it.filename)]
    return [f"  {os.path.relpath(it.filename)}:{it.lineno}: {it.line}" for it in reversed(frames[-3:])]
