"""Compares a session with its golden file, and explains a failure."""
from __future__ import annotations

import contextlib
import difflib
import os
import re
import tempfile
from types import TracebackType
from typing import Iterator, List, Mapping, NamedTuple, Optional, Type, Union

from .channel import Command
from .client import Adapter
from .errors import GoldenFailed, SessionError, TimedOut
from .program import Ran, command, is_trace, is_transcript, program, run
from .report import quoted, user_frames
from .words import Words

PathLike = Union[str, "os.PathLike[str]"]
# How many records before and after a difference are shown, and how many lines of a list of differences.
AROUND, FEW, MOST = 2, 5, 16
LONGEST = 200


def must_update() -> bool:
    """Whether golden files are to be written: UPDATE_GOLDEN=1 in the environment."""
    return os.environ.get("UPDATE_GOLDEN", "") not in ("", "0")


class Comparison(NamedTuple):
    """A golden file, and how a session is compared with it. A golden file whose name ends in `.yaml` or `.yml` is written as a transcript."""

    golden: str
    rules: Optional[str] = None
    words: Mapping[str, str] = {}
    per_stop: bool = False
    open: bool = False

    def options(self) -> List[str]:
        return [*(["--rules", self.rules] if self.rules else []), *(["--per-stop"] if self.per_stop else [])]

    def check(self, path: str, update: bool) -> str:
        """Compares a trace, a recording or a transcript with the golden file, or updates that. Returns the line that the program prints."""
        if update:
            os.makedirs(os.path.dirname(os.path.abspath(self.golden)), exist_ok=True)
        recording = self.recorded(path)
        options = [*self.options(), *(["--open"] if self.open else [])]
        ran = run("golden", *options, *(["--update"] if update else []), self.golden, recording)
        if ran.status == 0:
            if recording != path:
                os.unlink(recording)
            self._note(ran.lines[0])
            return ran.lines[0]
        if ran.status == 1:
            text = self._difference(ran, recording)
        elif "does not exist" in ran.errors:
            text = f"{name_of(self.golden)} does not exist yet, so nothing was compared: --dapnorm-update, or UPDATE_GOLDEN=1, makes it\n  {self.golden}"
        else:
            state = "has the new text" if "replaced, but not synced" in ran.errors else "is unchanged"
            text = f"dapnorm golden ends with status {ran.status} ({name_of(self.golden)} {state})\n{ran.errors}"
        is_damaged = not update and ran.status == 2 and ran.errors.startswith(f"dapnorm: golden: {self.golden}: ")
        further = [self._command("show", "--faulty" if ran.status == 2 and not is_damaged else None, recording)]
        if ran.status == 1:
            further.insert(0, self._command("diff", "--all", *self.options(), self.golden, recording))
        allow = self._allow(recording) if ran.status == 1 and ran.lines[0].startswith("differ ") else []
        accept = [f"to accept it: pytest --dapnorm-update, python3 -m dapnorm --update, UPDATE_GOLDEN=1, or\n  {self._command('golden', '--update', *options, self.golden, recording)}"]
        has_accept = is_damaged or ran.status in (1, 4)
        raise GoldenFailed("\n".join([text, *look_further(path, further), *allow, *(accept if has_accept else [])]), ran.status)

    def _allow(self, recording: str) -> List[str]:
        """How to allow what differs in each run: the command that prints rules for it."""
        rules = ["--rules", self.rules] if self.rules else []
        place = f"add the rules that this prints to {name_of(self.rules)}" if self.rules else "write the rules that this prints to a file for rules="
        return [f"to allow it in each run: {place}, and update the golden file", f"  {self._command('suggest', *rules, self.golden, recording)}"]

    def _note(self, line: str) -> None:
        """Notes in the file DAPNORM_COMPARED, if the environment names one, that the golden file was compared."""
        notes = os.environ.get("DAPNORM_COMPARED")
        if notes and line == "same":
            with open(notes, "a", encoding="utf-8") as file:
                file.write(os.path.realpath(self.golden) + "\n")

    @staticmethod
    def _command(*words: Optional[str]) -> str:
        return command(*(near(it) if it is not None and os.path.isabs(it) else it for it in words))

    def recorded(self, path: str) -> str:
        """Writes the recording of a trace, with the words, next to the trace, and returns its path. Without words, a recording or a transcript
        is used unchanged."""
        with open(path, "rb") as file:
            content = file.read()
        if is_trace(content):
            content = self._converted(path, "record", run("record", "--explain", given=content))
        elif not self.words:
            return path
        elif is_transcript(content):
            content = self._converted(path, "mask", run("mask", "--explain", os.devnull, path))
        return self._write(path, content)

    def _converted(self, path: str, name: str, ran: Ran) -> bytes:
        """Returns the recording that the command of this name printed for a session. Raises `GoldenFailed` if the command failed."""
        if ran.status != 0:
            text = f"dapnorm {name} ends with status {ran.status} ({name_of(self.golden)} is unchanged)\n{ran.errors}"
            raise GoldenFailed("\n".join([text, f"the trace is kept: {path}"]), ran.status)
        return ran.output

    def _write(self, path: str, recording: bytes) -> str:
        with open(free_beside(path), "wb") as file:
            file.write(Words(self.words).in_recording(recording))
        return file.name

    def _difference(self, ran: Ran, recording: str) -> str:
        found = re.match(r"differ (\d+)$", ran.lines[0]) if ran.lines else None
        if found is None:
            return "\n".join([f"{name_of(self.golden)}: dapnorm golden ends with status 1", *ran.lines])
        number, name = int(found[1]), name_of(self.golden)
        line = re.search(r" starts at (line \d+)$", ran.errors)
        place = f"record {number}, {line[1]}" if line else f"record {number}"
        title = f"the session differs from {name} at {place} (A: {name}, B: this run)"
        told = [it if it.startswith(("A ", "B ")) else shortened(it) for it in ran.lines[1:]]
        if len(told) > MOST:
            told = [*told[:MOST], f".. and {len(told) - MOST} more values of this record"]
        return "\n".join([title, *told, *self._totals(recording), *self._neighbours(number, recording)])

    def _totals(self, recording: str) -> List[str]:
        """How many records differ, and which are in one of the sessions only or in another order."""
        ran = run("diff", "--all", *self.options(), self.golden, recording)
        if ran.status != 1:
            return []
        single = [f"  {shortened(it)}" for it in ran.lines[1:] if re.match(r"\d+/- |-/\d+ |out of order: ", it)]
        return [f"all differences: {ran.lines[0].removeprefix('differ: ')}", *single[:FEW], *(["  .."] if len(single) > FEW else [])]

    def _neighbours(self, number: int, recording: str) -> List[str]:
        """The records before and after a difference, in both sessions. What is in one of them only is marked A or B."""
        normal = recording + ".normal"
        ran = run("golden", *self.options(), "--open", "--update", normal, recording)
        with contextlib.suppress(OSError):
            a, b = shown(self.golden, number), shown(normal, number)
            os.unlink(normal)
            if ran.status == 0 and (a or b):
                return ["the records around it:", *merged(a, b)]
        return []

    def as_far_as_it_came(self, path: str) -> List[str]:
        """Compares the messages of a session that failed with the golden file."""
        with open(path, "rb") as file:
            content = file.read()
        recording = self._write(path, run("record", given=content).output)
        name = name_of(self.golden)
        if os.path.exists(self.golden):
            words, title = ["diff", "--all", *self.options(), self.golden, recording], f"compared with {name}, as far as it came (A: {name}, B: this run):"
        else:
            words, title = ["show", recording], f"{name} does not exist yet; these messages arrived:"
        ran = run(*words)
        lines = [shortened(it) for it in [*ran.lines, *ran.errors.splitlines()]]
        if not lines:
            return ["no complete message arrived"]
        cut = [f"  .. and {len(lines) - MOST} more lines"] if len(lines) > MOST else []
        return [title, *(f"  {it}" for it in lines[:MOST]), *cut, *look_further(path, [self._command(*words), self._command("show", "--full", recording)])]


def free_beside(path: str) -> str:
    """A path for the recording of a trace, next to it. No file that exists is replaced."""
    folder, name = os.path.split(os.path.abspath(path))
    stem = re.sub(r"\.(trace|rec)$", "", name)
    place = os.path.join(folder, stem + ".rec")
    if os.access(folder, os.W_OK) and not os.path.exists(place):
        return place
    number, place = tempfile.mkstemp(prefix=stem + "-", suffix=".rec")
    os.close(number)
    return place


def shortened(line: str) -> str:
    return line if len(line) <= LONGEST else line[:LONGEST] + "..."


def name_of(path: str) -> str:
    return os.path.basename(path)


def look_further(trace: str, commands: List[str]) -> List[str]:
    return [f"the trace is kept: {trace}", "to look further:", *(f"  {it}" for it in commands)]


def near(path: str) -> str:
    """A path as one types it: relative, if it is below the present folder."""
    relative = os.path.relpath(path)
    return path if relative.startswith("..") else relative


def shown(path: str, number: int) -> List[str]:
    """The lines of `dapnorm show` for the records around this one."""
    lines, at = [], 0
    for line in run("show", path).lines:
        found = re.match(r"(\d+) [<>] ", line)
        at = int(found[1]) if found else at
        if abs(at - number) <= AROUND:
            lines.append(shortened(line))
    return lines


def merged(a: List[str], b: List[str]) -> List[str]:
    """The lines of both, in order. A line that only one of them has is marked A or B."""
    lines = []
    for kind, a_from, a_to, b_from, b_to in difflib.SequenceMatcher(None, a, b, autojunk=False).get_opcodes():
        if kind == "equal":
            lines += [f"    {it}" for it in a[a_from:a_to]]
        else:
            lines += [f"  A {it}" for it in a[a_from:a_to]] + [f"  B {it}" for it in b[b_from:b_to]]
    return lines


class GoldenSession:
    """A session that is compared with its golden file as it ends: `with GoldenSession(..) as adapter:`."""

    def __init__(self, adapter: Union[Adapter, Command], comparison: Comparison, update: Optional[bool] = None, timeout: Optional[float] = None) -> None:
        self.comparison, self.update = comparison, must_update() if update is None else update
        self.result, self.is_over = "", False
        try:
            program()
            if comparison.rules is not None and not os.path.exists(comparison.rules):
                raise GoldenFailed(f"the rules file does not exist, so nothing was compared\n  {comparison.rules}", 4)
        except GoldenFailed:
            if isinstance(adapter, Adapter):
                adapter.kill()
            raise
        self.adapter = adapter if isinstance(adapter, Adapter) else Adapter.start(adapter, timeout=timeout)
        if timeout is not None:
            self.adapter.timeout = timeout

    def __enter__(self) -> Adapter:
        return self.adapter

    def __exit__(self, kind: Optional[Type[BaseException]], error: Optional[BaseException], where: Optional[TracebackType]) -> None:
        self.is_over = True
        try:
            if error is None:
                self.adapter.close()
        except SessionError as failure:
            failure.report = self.report(failure, None)
            raise
        finally:
            self.adapter.kill()
        if isinstance(error, SessionError):
            error.report = self.report(error, where)
        if error is None:
            self.result = self._compared()

    def _compared(self) -> str:
        adapter, path = self.adapter, self.adapter.keep()
        result = self.comparison.check(path, self.update)
        if not adapter.is_named:
            os.unlink(path)
        return result

    def report(self, error: BaseException, where: Optional[TracebackType]) -> str:
        """Further lines on a failure: the line of the test, the output, standard error, and the messages compared with the golden file."""
        adapter = self.adapter
        adapter.keep()
        output = [f"the last output: {it}" for it in adapter.lines if '"output"' in it and '"telemetry"' not in it][-1:]
        before = getattr(error, "report", "")
        longer = ["  to wait longer: timeout= of the call, or ADAPTER_TIMEOUT"] if isinstance(error, TimedOut) else []
        parts = [*user_frames(where), *longer, *([before] if before else []), *output]
        parts += filter(None, [quoted("standard error of the adapter ends with", adapter.errors(), 5)])
        parts += self.comparison.as_far_as_it_came(adapter.trace)
        return "\n".join([*parts, "the last messages:", *(f"  {it}" for it in adapter.lines[-8:])])


class DapSession:
    """The fixture `dap_session`: starts an adapter for a session that is compared with a golden file as the `with` block ends.

    Relative paths of the golden file and the rules are below the folder of the test file.
    """

    def __init__(self, folder: str, update: Optional[bool] = None) -> None:
        self._folder, self._update = folder, update
        self.sessions: List[GoldenSession] = []

    def __call__(
        self, adapter: Union[Adapter, Command], golden: PathLike, *, rules: Optional[PathLike] = None,
        words: Optional[Mapping[str, str]] = None, per_stop: bool = False, open: bool = False, timeout: Optional[float] = None,
    ) -> GoldenSession:
        place = None if rules is None else os.path.join(self._folder, rules)
        comparison = Comparison(os.path.join(self._folder, golden), place, words or {}, per_stop, open)
        self.sessions.append(self.session(adapter, comparison, self._update, timeout))
        return self.sessions[-1]

    def session(
        self, adapter: Union[Adapter, Command], comparison: Comparison, update: Optional[bool], timeout: Optional[float],
    ) -> GoldenSession:
        return GoldenSession(adapter, comparison, update, timeout)

    def finish(self) -> None:
        """Raises `GoldenFailed` if a session was started and not compared."""
        left = [it for it in self.sessions if not it.is_over]
        for session in left:
            session.adapter.kill()
        if left:
            name = name_of(left[0].comparison.golden)
            raise GoldenFailed(f"a session was started, and not compared with {name}: write `with dap_session(..) as adapter:`", 1)


def golden(
    session: Union[Adapter, PathLike], golden: PathLike, *, rules: Optional[PathLike] = None, words: Optional[Mapping[str, str]] = None,
    per_stop: bool = False, open: bool = False, update: Optional[bool] = None,
) -> str:
    """Compares a session that has ended with its golden file, or writes that with `update`.

    The session is an adapter that was closed, or the path of a trace, a recording or a transcript. Returns the line that `dapnorm golden` prints:
    `same`, `wrote GOLDEN (N records)` or `unchanged`. Raises `GoldenFailed` if the sessions differ, or if the program rejects one.
    """
    comparison = Comparison(os.fspath(golden), None if rules is None else os.fspath(rules), words or {}, per_stop, open)
    if isinstance(session, Adapter):
        session.close()
        path = session.keep()
    else:
        path = os.fspath(session)
    result = comparison.check(path, must_update() if update is None else update)
    if isinstance(session, Adapter) and not session.is_named:
        os.unlink(path)
    return result


@contextlib.contextmanager
def golden_session(
    adapter: Union[Adapter, Command], golden: PathLike, *, rules: Optional[PathLike] = None, words: Optional[Mapping[str, str]] = None,
    per_stop: bool = False, open: bool = False, update: Optional[bool] = None, timeout: Optional[float] = None,
) -> Iterator[Adapter]:
    """A session that is compared with its golden file as the block ends. `adapter` is a command, or an adapter that was started."""
    comparison = Comparison(os.fspath(golden), None if rules is None else os.fspath(rules), words or {}, per_stop, open)
    with GoldenSession(adapter, comparison, update, timeout) as session:
        yield session
