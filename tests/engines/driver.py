"""Calls the engines of `dapnorm` through the program of crates/driver: over devices that fail or move little at a time, with limits that
the program does not have, and with growths of memory that are refused."""
import os
import subprocess
import sys
from typing import Callable, Iterable, Iterator, NamedTuple, Optional

from tests.program.faulty import side_by_side
from tests.report import TOP, Report

DRIVER = os.path.join(TOP, "crates", "driver", "out", "driver")
NEVER = 2**64 - 1
TURNS = 10_000


class Input(NamedTuple):
    """How an input comes: what is read first, what comes after it for ever (nothing: it ends), how many bytes a read gives at most, and
    after how many bytes a read fails."""
    text: bytes = b""
    then: bytes = b""
    piece: int = 65_536
    fails_at: int = NEVER


class Output(NamedTuple):
    """How a text is taken: for how many bytes memory is made beforehand, how many bytes a write takes at most, after how many it fails,
    whether it then takes nothing in place of an error, and whether a flush fails."""
    room: int = 4096
    piece: int = 4096
    fails_at: int = 4096
    takes_nothing: bool = False
    fails_to_flush: bool = False


class Limits(NamedTuple):
    """The limits of an engine; these are those of the program."""
    header: int = 4096
    content: int = 16_777_216
    ids: int = 2_147_483_647
    input: int = 4_294_967_296


class Call(NamedTuple):
    """A function of the library, by the name that the driver has for it, and what it is called with. The tables of names are the engine's
    own, `plain` or `indexed`; allocation number `turn` fails, if it is not 0."""
    name: str
    a: Input = Input()
    b: Input = Input()
    tables: str = "own"
    mode: str = "whole"
    complete: bool = False
    limits: Limits = Limits()
    output: Output = Output()
    turn: int = 0


class Answer(NamedTuple):
    """The result, as Rust writes it; what was written, or what a normal text or the pairs of a renaming are; what was reported of an error;
    how many bytes each input gave; how often the output was flushed; and whether the allocation failed."""
    result: str
    output: bytes
    errors: bytes
    given: tuple
    flushes: int
    refused: bool


class DriverFailed(Exception):
    """The driver ended before it had answered each call."""


def bytes_of(call: Call) -> bytes:
    words = [call.name, call.tables, call.mode, int(call.complete), *call.limits, *map(int, call.output), call.turn]
    texts = []
    for each in (call.a, call.b):
        words += [len(each.text), len(each.then), each.piece, each.fails_at]
        texts += [each.text, each.then]
    return " ".join(map(str, words)).encode() + b"\n" + b"".join(texts)


def read_answers(text: bytes) -> Iterator[Answer]:
    place = 0
    while place < len(text):
        end = text.index(b"\n", place)
        words = text[place:end].decode().split(" ", 6)
        given_a, given_b, flushes, refused, written, reported = map(int, words[:6])
        middle = end + 1 + written
        place = middle + reported
        if place > len(text):
            raise DriverFailed("an answer is cut")
        yield Answer(words[6], text[end + 1:middle], text[middle:place], (given_a, given_b), flushes, refused == 1)


def answers(calls: Iterable[Call], shim: Optional[str] = None) -> list:
    """The answers to calls, by one process."""
    asked = list(calls)
    environment = {**os.environ, "LD_PRELOAD": shim} if shim else None
    ran = subprocess.run([DRIVER], input=b"".join(map(bytes_of, asked)), capture_output=True, env=environment, timeout=600)
    if ran.returncode != 0:
        raise DriverFailed(f"the driver ended with status {ran.returncode}: {ran.stderr.decode(errors='replace').strip()}")
    found = list(read_answers(ran.stdout))
    if len(found) != len(asked):
        raise DriverFailed(f"the driver answered {len(found)} of {len(asked)} calls")
    return found


def answer(call: Call) -> Answer:
    return answers([call])[0]


def many_answers(calls: Iterable[Call], count: int = 2000) -> list:
    """The answers to many calls, by a process for each so many of them, as many at a time as there are processors."""
    asked = list(calls)
    parts = [asked[at:at + count] for at in range(0, len(asked), count)]
    return [found for part in side_by_side(answers, parts) for found in part]


def turns(call: Call, shim: str) -> list:
    """The answers with the first growth refused, then the second, and so on, each with the answer that the same call gives next, with
    memory, in the same process. The last one met no growth to be refused."""
    found: list = []
    while len(found) < TURNS:
        first = len(found) + 1
        given = answers([each for turn in range(first, first + 50) for each in (call._replace(turn=turn), call)], shim)
        for each, again in zip(given[::2], given[1::2]):
            found.append((each, again))
            if not each.refused:
                return found
    raise DriverFailed(f"{call.name} meets a growth after the {TURNS}th")


class Asked:
    """Calls that are made together, with the answer that each must give; a different answer is reported."""

    def __init__(self, report: Report, name: str):
        self.report, self.name = report, name
        self.cases: list = []

    def ask(self, call: Call, result: str, output: Optional[bytes] = None, **more) -> None:
        """Wants this result, and of what is named these: output, errors, given, flushes. `given` may be a function that says whether it
        is right."""
        wanted = {"result": result, **({} if output is None else {"output": output}), **more}
        self.cases.append((call, wanted))

    def close(self) -> None:
        found = many_answers([call for call, _ in self.cases])
        for number, ((call, wanted), each) in enumerate(zip(self.cases, found)):
            wrong = [f"{name} {getattr(each, name)!r}" for name, value in wanted.items() if not is_wanted(getattr(each, name), value)]
            self.report.check(f"{self.name}, call {number}, {call.name}", not wrong, "; ".join(wrong)[:500])
        self.report.check(f"{self.name} makes calls", bool(self.cases))


def is_wanted(found, wanted) -> bool:
    return bool(wanted(found)) if callable(wanted) else found == wanted


def run_tests(tests: Iterable[Callable], *more) -> int:
    """Runs each test with a report and what it takes besides; one over which the driver fails has failed."""
    report = Report()
    if not report.check("the gate has built the driver", os.access(DRIVER, os.X_OK)):
        return report.close()
    for test in tests:
        try:
            test(report, *more)
        except (DriverFailed, subprocess.TimeoutExpired) as failure:
            report.check(test.__name__, False, str(failure))
    return report.close()


def main() -> int:
    """A call that is malformed ends the driver with status 1 and a message, and one with limits that are not sound is refused by its
    answer."""
    def refuses(report):
        for text in (b"compact\n", b"\n", b"compact", bytes_of(Call("other")), bytes_of(Call("compact", Input(b"x" * 9)))[:-1]):
            ran = subprocess.run([DRIVER], input=text, capture_output=True, timeout=60)
            report.check(f"{text[:20]!r} ends the driver", ran.returncode == 1 and ran.stdout == b"" and ran.stderr != b"", repr(ran))
        for limits in (Limits(header=31), Limits(content=2**31), Limits(ids=2**31), Limits(input=2**62 + 1)):
            report.check(f"{limits} are refused", answer(Call("compact", limits=limits)).result == "Refused")
    return run_tests([refuses])


if __name__ == "__main__":
    sys.exit(main())
