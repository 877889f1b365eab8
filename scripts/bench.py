"""Measures `dapnorm` on generated frames and sessions, and compares it with short Python scripts that write the same bytes.

    python3 scripts/bench.py [--size small] [--json FILE]
"""
import os
import subprocess
import sys
import tempfile
from typing import NamedTuple

from generated_inputs import changed, frames, renumbered, session, small_requests, trace
from measuring import ROUNDS, SCRIPTS, TOP, Figures, digest, measure, options

RULES = os.path.join(TOP, "examples", "rules", "debugpy.rules")


class Sizes(NamedTuple):
    """Bytes of frames, of sessions for `normalise`, of sessions for the other commands; and counts of small requests."""

    frames: int
    sessions: tuple
    large: tuple
    requests: tuple


SIZES = {
    "full": Sizes(50_000_000, (1_000_000, 10_000_000, 100_000_000), (10_000_000, 100_000_000), (100_000, 1_000_000)),
    "small": Sizes(100_000, (20_000, 100_000), (20_000, 100_000), (100, 1_000)),
}


class Benchmark:
    """Measures the commands in turn, prints each figure, and collects the figures."""

    def __init__(self, chosen, folder):
        self.program = chosen.program
        self.size = chosen.size
        self.sizes = SIZES[chosen.size]
        self.figures = Figures(chosen.size)
        self.folder = folder

    def path(self, name):
        return os.path.join(self.folder, name)

    def heading(self, title):
        rounds = ROUNDS[self.size]
        print(f"{title}, {f'the shortest of {rounds} runs' if rounds > 1 else 'one run'} each")

    def measured(self, program, command, words, given, path=None, status=0):
        """Measures a program on an input, prints the figures and collects them. Standard input is the file `path`, by default the input."""
        found = measure(words, path or given.path, self.size, status)
        counts = {"bytes": given.size, "records": given.records, "requests": given.requests}
        self.figures.add(found, input=given.kind, program=program, command=command, **counts)
        speed = given.size / 1e6 / found.seconds
        print(f"{program + ' ' + command:30} {found.seconds:6.2f} s {speed:7.1f} MB/s {found.memory / 1e6:8.1f} MB of memory", flush=True)
        return found

    def beside_script(self, command, given, *words, path=None):
        """Measures a command and the script that does the same work; both have to write the same bytes."""
        script = os.path.join(SCRIPTS, f"{command}_reference.py")
        name = " ".join([command, *(word for word in words if word.startswith("--"))])
        ours = self.measured("dapnorm", name, [self.program, command, *words], given, path)
        theirs = self.measured("script", name, [sys.executable, script, *words], given, path)
        if ours.output != theirs.output:
            sys.exit(f"dapnorm {name} and the script wrote different bytes")
        print(f"the same bytes, {theirs.seconds / ours.seconds:.1f} times as fast as the script")

    def compact(self):
        given = frames(self.path("frames"), self.sizes.frames)
        self.heading(f"{given.size / 1e6:.1f} MB in {given.records} frames")
        self.beside_script("compact", given)

    def check(self, given):
        found = self.measured("dapnorm", "check --complete", [self.program, "check", "--complete"], given)
        if found.output != digest(f"accepted records={given.records} open=0,0\n".encode()):
            sys.exit(f"dapnorm check did not accept {given.records} records")
        messages, each = given.records / found.seconds, found.seconds / given.requests * 1e6
        print(f"{messages:.0f} messages checked per second, {each:.2f} us per request")

    def normalise(self):
        for wanted in self.sizes.sessions:
            given = session(self.path("session"), wanted)
            self.heading(f"a session of {given.size / 1e6:.1f} MB in {given.records} records")
            self.check(given)
            self.beside_script("normalise", given)
            if wanted == self.sizes.large[0]:
                self.beside_script("normalise", given, "--per-stop")

    def compare(self):
        for wanted in self.sizes.large:
            one = session(self.path("session"), wanted)
            other = renumbered(one, self.path("other"))
            both = one._replace(kind="two sessions", size=one.size + other.size, records=2 * one.records, requests=2 * one.requests)
            self.heading(f"two sessions of {both.size / 1e6:.1f} MB together")
            self.beside_script("compare", both, one.path, other.path, path=os.devnull)

    def record_and_show(self):
        for wanted in self.sizes.large:
            given = session(self.path("session"), wanted)
            pieces = trace(given, self.path("trace"))
            self.heading(f"a session of {given.size / 1e6:.1f} MB in {given.records} records, and its trace")
            self.beside_script("record", pieces)
            self.beside_script("show", given)

    def ours(self, command, given, *words, status=0, prints=None):
        """Measures a command without a script beside it. It has to end with this status, and to print the given text, if there is one."""
        name = " ".join([*command.split(), *("--rules" for word in words if word == "--rules")])
        found = self.measured("dapnorm", name, [self.program, *command.split(), *words], given, status=status)
        if prints is not None and found.output != digest(prints.encode()):
            sys.exit(f"dapnorm {name} did not print {prints!r}")

    def golden(self, given):
        """Writes the golden file of an input, by the rules, and returns its path."""
        path = self.path("golden")
        with open(given.path, "rb") as source:
            words = [self.program, "golden", "--update", path, "--rules", RULES]
            subprocess.run(words, stdin=source, stdout=subprocess.DEVNULL, check=True)
        return path

    def with_rules(self):
        """The commands of a golden test: the session again, with other ids, and with other values of some variables."""
        for wanted in self.sizes.large:
            one = session(self.path("session"), wanted)
            other = renumbered(one, self.path("other"))
            both = one._replace(size=one.size + other.size, records=2 * one.records, requests=2 * one.requests)
            differs = both._replace(path=changed(other, self.path("changed")).path)
            golden = self.golden(one)
            self.heading(f"a session of {one.size / 1e6:.1f} MB in {one.records} records, with rules and beside others")
            self.ours("mask", one, RULES)
            self.ours("order", one, RULES)
            self.ours("golden", other, golden, "--rules", RULES, prints="same\n")
            self.ours("compare", both, one.path, other.path, "--rules", RULES)
            self.ours("diff --all", differs, one.path, differs.path, status=1)
            self.ours("suggest", differs, one.path, differs.path)
            self.ours("show --full", one)

    def small_requests(self):
        for count in self.sizes.requests:
            given = small_requests(self.path("session"), count)
            self.heading(f"{count} small requests with mixed numbers")
            self.check(given)

    def all(self):
        self.compact()
        self.normalise()
        self.compare()
        self.record_and_show()
        self.with_rules()
        self.small_requests()


def main():
    chosen = options(__doc__, program="bin/dapnorm")
    with tempfile.TemporaryDirectory() as folder:
        benchmark = Benchmark(chosen, folder)
        benchmark.all()
    if chosen.json:
        benchmark.figures.write(chosen.json)


if __name__ == "__main__":
    main()
