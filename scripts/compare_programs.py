"""Runs two programs on random inputs, and reports each run in which status, output, errors or files differ.

For a change that must not change what the program does: `compare_programs.py OLD NEW --from 0 --to 20000`. Equal numbers give equal runs.
The inputs are sessions of `tests/program/random_sessions.py`, other forms of them, damaged ones, and random rules files."""
import argparse
import copy
import json
import os
import random
import re
import shutil
import subprocess
import sys
import tempfile
from concurrent.futures import ThreadPoolExecutor
from typing import List, NamedTuple, Optional

TOP = os.path.dirname(os.path.dirname(os.path.abspath(__file__)))
sys.path.insert(0, TOP)
from tests.program import random_sessions as sessions  # noqa: E402

COMMANDS = [
    ["normalise"], ["check"], ["check", "--complete"], ["compact"], ["show"], ["show", "--full"], ["show", "--record", "3"],
    ["mask", "rules"], ["order", "rules"], ["compare"], ["diff"], ["diff", "--all"], ["suggest"], ["golden"], ["golden", "--update"],
]
PAIRS = ("compare", "diff", "suggest")
RULED = ("compare", "diff", "golden", "suggest")
NUMBERED = ("normalise", "check", "compare", "diff", "golden")
EXPLAINED = ("compact", "normalise", "check", "compare", "diff", "show", "mask", "suggest")
ACTIONS = ["blank", "digits", "hex", "long", "uuid"]
ADDED = ["x", "seen", "other", "list"]
TEXTS = ["", "12", "0x7f3a", "at 7f3a1c90", "123e4567-e89b-12d3-a456-426614174000", "/home/me/x", "é\n"]
VALUES = [*TEXTS, 7, -1, 2**63 - 1, True, None, [], {}, [1, "a"]]
EXTRA_RULES = [
    "drop event output", "drop event thread", "drop event output category=12", "join event output per-stop", "fill event * x 0",
    'omit response * body.variables["v"]', 'word "/home/me" "<home>"', "per-stop", "# none", "",
]


class Run(NamedTuple):
    """What a run of a program leaves."""

    status: int
    output: bytes
    errors: bytes
    files: dict


def spots(value: object, path: str) -> list:
    """Returns the place of each value below this one, as the rules name it, with the container and the key."""
    found = []
    named = isinstance(value, list) and any(isinstance(it, dict) and "name" in it for it in value)
    for key, child in value.items() if isinstance(value, dict) else enumerate(value) if isinstance(value, list) else ():
        if isinstance(value, dict):
            below = f"{path}.{key}" if path else key
        else:
            below = f'{path}["{child["name"]}"]' if named and isinstance(child, dict) and key % 2 and "name" in child else path + "[]"
        found.append((below, value, key))
        found += spots(child, below)
    return found


class Trial:
    """One random run: the files of its folder, and its words."""

    def __init__(self, number: int) -> None:
        self.dice = random.Random(number)
        found = sessions.session_of(self.dice, marked=False)
        swaps = sessions.rules_of(self.dice, found)
        self.decorate(found)
        self.files = {"a": self.recording(found), "b": self.recording(self.other(swaps, found)), "rules": self.rules(swaps, found)}
        if self.dice.random() < 0.5:
            self.files["saved"] = self.dice.choice([self.files["a"], b"", b"x"])
        self.words = self.command()
        if self.words[0] == "compact":
            self.files["a"] = re.sub(rb"\n[<>](?=Content)", b"", self.files["a"])[1:-1]

    def value(self) -> object:
        """Returns a random value that no other place shares."""
        return copy.deepcopy(self.dice.choice(VALUES))

    def decorate(self, found: list) -> None:
        """Puts values of each type into bodies and arguments."""
        for _, message in found:
            for part in ("body", "arguments"):
                if part in message and self.dice.random() < 0.4:
                    message[part][self.dice.choice(ADDED)] = self.value()
                if part in message and self.dice.random() < 0.1:
                    message[part]["list"] = [{"name": name, "value": self.value()} for name in "aba"[: self.dice.randrange(4)]]

    def other(self, swaps: list, found: list) -> list:
        """Returns another form of the session."""
        made = json.loads(json.dumps(found))
        if self.dice.random() < 0.7:
            made = sessions.exchanged(self.dice, swaps, made)
        if self.dice.random() < 0.7:
            made = sessions.renamed(self.dice, made)
        for _ in range(self.dice.choice([0, 0, 1, 3])):
            _, container, key = self.spot(self.dice.choice(made)[1])
            container[key] = self.value()
        if self.dice.random() < 0.2:
            del made[self.dice.randrange(len(made))]
        return made

    def spot(self, message: dict) -> tuple:
        """Returns a random place of a message, mostly one of a value that `decorate` put there."""
        found = spots(message, "")
        added = [it for it in found if it[2] in ADDED]
        return self.dice.choice(added if added and self.dice.random() < 0.9 else found)

    def recording(self, found: list) -> bytes:
        """Returns a recording of the messages, which is sometimes damaged."""
        text = b""
        for side, message in found:
            content = json.dumps(message, ensure_ascii=self.dice.random() < 0.5, sort_keys=self.dice.random() < 0.3).encode()
            if self.dice.random() < 0.004:
                content = content[:-1] + self.dice.choice([b',"x":1.5}', b',"x":1,"x":2}', b',"seq":1}', b"", b',"y":1e400}'])
            text += (b">" if side == "client" else b"<") + b"Content-Length: %d\r\n\r\n%s\n" % (len(content), content)
        for _ in range(self.dice.choice([0] * 9 + [1, 2])):
            at = self.dice.randrange(len(text) + 1)
            text = self.dice.choice([text[:at], text[:at] + bytes([self.dice.randrange(256)]) + text[at + 1:], text + text[at:]])
        return text

    def rules(self, swaps: list, found: list) -> bytes:
        """Returns a rules file, which is sometimes damaged."""
        lines = sessions.lines_of(swaps).decode().splitlines()
        for _ in range(self.dice.choice([0, 1, 2, 5])):
            _, message = self.dice.choice(found)
            name = sessions.word_of(None if self.dice.random() < 0.3 else message.get("event", message.get("command")))
            place, _, _ = self.spot(message)
            if not place.startswith(("body.", "arguments.")):
                continue
            lines.append(f"{self.dice.choice(ACTIONS)} {message['type']} {name} {place}")
        lines += self.dice.sample(EXTRA_RULES, self.dice.choice([0, 0, 1, 2]))
        if self.dice.random() < 0.05:
            lines.append(self.dice.choice(["blank", "swap response *", "blank event * [", "drop request x", "digits event x y z"]))
        self.dice.shuffle(lines)
        return "".join(line + "\n" for line in lines).encode()

    def command(self) -> List[str]:
        """Returns the words of the command line after the program."""
        words = list(self.dice.choice(COMMANDS))
        name = words[0]
        for option, commands, chance in (("--per-stop", NUMBERED, 0.2), ("--explain", EXPLAINED, 0.3)):
            words += [option] * (name in commands and self.dice.random() < chance)
        if name in RULED and self.dice.random() < 0.7:
            words += ["--rules", "rules"]
        if self.dice.random() < 0.1 and "rules" in words and name != "order":
            words += ["--word", "me=you"]
        words += ["--open"] * (name == "golden" and self.dice.random() < 0.7)
        words += ["a", "b"] if name in PAIRS else ["saved", "a"] if name == "golden" else ["a"]
        if name in ("normalise", "compact", "mask", "order", "show") and self.dice.random() < 0.3:
            words += ["-o", "saved"]
        return words

    def run(self, program: str) -> Run:
        """Runs the program in a folder of its own."""
        folder = tempfile.mkdtemp(prefix="compare-")
        try:
            for name, text in self.files.items():
                with open(os.path.join(folder, name), "wb") as file:
                    file.write(text)
            done = subprocess.run([program, *self.words], cwd=folder, stdin=subprocess.DEVNULL, capture_output=True, timeout=120)
            left = {}
            for name in sorted(os.listdir(folder)):
                with open(os.path.join(folder, name), "rb") as file:
                    left[name] = file.read()
            return Run(done.returncode, done.stdout, done.stderr, left)
        finally:
            shutil.rmtree(folder)


def difference(number: int, old: str, new: str) -> Optional[str]:
    """Returns what differs in the run with this number, or None."""
    trial = Trial(number)
    one, other = trial.run(old), trial.run(new)
    if one == other:
        return None
    parts = [name for name in Run._fields if getattr(one, name) != getattr(other, name)]
    was, now = (f"{it.status} {it.errors[:200]!r}" for it in (one, other))
    return f"{number}: {' '.join(trial.words)}: {', '.join(parts)}: {was}, now {now}"


def called_dapnorm(program: str, folder: str) -> str:
    """Returns a link to the program with the name that help and errors of both programs are to show."""
    link = os.path.join(tempfile.mkdtemp(dir=folder), "dapnorm")
    os.symlink(os.path.abspath(program), link)
    return link


def main() -> int:
    parser = argparse.ArgumentParser(description=__doc__.split("\n", 1)[0])
    parser.add_argument("old")
    parser.add_argument("new")
    parser.add_argument("--from", dest="first", type=int, default=0)
    parser.add_argument("--to", dest="last", type=int, default=1000)
    parser.add_argument("--jobs", type=int, default=os.cpu_count())
    chosen = parser.parse_args()
    with tempfile.TemporaryDirectory() as folder, ThreadPoolExecutor(chosen.jobs) as pool:
        old, new = called_dapnorm(chosen.old, folder), called_dapnorm(chosen.new, folder)
        found = [it for it in pool.map(lambda number: difference(number, old, new), range(chosen.first, chosen.last)) if it]
    print(*found, f"{chosen.last - chosen.first} runs, {len(found)} differ", sep="\n")
    return 1 if found else 0


if __name__ == "__main__":
    sys.exit(main())
