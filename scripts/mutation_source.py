"""Which functions a wrong body changes, found in the tokens of its files before and after the edit.

A file consists of the bodies of its functions and the rest, its *frame*. An edit that keeps the frame changes bodies alone,
and then no function but those can be refused by a reason of its own."""
import json
import os
import re
import subprocess
import tempfile
from typing import Dict, Iterable, List, NamedTuple, Optional, Tuple

TOKEN = re.compile(r"^\d+ \d+ \d+ (\w+) (.*)$")
NAME = re.compile(r"[A-Za-z_]\w*")


class Function(NamedTuple):
    """A function of the source: its module, the type or trait that it belongs to, the trait that its impl is of, and its cycle of calls."""

    module: str
    owner: str
    trait: str
    arguments: str
    name: str
    cycle: str

    def printed(self, crate: str, paths: Iterable[str]) -> Optional[str]:
        """Returns the path by which a check prints this function, among all that it prints, or None if none or several fit.

        After the type come the types that an impl fixes, as in `Tables+PlainNames::plain`, and then the trait and its arguments.
        A method whose impl is in another module than its type is printed with the type's module."""
        own = "::".join(it for it in (crate, self.module, self.owner) if it)
        ends = (r"(\+[\w+]+)?" if self.owner else "") + (self.trait + r"\w*" if self.trait else "") + "::" + self.name
        fronts = [re.escape(own)] + [rf"{crate}::([\w:]+::)?{self.owner}"] * bool(self.owner)
        fitting = ([it for it in paths if re.fullmatch(front + ends, it)] for front in fronts)
        found = next(filter(None, fitting), [])
        exact = f"{own}{self.trait}{self.arguments}::{self.name}"
        return exact if self.trait and exact in found else found[0] if len(found) == 1 else None

    def path(self) -> str:
        """Returns the path below the crate by which a check can be asked for this function.

        A check does not find a method at a type that its impl fixes, nor one whose impl is in another module than its type."""
        own = "::".join(it for it in (self.module, self.owner) if it)
        return f"{own}{self.trait}{self.arguments}::{self.name}" if own else self.name

    def unit(self) -> str:
        """Returns what is proved as one: the function, or the whole cycle of calls that it is a member of."""
        return "::".join([self.module, self.owner + self.trait + self.arguments, "+" + self.cycle if self.cycle else self.name])


class Header(NamedTuple):
    """What stands before a brace among the items: its kind, and the names that it gives."""

    kind: str
    name: str = ""
    trait: str = ""
    arguments: str = ""
    cycle: str = ""


def without_attributes(words: List[str]) -> Tuple[List[str], str]:
    """Returns an item's tokens without its attributes, and the cycle of calls that one of them names."""
    kept, depth, cycle = [], 0, ""
    for at, word in enumerate(words):
        if depth:
            depth += (word == "[") - (word == "]")
            if word == "cycle" and words[at + 1 : at + 2] == ["("]:
                cycle = words[at + 2]
        elif word == "[" and words[max(at - 2, 0) : at][-1:] in (["#"], ["!"]):
            depth = 1
        elif word != "#" and not (word == "!" and words[at - 1 : at] == ["#"]):
            kept.append(word)
    return kept, cycle


def type_name(words: List[str]) -> Tuple[str, str]:
    """Returns the last name of a path, and the names among its arguments."""
    depth, name, arguments = 0, "", ""
    for before, word in zip(["", *words], words):
        depth += (word == "<") - (word == ">" and before != "-")
        if NAME.fullmatch(word):
            name, arguments = (word, arguments) if depth == 0 else (name, arguments + word)
    return name, arguments


def impl_header(words: List[str]) -> Header:
    """Reads what follows the word impl: parameters, a trait and `for`, a type, bounds."""
    depth, parts = 0, [[]]
    for before, word in zip(["impl"] + words, words):
        depth += (word == "<") - (word == ">" and before != "-")
        if depth == 0 and word == "where":
            break
        if depth == 0 and word == "for":
            parts.append([])
        else:
            parts[-1].append(word)
    # parameters come before the first path, and begin with <
    if parts[0][:1] == ["<"]:
        parts[0] = after_parameters(parts[0])
    owner, _ = type_name(parts[-1])
    trait, arguments = type_name(parts[0]) if len(parts) > 1 else ("", "")
    return Header("impl", owner, trait, arguments)


def after_parameters(words: List[str]) -> List[str]:
    """Returns the tokens after the parameters `<..>` that they begin with."""
    depth = 0
    for at, (before, word) in enumerate(zip([""] + words, words)):
        depth += (word == "<") - (word == ">" and before != "-")
        if depth == 0:
            return words[at + 1 :]
    return []


def header(words: List[str]) -> Header:
    """Reads the tokens of an item up to a brace."""
    words, cycle = without_attributes(words)
    if words[:2] == ["pub", "("]:
        words = ["pub", *words[words.index(")") + 1 :]]
    plain = [it for it in words[:6] if it not in ("pub", "unsafe", "const", "default")]
    if plain[:1] == ["impl"]:
        return impl_header(words[words.index("impl") + 1 :])
    if plain[:1] in (["mod"], ["trait"], ["fn"]) and len(plain) > 1:
        return Header(plain[0], plain[1], cycle=cycle)
    return Header("other")


class Reader:
    """Reads the tokens of a file: its frame, and each function's body in order."""

    def __init__(self, module: str):
        self.module = module
        self.frame: List[str] = []
        self.bodies: List[Tuple[Function, Tuple[str, ...]]] = []
        self.open: List[Header] = []
        self.words: List[str] = []
        self.body: List[str] = []
        self.depth = 0
        self.in_clause = False

    def read(self, kind: str, word: str) -> None:
        """Takes one token. The braces of clauses and ghost items open nothing."""
        if kind in ("Head", "End") and word in ("{", "}"):
            self.in_clause = kind == "Head"
        is_code = kind == "Code" and not self.in_clause
        if self.depth:
            self.depth += is_code * ((word == "{") - (word == "}"))
            self.body.append(f"{kind} {word}")
            if not self.depth:
                self.end_body()
            return
        self.frame.append(f"{kind} {word}")
        if not is_code:
            return
        if word == "{":
            self.enter(header(self.words))
        elif word == "}":
            self.open.pop()
        if word in ("{", "}", ";"):
            self.words = []
        else:
            self.words.append(word)

    def enter(self, item: Header) -> None:
        """Opens a brace among the items."""
        self.open.append(item)
        if item.kind in ("fn", "other"):
            self.depth = 1

    def end_body(self) -> None:
        """Closes a function's body. What else has braces belongs to the frame."""
        item, body, self.body = self.open.pop(), tuple(self.body), []
        if item.kind != "fn":
            self.frame += body
            return
        modules = [it.name for it in self.open if it.kind == "mod"]
        owners = [it for it in self.open if it.kind in ("impl", "trait")] or [Header("")]
        module = "::".join(it for it in [self.module, *modules] if it)
        self.bodies.append((Function(module, owners[-1].name, owners[-1].trait, owners[-1].arguments, item.name, item.cycle), body))


def module_of(path: str) -> str:
    """Returns the module that a file of src/ holds: `src/a/b.rt` is `a::b`, and the root is empty."""
    parts = os.path.splitext(path)[0].split("/")[1:]
    return "::".join(it for it in parts if it not in ("lib", "main", "mod"))


def read_texts(rattle: str, texts: Dict[str, str]) -> Optional[Dict[str, Reader]]:
    """Reads files of src/ by rattle's own tokens, or returns None if a text is not one that rattle reads."""
    with tempfile.TemporaryDirectory(prefix="dapnorm-mutants-") as folder:
        files = [os.path.join(folder, f"{number}.rt") for number in range(len(texts))]
        for file, text in zip(files, texts.values()):
            with open(file, "w", encoding="utf-8") as out:
                out.write(text)
        ran = subprocess.run([rattle, "fmt", "--tokens", *files], capture_output=True, text=True, errors="replace")
    parts = re.split(r"(?m)^file \d+\n", ran.stdout)[1:]
    if ran.returncode or len(parts) != len(texts):
        return None
    found = {}
    for path, part in zip(texts, parts):
        found[path] = Reader(module_of(path))
        try:
            for kind, word in (TOKEN.match(line).groups() for line in part.splitlines()):
                found[path].read(kind, json.loads(word))
        except (AttributeError, IndexError, ValueError):
            return None
    return found


def changed_functions(rattle: str, before: Dict[str, str], after: Dict[str, str]) -> Optional[List[Function]]:
    """Returns the functions whose bodies differ between two versions of some files, or None if more differs or cannot be read."""
    if not all(path.startswith("src/") and path.endswith(".rt") for path in before):
        return None
    was, now = read_texts(rattle, before), read_texts(rattle, after)
    if was is None or now is None:
        return None
    changed = []
    for path in before:
        old, new = was[path], now[path]
        if old.frame != new.frame or [it for it, _ in old.bodies] != [it for it, _ in new.bodies]:
            return None
        changed += [it for (it, body), (_, other) in zip(old.bodies, new.bodies) if body != other]
    return changed
