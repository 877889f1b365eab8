"""Finds the public calls of the crates, with their documentation and their contracts."""
import dataclasses
import os
import re
from typing import Dict, Iterator, List, Optional, Set, Tuple

from tests.report import TOP

# Crates that are tests, or programs that no other crate can name.
NOT_LIBRARIES = {"conformance", "dapnorm_main", "driver", "fault_injection", "first_look", "layer_tests"}

CALL = re.compile(r"^( *)(pub (?:const )?)?fn (\w+)")
OWNER = re.compile(r"^(pub trait|impl)(?:<[^>]*>)? (\w+)[^{]*\{$")
CLAUSE = re.compile(r"^ +(requires|ensures)\*? (?:(\w+) )?\{")
REEXPORT = re.compile(r"^pub use ([\w:]+?)::(?:\{([^}]*)\}|(\w+));", re.MULTILINE)


@dataclasses.dataclass
class Clause:
    kind: str
    name: str
    statement: str
    comment: str


@dataclasses.dataclass
class Call:
    module: str
    owner: Optional[str]
    name: str
    signature: str
    documentation: str
    clauses: List[Clause]

    is_exported: bool = False

    def path(self) -> str:
        """Returns the path by which a user names the call in its crate."""
        module = "" if self.is_exported else f"{self.module}::"
        return f"{module}{self.owner}::{self.name}" if self.owner else f"{module}{self.name}"


def crates() -> List[str]:
    """Returns the crates that are libraries, in the order of crates.txt."""
    with open(os.path.join(TOP, "crates.txt"), encoding="utf-8") as file:
        return [it for it in re.findall(r"^(\w+):", file.read(), re.MULTILINE) if it not in NOT_LIBRARIES]


def read(*path: str) -> str:
    with open(os.path.join(TOP, "crates", *path), encoding="utf-8") as file:
        return file.read()


def exported(crate: str) -> Tuple[Set[Tuple[str, str]], Set[str]]:
    """Returns the names that the crate exports of its own modules, each with its module, and its public modules."""
    text = read(crate, "src", "lib.rt")
    names = {(module, name.strip()) for module, several, one in REEXPORT.findall(text) for name in (several or one).split(",")}
    return names, set(re.findall(r"^pub mod (\w+);", text, re.MULTILINE))


def closed(lines: List[str], at: int) -> int:
    """Returns the line at which the braces that open at this line are closed."""
    depth = 0
    for i in range(at, len(lines)):
        depth += lines[i].count("{") - lines[i].count("}")
        if depth == 0:
            return i
    raise ValueError(lines[at])


def clauses_of(lines: List[str]) -> Iterator[Clause]:
    """Yields the clauses of a contract, each with the comment that stands directly before it."""
    comment: List[str] = []
    i = 0
    while i < len(lines):
        line = lines[i]
        found = CLAUSE.match(line)
        if found:
            end = closed(lines, i)
            text = " ".join(it.strip() for it in lines[i : end + 1])
            yield Clause(found[1], found[2] or "", text[text.index("{") + 1 : text.rindex("}")].strip(), " ".join(comment))
            comment, i = [], end
        elif line.strip().startswith("//"):
            comment.append(line.strip().lstrip("/").strip())
        else:
            comment = []
        i += 1


def documentation(lines: List[str], at: int) -> str:
    """Returns the first paragraph of the documentation that ends before this line."""
    start = at
    while start and lines[start - 1].strip().startswith(("///", "#[")):
        start -= 1
    text = [it.strip()[3:].strip() for it in lines[start:at] if it.strip().startswith("///")]
    return " ".join(text[: text.index("")] if "" in text else text)


def header_end(lines: List[str], at: int, indent: str) -> int:
    """Returns the last line of the signature and the contract of the function that starts at this line."""
    i = at
    while True:
        line = lines[i]
        if CLAUSE.match(line):
            i = closed(lines, i)
            if lines[i].endswith("};"):
                return i
        elif line in (f"{indent}{{", f"{indent}{{}}") or line.endswith(";") or ((i == at or line.startswith(f"{indent})")) and line.endswith(("{", "{}"))):
            return i
        i += 1


def calls_of(module: str, text: str) -> Iterator[Call]:
    """Yields the public functions and methods of a module that have a contract."""
    lines = text.split("\n")
    owner: Optional[str] = None
    in_trait = False
    for i, line in enumerate(lines):
        found = OWNER.match(line)
        if found:
            owner, in_trait = (None if " for " in line else found[2]), found[1] == "pub trait"
        elif line == "}":
            owner, in_trait = None, False
        call = CALL.match(line)
        if not call or not (call[2] or in_trait) or (call[1] and not owner):
            continue
        end = header_end(lines, i, call[1])
        first = next((j for j in range(i, end + 1) if CLAUSE.match(lines[j]) or lines[j].strip().startswith("//")), end)
        signature = re.sub(r" ?\{$|;$", "", re.sub(r",? \)", ")", " ".join(it.strip() for it in lines[i:max(first, i + 1)]).replace("( ", "(")))
        yield Call(module, owner, call[3], signature.strip(), documentation(lines, i), list(clauses_of(lines[first : end + 1])))


def calls(crate: str) -> List[Call]:
    """Returns the calls that the crate exports of its own modules and that have a contract."""
    names, modules = exported(crate)
    owners = {name for _, name in names}
    found: List[Call] = []
    folder = os.path.join(TOP, "crates", crate, "src")
    for name in sorted(os.listdir(folder)):
        module = name[: -len(".rt")]
        if not name.endswith(".rt"):
            continue
        for call in calls_of(module, read(crate, "src", name)):
            call.is_exported = call.owner in owners if call.owner else (module, call.name) in names
            if call.clauses and (call.is_exported or (module in modules and not call.owner)):
                found.append(call)
    return found


def passed_on(crate: str) -> Set[Tuple[str, str]]:
    """Returns the names that the crate and its public modules re-export from other crates, each with its crate."""
    _, modules = exported(crate)
    texts = [read(crate, "src", f"{module}.rt") for module in ("lib", *sorted(modules))]
    found = {it for text in texts for it in REEXPORT.findall(text)}
    return {(path.split("::")[0], name.strip()) for path, several, one in found for name in (several or one).split(",") if name.strip()}


def by_crate() -> Dict[str, List[Call]]:
    return {crate: calls(crate) for crate in crates()}
