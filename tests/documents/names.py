"""Checks that the documents name what exists: the contracts of docs/GUARANTEES.md, the files that links lead to and that are named, and the
targets of make; that docs/GUARANTEES.md has a line for each crate, and that the README has short sentences."""
import glob
import os
import re
import sys

from tests.documents.public_calls import exported
from tests.report import TOP, Report

NAMED = re.compile(r"`(\w+)::([\w:]+)`(?:: ((?:`\w+`(?:, )?)+))?")
LINK = re.compile(r"\]\(([^)#:]+)(?:#([^)]+))?\)")


def sources(crate, module="*"):
    for path in sorted(glob.glob(os.path.join(TOP, "crates", crate, "src", "**", f"{module}.rt"), recursive=True)):
        with open(path, encoding="utf-8") as file:
            yield file.read()


def home(crate, path):
    """The module of a public function, or `*` if neither its path nor the root of the crate names one, as for a method."""
    modules = [it for it in path.split("::")[:-1] if it[0].islower()]
    if not modules and os.path.exists(os.path.join(TOP, "crates", crate, "src", "lib.rt")):
        modules = [module for module, name in exported(crate)[0] if name == path and "dap_" not in module]
    return modules[0] if modules else "*"


def contract(crate, path):
    """The text of a public function from its name to its body, in the trait or the impl block of its type where the path has one; also of one
    that the crate shows of another."""
    *owners, name = path.split("::")
    for text in sources(crate, home(crate, path)):
        function = rf"pub fn {name}\b.*?^ *\{{"
        for owner in owners:
            if owner[0].isupper():
                found = re.search(rf"^(pub trait|impl(?:<[^>]*>)?) {owner}\b.*?^}}", text, re.MULTILINE | re.DOTALL)
                text = found[0] if found else ""
                if found and found[1] == "pub trait":
                    function = rf"fn {name}\b.*?;$"
        found = re.search(function, text, re.MULTILINE | re.DOTALL)
        if found:
            return found[0]
    item = next((it for it in owners if it[0].isupper()), name)
    for text in sources(crate):
        for other, names in re.findall(r"^pub use (dap_\w+)::([^;]*);", text, re.MULTILINE):
            if re.search(rf"\b{item}\b", names):
                return contract(other, "::".join(it for it in (*owners, name) if it[0].isupper() or it == name))
    return None


def promises(report):
    with open(os.path.join(TOP, "docs", "GUARANTEES.md"), encoding="utf-8") as file:
        text = file.read()
    for crate, path, clauses in NAMED.findall(text):
        text = contract(crate, path)
        if not report.check(f"{crate}::{path} is a public function", text is not None):
            continue
        report.check(f"{crate}::{path} has a contract", "ensures" in text)
        for clause in re.findall(r"`(\w+)`", clauses):
            report.check(f"{crate}::{path} has the clause {clause}", re.search(rf"ensures\*? {clause} \{{", text) is not None)


def documents():
    return [*glob.glob(os.path.join(TOP, "*.md")), *glob.glob(os.path.join(TOP, "docs", "*.md"))]


def anchors(path):
    """The names by which a link leads to a heading."""
    with open(path, encoding="utf-8") as file:
        titles = re.findall(r"^#+ (.*)$", file.read(), re.MULTILINE)
    return {re.sub(r"[^\w -]", "", title.lower()).replace(" ", "-") for title in titles}


def links(report):
    for path in [*documents(), *glob.glob(os.path.join(TOP, "examples", "**", "*.md"), recursive=True)]:
        with open(path, encoding="utf-8") as file:
            for target, anchor in LINK.findall(file.read()):
                file_there = os.path.join(os.path.dirname(path), target)
                there = os.path.exists(file_there) and (not anchor or anchor in anchors(file_there))
                report.check(f"{os.path.relpath(path, TOP)} leads to {target} {anchor}".rstrip(), there)


def crates(report):
    """docs/GUARANTEES.md has a line for each crate that is not a crate of tests."""
    with open(os.path.join(TOP, "crates.txt"), encoding="utf-8") as file:
        names = set(re.findall(r"^(\w+):", file.read(), re.MULTILINE)) - {"layer_tests", "conformance", "driver", "fault_injection"}
    with open(os.path.join(TOP, "docs", "GUARANTEES.md"), encoding="utf-8") as file:
        listed = re.findall(r"^\| `(\w+)` \|", file.read().split("## Crate by crate\n")[1].split("\n## ")[0], re.MULTILINE)
    report.check("docs/GUARANTEES.md has each crate once", sorted(listed) == sorted(names), repr(sorted(listed)))


def sentences(report):
    """No sentence of the README has more than 30 words."""
    with open(os.path.join(TOP, "README.md"), encoding="utf-8") as file:
        lines = [re.sub(r"\]\([^)]*\)|^[-|] *", "", line) for line in file if not line.startswith(("    ", "#"))]
    for sentence in re.split(r"(?<=[.?!])\s|\n|\|", "".join(lines)):
        report.check(f"short enough: {sentence}", len(sentence.split()) <= 30)


def files(report):
    """Files of the crates that are named in full, as `dap_frame/specs/Frame.antt`."""
    for path in documents():
        with open(path, encoding="utf-8") as file:
            for name in re.findall(r"`(?:crates/)?((?:dap\w+|callers|layer_tests|conformance|driver)/[\w/]+\.(?:antt|rt))`", file.read()):
                report.check(f"{os.path.relpath(path, TOP)} names the file {name}", os.path.exists(os.path.join(TOP, "crates", name)))


def targets(report):
    with open(os.path.join(TOP, "Makefile"), encoding="utf-8") as file:
        made = set(re.findall(r"^(\w+):", file.read(), re.MULTILINE))
    with open(os.path.join(TOP, "README.md"), encoding="utf-8") as file:
        for target in re.findall(r"`make (\w+)(?![\w=])", file.read()):
            report.check(f"make {target} is a target", target in made)


def main():
    report = Report()
    promises(report)
    links(report)
    crates(report)
    sentences(report)
    targets(report)
    files(report)
    return report.close()


if __name__ == "__main__":
    sys.exit(main())
