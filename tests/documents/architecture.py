"""Checks the table of crates in docs/ARCHITECTURE.md against crates.txt and the crates. With `write` it writes the table."""
import os
import re
import sys

from tests.documents.generated import between
from tests.report import TOP, Report

DOCUMENT = os.path.join(TOP, "docs", "ARCHITECTURE.md")
START, END = "<!-- crates: start -->", "<!-- crates: end -->"


def read(*path):
    with open(os.path.join(TOP, *path), encoding="utf-8") as file:
        return file.read()


def crates():
    """Returns the crates, each with those that it uses, in the order of crates.txt."""
    return [(name, used.split()) for name, used in re.findall(r"^(\w+):(.*)$", read("crates.txt"), re.MULTILINE)]


def purpose(crate):
    """Returns the first sentence of the documentation of a crate, or of its program."""
    folder = os.path.join("crates", crate, "src")
    text = read(folder, "lib.rt" if os.path.exists(os.path.join(TOP, folder, "lib.rt")) else "main.rt")
    comment = re.sub(r"\s+", " ", re.sub(r"^//! ?", "", re.match(r"(?://!.*\n)+", text)[0], flags=re.MULTILINE))
    return re.match(r"(.*?)[.](?: |$)", comment)[1].strip()


def drawn(used, own):
    """Returns the crates of this repository among those that a crate uses, without those that another one of them uses already."""
    mine = [it for it in used if it in own]
    return [it for it in mine if not any(it in own[other] for other in mine)]


def table():
    return "\n".join(["| Crate | Purpose |", "|---|---|", *(f"| `{crate}` | {purpose(crate)} |" for crate, _ in crates())])


def filled(text):
    return between(text, START, f"\n{table()}\n", END)


def main():
    with open(DOCUMENT, encoding="utf-8") as file:
        text = file.read()
    if sys.argv[1:] == ["write"]:
        with open(DOCUMENT, "w", encoding="utf-8") as file:
            file.write(filled(text))
        return 0
    report = Report()
    report.check("docs/ARCHITECTURE.md has the crates: python3 -m tests.documents.architecture write", filled(text) == text)
    for crate, _ in crates():
        report.check(f"docs/ARCHITECTURE.md has the crate {crate}", f"`{crate}`" in text)
    return report.close()


if __name__ == "__main__":
    sys.exit(main())
