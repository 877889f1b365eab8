"""Checks the code that docs/LIBRARY.md shows against the crate `callers`. With `write` it writes the code into the document."""
import os
import re
import sys

from tests.report import TOP, Report

DOCUMENT = os.path.join(TOP, "docs", "LIBRARY.md")
CALLERS = os.path.join(TOP, "crates", "callers")
# A mark names a file of the crate, and of a file in Rattle the first line of the item that is shown.
SHOWN = re.compile(r"<!-- code: (\S+\.(rt|antt))(?: \"([^\"]+)\")? -->\n(?:```\w+\n.*?```)?", re.DOTALL)


def item(text, first):
    """Returns the item that this line starts, with its documentation, up to the brace that closes it."""
    lines = text.split("\n")
    at = next(i for i, line in enumerate(lines) if line.startswith(first))
    start = at
    while start and lines[start - 1].startswith("//"):
        start -= 1
    end = next(i for i in range(at, len(lines)) if lines[i] == "}")
    return "\n".join(lines[start : end + 1])


def code(name, kind, first):
    with open(os.path.join(CALLERS, name), encoding="utf-8") as file:
        text = file.read()
    shown = item(text, first) if first else text.rstrip("\n")
    return f"```{'rust' if kind == 'rt' else 'antt'}\n{shown}\n```"


def filled(text):
    return SHOWN.sub(lambda mark: f"{mark[0].splitlines()[0]}\n{code(*mark.groups())}", text)


def main():
    with open(DOCUMENT, encoding="utf-8") as file:
        text = file.read()
    if sys.argv[1:] == ["write"]:
        with open(DOCUMENT, "w", encoding="utf-8") as file:
            file.write(filled(text))
        return 0
    report = Report()
    report.check("docs/LIBRARY.md shows the code of callers: python3 -m tests.documents.library write", filled(text) == text)
    with open(os.path.join(CALLERS, "src", "lib.rt"), encoding="utf-8") as file:
        for module in re.findall(r"^mod (\w+);", file.read(), re.MULTILINE):
            report.check(f"docs/LIBRARY.md has the caller {module}", f"src/{module}.rt" in text)
    with open(os.path.join(TOP, "crates.txt"), encoding="utf-8") as file:
        report.check("docs/LIBRARY.md has the line of callers", re.search(r"^callers: .*$", file.read(), re.MULTILINE)[0] in text)
    return report.close()


if __name__ == "__main__":
    sys.exit(main())
