"""Checks the document of the profile against the program's table of rows. With `write` it writes the rows into the document."""
import os
import re
import sys

from tests.report import TOP, Report

ROWS = os.path.join(TOP, "crates", "dap_profile", "src", "profile.rt")
DOCUMENT = os.path.join(TOP, "docs", "PROFILE.md")
BEGIN = "<!-- rows: begin -->"
END = "<!-- rows: end -->"

ROW = re.compile(r"^\s*(\d+) (every|request|response|event)(?:\(\"(\w+)\"\))? (Member|Inner|Element|Part|Deep)\(([^)]*)\) (\w+) (needed|optional);$")
COUNT = re.compile(r"^pub static PROFILE: \[Row; (\d+)\]", re.MULTILINE)

WANTS = {
    "Bool": "boolean",
    "Whole": "integer",
    "Text": "string",
    "Object": "object",
    "List": "array",
    "OwnSeq": "sequence number of the sender",
    "OtherSeq": "sequence number of the other side",
    "Frame": "frame id",
    "Reference": "variables reference",
    "Thread": "thread id",
    "Breakpoint": "breakpoint id",
}

# Rows whose member the protocol's schema requires and this project does not.
LENIENT = {10, 86, 91, 97, 98, 99, 100, 101, 103, 153, 154, 156, 157, 158, 159, 160, 161, 162, 163, 164, 170, 171, 173, 174, 177, 178, 181, 182}


def place(form, parts):
    """A place as the document writes it."""
    names = re.findall(r"\"(\w+)\"", parts)
    if form == "Element":
        return ".".join(names) + "[]"
    if form == "Part":
        return ".".join(names[:2]) + "[]." + names[2]
    return ".".join(names)


def rows(text):
    """The rows of the program's table: number, kind, name, place, want, needed."""
    found = []
    for line in text.splitlines():
        row = ROW.match(line)
        if row:
            number, kind, name, form, parts, want, needed = row.groups()
            found.append((int(number), kind, name, place(form, parts), want, needed == "needed"))
    return found


def message(kind, name):
    if kind == "every":
        return "every message"
    if name is None:
        return f"every {kind}"
    return f"`{name}` {kind}"


def member(row):
    """A row as the document writes it: its number, its member and its type."""
    number, _, _, where, want, needed = row
    return f"{number} `{where}`: {WANTS[want]}{'' if needed else '?†' if number in LENIENT else '?'}"


def table(found):
    """A line for each message, with its rows."""
    groups = {}
    for row in found:
        groups.setdefault(message(row[1], row[2]), []).append(member(row))
    return "\n".join(["| Message | Rows |", "|---|---|", *(f"| {title} | {'<br>'.join(rows)} |" for title, rows in groups.items())])


def numbers(document):
    """The numbers of the rows that the document has, in its order."""
    return [int(it) for it in re.findall(r"(?:\| |<br>)(\d+) `", document)]


def main():
    report = Report()
    with open(ROWS, encoding="utf-8") as file:
        program = file.read()
    with open(DOCUMENT, encoding="utf-8") as file:
        text = file.read()
    found = rows(program)
    before, rest = text.split(BEGIN)
    told, after = rest.split(END)
    if sys.argv[1:] == ["write"]:
        told = f"\n{table(found)}\n"
        with open(DOCUMENT, "w", encoding="utf-8") as file:
            file.write(f"{before}{BEGIN}{told}{END}{after}")
    report.check("each row of the program is read", COUNT.findall(program) == [str(len(found))], str(len(found)))
    report.check("the rows are numbered from 1", [row[0] for row in found] == list(range(1, len(found) + 1)))
    report.check("the document tells how many", f"{len(found)} rows" in before)
    lines, wanted = told.strip().splitlines(), table(found).splitlines()
    report.check("the document has each row once", sorted(numbers(told)) == [row[0] for row in found])
    report.check("the document has a line for each message", len(lines) == len(wanted), f"{len(lines)} lines, {len(wanted)} wanted")
    for line, want in zip(lines, wanted):
        report.check("the document tells", line == want, f"{line}, wanted {want}")
    return report.close()


if __name__ == "__main__":
    sys.exit(main())
