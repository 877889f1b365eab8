"""Checks the tables of docs/BENCHMARKS.md against docs/benchmarks.json, the measured figures. With `write` it writes the tables.

`costs FILE` first takes the figures of `scripts/costs.py --json FILE`, `bench FILE` those of `scripts/bench.py --json FILE` for the
commands of a golden test, and `gate FILE` those that `make test` printed into FILE."""
import json
import os
import re
import sys

from tests.documents.generated import between
from tests.report import TOP, Report

DOCUMENT = os.path.join(TOP, "docs", "BENCHMARKS.md")
FIGURES = os.path.join(TOP, "docs", "benchmarks.json")
# The columns of the costs that the document shows.
OF_COSTS = (0, 1, 5, 6, 7, 8)
# Figures that only the file has.
UNSHOWN = {"renamings", "gate"}
# Commands with options that no script has, of commands that scripts are measured beside.
OF_GOLDEN_TESTS = {"compare --rules", "show --full"}
# Processor minutes of a crate that has a line of its own.
LITTLE = 5.0


def read(path):
    with open(path, encoding="utf-8") as file:
        return file.read()


def table(figures):
    lines = [figures["head"], ["---"] * len(figures["head"]), *figures["rows"]]
    return "\n".join(f"| {' | '.join(line)} |".replace("|  |", "| |").replace("|---", "| ---") for line in lines)


def shortened(figures):
    """Returns the figures of the gate with one line for all crates that take less than LITTLE minutes."""
    *crates, total = figures["rows"]
    large = [row for row in crates if float(row[-1]) >= LITTLE]
    rest = sum(float(row[-1]) for row in crates) - sum(float(row[-1]) for row in large)
    other = [f"{len(crates) - len(large)} other crates", *[""] * (len(total) - 2), f"{rest:.1f}"]
    return {"head": figures["head"], "rows": [*large, other, total]}


def with_units_above(figures):
    """Returns the figures with the unit of a column in its head, if all its figures have one unit."""
    columns = list(zip(figures["head"], *figures["rows"]))
    for i, (head, *cells) in enumerate(columns):
        units = {it.partition(" ")[2] for it in cells}
        if units in ({"s"}, {"MB"}, {"MiB"}):
            columns[i] = (f"{head} ({units.pop()})", *(it.partition(" ")[0] for it in cells))
    head, *rows = (list(it) for it in zip(*columns))
    return {"head": head, "rows": rows}


def shown(name, figures):
    """Returns what the document shows of some figures: of the costs the larger size, of the gate the larger crates."""
    if name == "costs":
        figures = {"head": [figures["head"][i] for i in OF_COSTS], "rows": [[row[i] for i in OF_COSTS] for row in figures["rows"]]}
    return with_units_above(shortened(figures) if name == "gate" else figures)


def filled(text, tables):
    for name, figures in tables.items():
        start, end = f"<!-- {name}: start -->", f"<!-- {name}: end -->"
        if name not in UNSHOWN:
            text = between(text, start, f"\n{table(shown(name, figures))}\n", end)
    return text


def costs(tables, measured):
    """Takes the figures of chosen inputs: a line for each, with its two sizes."""
    rows = []
    figures = measured["figures"]
    for small, large in zip(figures[::2], figures[1::2]):
        cells = [cell for it in (small, large) for cell in (f"{it['bytes'] / 1e6:.1f}", f"{it['seconds']:.2f}", f"{it['memory'] / 1e6:.0f} MB")]
        ratio = large["seconds"] / large["bytes"] * small["bytes"] / small["seconds"]
        rows.append([small["input"], f"`{small['command']}`", *cells, f"{ratio:.1f}"])
    tables["costs"]["rows"] = rows


def bench(tables, measured):
    """Takes the figures of the commands that are measured without a script beside them."""
    beside = {it["command"] for it in measured["figures"] if it["program"] == "script"}
    rows = []
    for it in measured["figures"]:
        if it["command"].split()[0] not in beside | {"check"} or it["command"] in OF_GOLDEN_TESTS:
            megabytes, seconds = it["bytes"] / 1e6, it["seconds"]
            cells = (f"{megabytes:.0f} MB", f"{seconds:.2f} s", f"{megabytes / seconds:.0f}", f"{it['memory'] / 1e6:.0f} MB")
            rows.append([f"`{it['command']}`", *cells])
    tables["golden tests"]["rows"] = rows


def gate(tables, printed):
    """Takes the table that the gate printed: the processor minutes of each crate."""
    start = printed.index("CPU minutes")
    rows = []
    for line in printed[start:].splitlines()[1:]:
        found = re.match(r"^(\w+) +([\d. ]+)$", line)
        if not found:
            break
        cells = [line[26 + 8 * i : 34 + 8 * i].strip() for i in range(4)]
        rows.append([f"`{found[1]}`" if found[1] != "all" else "all", *("" if it == "0.0" else it for it in cells)])
    tables["gate"]["rows"] = rows


def main():
    tables = json.loads(read(FIGURES))
    words = sys.argv[1:]
    if words[:1] == ["costs"]:
        costs(tables, json.loads(read(words[1])))
    elif words[:1] == ["bench"]:
        bench(tables, json.loads(read(words[1])))
    elif words[:1] == ["gate"]:
        gate(tables, read(words[1]))
    if words:
        with open(FIGURES, "w", encoding="utf-8") as file:
            json.dump(tables, file, indent=1, ensure_ascii=False)
            file.write("\n")
        text = filled(read(DOCUMENT), tables)
        with open(DOCUMENT, "w", encoding="utf-8") as file:
            file.write(text)
        return 0
    report = Report()
    text = read(DOCUMENT)
    report.check("docs/BENCHMARKS.md has the figures: python3 -m tests.documents.benchmarks write", filled(text, tables) == text)
    for name, figures in tables.items():
        report.check(f"each row of the table {name} is whole", all(len(row) == len(figures["head"]) for row in figures["rows"]))
    return report.close()


if __name__ == "__main__":
    sys.exit(main())
