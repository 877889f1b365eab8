"""The record of what was tried: for each crate the date, the number of edits, a sum of its files and the kit, and the table of it."""
import datetime
import hashlib
import json
import os
import re
from typing import Dict, List

PARTS = ("src", "specs", "proofs")
TIERS = ("must-fail", "mutants")
# the file beside the crates that holds the record, one crate a line
RECORD = os.path.join("crates", "mutants.json")


def listed(top: str) -> List[str]:
    """Returns the names of the crates in crates.txt."""
    with open(os.path.join(top, "crates.txt"), encoding="utf-8") as file:
        return re.findall(r"(?m)^(\w+)[^:\n]*:", file.read())


def edits_in(folder: str) -> List[str]:
    """Returns the names of the edits in a folder, none if it is not there."""
    return sorted(it for it in os.listdir(folder) if it.endswith(".edit")) if os.path.isdir(folder) else []


def sum_of(crate: str) -> str:
    """Returns a sum of the files of a crate's folder that its wrong bodies depend on."""
    made = hashlib.sha256()
    for part in (*PARTS, *TIERS):
        for folder, folders, names in os.walk(os.path.join(crate, part)):
            folders.sort()
            for name in sorted(names):
                path = os.path.join(folder, name)
                with open(path, "rb") as file:
                    made.update(repr((os.path.relpath(path, crate), file.read())).encode())
    return made.hexdigest()[:16]


def read(top: str) -> Dict[str, dict]:
    """Returns the record, empty if the repository has none."""
    try:
        with open(os.path.join(top, RECORD), encoding="utf-8") as file:
            return json.load(file)
    except FileNotFoundError:
        return {}


def write(top: str, entries: Dict[str, dict]) -> None:
    """Adds entries to the record, and removes those of crates that are no more."""
    record = {**read(top), **entries}
    names = sorted(set(record) & set(listed(top)))
    lines = [f'  "{name}": {json.dumps(record[name], sort_keys=True)}' for name in names]
    made = os.path.join(top, RECORD + ".new")
    with open(made, "w", encoding="utf-8") as file:
        file.write("{\n" + ",\n".join(lines) + "\n}\n")
    os.replace(made, os.path.join(top, RECORD))


def entry(crate: str, edits: int, kit: str) -> dict:
    """Returns the record's entry for a crate that passed today; `crate` is the folder that was tried."""
    today = datetime.datetime.now(datetime.timezone.utc).date().isoformat()
    return {"date": today, "edits": edits, "kit": kit, "sum": sum_of(crate)}


def ago(date: str, today: datetime.date) -> str:
    """Returns how long ago a date was, in words."""
    days = (today - datetime.date.fromisoformat(date)).days
    return "today" if days <= 0 else "yesterday" if days == 1 else f"{days} days ago"


def table(top: str) -> List[str]:
    """Returns the lines of the table: for each crate its edits in each tier, when they were last tried, and whether it changed since."""
    record, today = read(top), datetime.datetime.now(datetime.timezone.utc).date()
    lines = [f"{'wrong bodies':26}{TIERS[0]:>10}{TIERS[1]:>10}  both tiers last tried"]
    total = [0, 0]
    for name in listed(top):
        folder = os.path.join(top, "crates", name)
        counts = [len(edits_in(os.path.join(folder, tier))) for tier in TIERS]
        if not any(counts):
            continue
        total = [a + b for a, b in zip(total, counts)]
        tried = record.get(name)
        when = "never" if tried is None else f"{tried['date']}, {ago(tried['date'], today)}"
        changed = ", changed since" if tried and tried["sum"] != sum_of(folder) else ""
        lines.append(f"{name:26}{counts[0]:10}{counts[1]:10}  {when}{changed}")
    return lines + [f"{'all':26}{total[0]:10}{total[1]:10}"]
