"""Wrong bodies, how they are put into rounds, and what a round's output says of each.

A round is one check with several edits, at most one for each function. An edit is refused in it if its own function is, by a
reason of its own: a goal that is not proved, or an error in the function's own proof files. A caller of a function that is
refused prints that it calls it; its own goals are tried all the same."""
import os
import re
import shutil
import tempfile
from typing import Dict, Iterable, List, NamedTuple, Optional, Set, Tuple

from mutation_source import Function, changed_functions

EDIT_NAME = re.compile(r"[A-Za-z0-9_-][A-Za-z0-9_.-]*\.edit")
VERDICT = re.compile(r"^(fn|struct|enum|impl|trait|law) (\S+): (.*)$")
# a proof file that names what the edit took away says little of the contract
OF_NAMES = re.compile(r"has no field|is not in scope|has no `|was not admitted")
SAYS_LITTLE = "only because a proof file names what the edit took away"
LONGEST = 160


class Edit(NamedTuple):
    """A wrong body: its crate, tier and file, the files that it changes, why it cannot be applied, and the functions that it changes.

    No function is listed if it changes more than bodies of functions: then it is tried alone."""

    crate: str
    tier: str
    file: str
    texts: Dict[str, str]
    why: Optional[str]
    functions: List[Function]

    def label(self) -> str:
        return f"{self.crate}/{re.sub(r'[.]edit$', '', os.path.basename(self.file))} ({self.tier})"


class Verdict(NamedTuple):
    """Whether an edit was refused, and the line that says by what."""

    edit: Edit
    is_refused: bool
    line: str


def read_edits(rt, crate, tiers: Iterable[str]) -> List[Edit]:
    """Reads the edits of a crate."""
    found = []
    for tier in tiers:
        folder = os.path.join(crate.folder, tier)
        for name in sorted(os.listdir(folder)) if os.path.isdir(folder) else []:
            file = os.path.join(folder, name)
            if EDIT_NAME.fullmatch(name) and os.path.isfile(file):
                found.append(read_edit(rt, crate, tier, file))
            elif not name.endswith(".md"):
                found.append(Edit(crate.name, tier, file, {}, "the name of an edit has letters, digits, _, - and . and ends in .edit", []))
    return found


def read_edit(rt, crate, tier: str, file: str) -> Edit:
    """Reads an edit and the functions that it changes."""
    texts, why = rt.read_edit(file, crate.folder)
    if why:
        return Edit(crate.name, tier, file, {}, why, [])
    before = {}
    for path in texts:
        with open(os.path.join(crate.folder, path), encoding="utf-8") as text:
            before[path] = text.read()
    return Edit(crate.name, tier, file, texts, None, changed_functions(rt.rtlib.RATTLE, before, texts) or [])


def in_rounds(edits: List[Edit]) -> List[List[Edit]]:
    """Puts edits into as few rounds as may be: no two edits of a round change the same function or cycle of calls."""
    rounds: List[Tuple[Set[str], List[Edit]]] = []
    for edit in edits:
        units = {it.unit() for it in edit.functions}
        taken, chosen = next(((taken, chosen) for taken, chosen in rounds if not taken & units), (set(), []))
        if not chosen:
            rounds.append((taken, chosen))
        taken |= units
        chosen.append(edit)
    return [chosen for _, chosen in rounds]


def joined(rt, crate, edits: List[Edit]) -> Optional[Dict[str, str]]:
    """Returns the files with all edits of a round, or None if they do not apply together."""
    texts: Dict[str, str] = {}
    with tempfile.TemporaryDirectory(prefix="dapnorm-mutants-") as folder:
        for path in {path for edit in edits for path in edit.texts}:
            os.makedirs(os.path.dirname(os.path.join(folder, path)), exist_ok=True)
            shutil.copyfile(os.path.join(crate.folder, path), os.path.join(folder, path))
        for edit in edits:
            made, why = rt.read_edit(edit.file, folder)
            if why:
                return None
            for path, text in made.items():
                with open(os.path.join(folder, path), "w", encoding="utf-8") as out:
                    out.write(text)
            texts.update(made)
    return texts


def only(edits: List[Edit]) -> List[str]:
    """Returns the words by which a check proves only the functions that these edits change, and those that they call."""
    return [word for edit in edits for it in edit.functions for word in ("--only", it.path())]


class Output:
    """What a check printed of each function, with the lines that belong to it."""

    def __init__(self, text: str):
        self.lines = text.rstrip("\n").split("\n")
        self.said: Dict[str, str] = {}
        self.notes: Dict[str, List[str]] = {}
        notes: List[str] = []
        for line in self.lines:
            found = VERDICT.match(line)
            if found and found[1] == "fn":
                self.said[found[2]] = found[3]
                self.notes[found[2]] = notes
            notes = [] if found else notes + [line]

    def first_error(self) -> str:
        """Returns the first line that says why the crate is not proved."""
        told = [it for it in self.lines if re.match(r"(note: )?\S+:\d+:\d+:", it) or it.startswith(("error", "rattle:"))]
        errors = [it for it in told if ": error" in it]
        return (errors + told + self.lines[-1:])[0]

    def parts(self, path: str) -> List[str]:
        """Returns a function and its closures, as they are printed."""
        words = path.split("::")
        closures = tuple("::".join([*words[:at], "fn", *words[at:], ""]) for at in range(1, len(words)))
        return [it for it in self.said if it == path or it.startswith(closures)]

    def own_reason(self, path: str, cycle: str = "") -> str:
        """Returns the first line that says why the function itself is refused, or nothing if it is not, or only through others."""
        for part in self.parts(path):
            said = self.said[part]
            if "did not prove" in said:
                told = [it for it in self.notes[part] if re.match(r"note: \S+:\d+:\d+: ", it)]
                return (told + [f"fn {part}: {said}"])[0].removeprefix("note: ")[:LONGEST]
            folders = {part, path, f"{path.rpartition('::')[0]}::+{cycle}"}
            errors = [it for folder in sorted(folders) for it in self.errors_of(folder)]
            of_contract = [it for it in errors if not OF_NAMES.search(it)]
            if said.startswith("not proved") and of_contract:
                return of_contract[0][:LONGEST]
            if said == "not proved" and errors:
                return f"({SAYS_LITTLE}) {errors[0]}"[:LONGEST]
        return ""

    def strays(self, edits: List[Edit]) -> List[str]:
        """Returns the functions that no edit of the round changes and that are refused by a reason of their own.

        There should be none, since an edit of a body changes no contract. If there is one, the round says nothing for certain."""
        changed: Set[str] = set()
        for edit in edits:
            for function in edit.functions:
                path = function.printed(edit.crate, self.said) or ""
                front = path.rpartition("::")[0]
                changed.update(self.parts(path))
                # the members of a cycle have one proof
                changed.update(it for it in self.said if function.cycle and it.rpartition("::")[0] == front)
        return [it for it in self.said if it not in changed and self.own_reason(it)]

    def errors_of(self, path: str) -> List[str]:
        """Returns the errors in the proof files of a function or a cycle."""
        folder = re.escape("/".join(["proofs", *path.split("::")[1:]]))
        return [it for it in self.lines if re.match(rf"(\./)?{folder}/\w+\.antt:\d+:\d+: error: ", it)]


def is_readable(rt, ran, texts: Dict[str, str]) -> bool:
    """Returns whether a check reached its verdict, with every text read."""
    lines = ran.stdout.rstrip("\n").split("\n")
    has_verdict = ran.returncode in (0, 1) and lines[-1].startswith(("logic=", "only="))
    return has_verdict and not rt.rtlib.STALE.search(ran.stdout) and not any(rt.unread(it, texts) for it in lines)


def judged(edit: Edit, output: Output) -> Optional[Verdict]:
    """Returns the verdict on an edit of a round, or None if no function that it changes is refused by a reason of its own."""
    for function in edit.functions:
        path = function.printed(edit.crate, output.said)
        reason = output.own_reason(path, function.cycle) if path else ""
        if reason:
            return Verdict(edit, True, f"refused by {path.partition('::')[2]}: {reason}")
    return None


def refused_alone(rt, crate, edit: Edit, *kept: str) -> Tuple[bool, str]:
    """Tries one edit as `rt must-fail` does. A kit's rt returns whether the edit is refused, or a word for the outcome."""
    outcome, said = rt.must_fail(crate, edit.file, ["--jobs", "1"], *kept)
    return outcome is True or outcome in ("refused", "limit"), said


def tried_alone(rt, crate, edit: Edit, kept: str) -> Verdict:
    """Tries one edit as `rt must-fail` does, over kept work; an edit that is not rejected so is tried again from scratch."""
    label = f"must-fail {crate.name}/{os.path.basename(edit.file)}: "
    is_refused, said = refused_alone(rt, crate, edit, kept)
    if not is_refused and "NOT REFUSED" in said:
        is_refused, said = refused_alone(rt, crate, edit)
    said = said.removeprefix(label).removeprefix("refused, as it must be").removeprefix(": ").strip()
    said = " ".join(said.split())
    return Verdict(edit, is_refused, f"refused, tried alone: {said[:LONGEST]}" if is_refused else f"FAILED: {said[:400]}")
