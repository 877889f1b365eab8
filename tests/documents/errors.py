"""Checks the tables of docs/ERRORS.md against the documentation of the errors in the code. With `write` it writes them."""
import os
import re
import sys

from tests.documents.generated import between
from tests.report import TOP, Report

DOCUMENT = os.path.join(TOP, "docs", "ERRORS.md")
FRAME = ("dap_frame", "fault", "FrameFault")
RECORD = ("dap_recording", "record_fault", "RecordCause")
TRACE = ("dap_recording", "trace_fault", "TraceCause")
TREE = ("dap_tree", "fault", "TreeFault")
MESSAGE = ("dap_message", "fault", "MessageFault")
RULE = ("dap_session", "rule", "Rule")
REFUSED = ("dap_input", "refused", "Refused")
RULES = ("dap_mask", "fault", "RulesCause")
TRANSCRIPT = ("dap_transcript", "fault", "TranscriptCause")

# For each table, the form of the line and the errors that it has, in this order.
TABLES = {
    "bytes": [
        ("{}", RECORD, ["BadMarker"]),
        ("{}", FRAME, ["HeaderLine", "NoLength", "TwoLengths", "BadLength", "HeaderTooLong", "ContentTooLong"]),
        ("{}", RECORD, ["NoLineEnd", "Cut"]),
        ("{}", REFUSED, ["InputTooLong"]),
    ],
    "contents": [
        ("{}", TREE, ["Json", "Fraction"]),
        ("{}", MESSAGE, ["NotObject", "UnknownType"]),
        ("{} row R", MESSAGE, ["Missing", "WrongType"]),
    ],
    "session": [("{}", RULE, None), ("incomplete: C client, A adapter", REFUSED, ["Incomplete"])],
    "limits": [("{}", REFUSED, ["TooManyIds", "Grew"])],
    "traces": [
        ("piece N: {}", TRACE, None),
        ("piece N: client F`, `piece N: adapter F", REFUSED, ["Recorder"]),
        ("piece N: {}", REFUSED, ["TraceTooLong"]),
    ],
    "transcripts": [
        ("line L: {}", TRANSCRIPT, ["BadLine", "BadValue"]),
        ("line L: Missing row R`, `line L: WrongType row R", TRANSCRIPT, ["Message"]),
        ("line L: {}", TRANSCRIPT, ["Differs", "TooLong"]),
    ],
    "rules": [("{}", RULES, None)],
    "system": [
        ("read fault` (status 4) `", REFUSED, ["ReadFault"]),
        ("write fault` (status 4) `", REFUSED, ["WriteFault"]),
        ("out of memory` (status 5) `", REFUSED, ["Memory"]),
    ],
}
# Errors that are printed as another one, or never.
UNPRINTED = {
    FRAME: {"Cut", "Memory"}, RECORD: {"Frame", "Memory"}, TREE: {"Memory"}, MESSAGE: {"Memory"}, RULES: {"Memory"}, TRANSCRIPT: {"Memory"},
    REFUSED: {"Record", "Json", "Fraction", "Message", "Rule", "Trace"}, RULE: set(), TRACE: set(),
}


def variants(source):
    """Returns the documentation of each variant: its meaning, its usual cause, and what to do."""
    crate, module, enum = source
    with open(os.path.join(TOP, "crates", crate, "src", f"{module}.rt"), encoding="utf-8") as file:
        body = re.search(rf"^pub enum {enum} \{{\n(.*?)^\}}", file.read(), re.MULTILINE | re.DOTALL)[1]
    found = {}
    for comment, name in re.findall(r"((?:^ *///.*\n)+)(?:^ *#\[.*\]\n)*^ *(\w+)", body, re.MULTILINE):
        text = re.sub(r"\s+", " ", re.sub(r"^ *///", "", comment, flags=re.MULTILINE)).strip()
        meaning, _, rest = text.partition(" - Cause: ")
        cause, _, fix = rest.partition(" - Fix: ")
        found[name] = (meaning, cause, fix)
    return found


def with_explanations(found, source):
    """Returns the documentation of each variant with the meaning and the fix that `golden --explain` prints, if its enum has these texts."""
    crate, module, _ = source
    with open(os.path.join(TOP, "crates", crate, "src", f"{module}.rt"), encoding="utf-8") as file:
        text = file.read()
    for index, function in (0, "meaning"), (2, "fix"):
        body = re.search(rf"^    pub fn {function}\(self\).*?^    \}}", text, re.MULTILINE | re.DOTALL)
        for names, words in re.findall(r'((?:\w+::\w+(?: \| )?)+) => (?:\{\s*)?"([^"]+)"', body[0] if body else ""):
            for name in re.findall(r"::(\w+)", names):
                found[name] = (*found[name][:index], words, *found[name][index + 1 :])
    return found


def lowered(text):
    """Returns the text as part of a table: without its last full stop, and in lower case at its start."""
    text = re.sub(r" Only `[\w:]+` returns it\.", "", text)
    first = text if re.match(r"`|[A-Z]{2}", text) else text[:1].lower() + text[1:]
    return first[:-1] if first.endswith(".") else first


def table(lines):
    rows = ["| Line | Meaning | Usual cause | What to do |", "|---|---|---|---|"]
    for form, source, names in lines:
        known = with_explanations(variants(source), source)
        for name in names or [it for it in known if it not in UNPRINTED[source]]:
            line = f"`{form.format(name)}`".replace(" ``", "")
            rows.append(f"| {line} | {' | '.join(lowered(it) for it in known[name])} |")
    return "\n".join(rows)


def filled(text):
    """Returns the document with its tables as the code has them."""
    for name, lines in TABLES.items():
        text = between(text, f"<!-- errors {name}: start -->", f"\n{table(lines)}\n", f"<!-- errors {name}: end -->")
    return text


def complete(report):
    """Each error of the code that the program prints is in a table, and has a cause and a remedy."""
    for source, unprinted in UNPRINTED.items():
        known = with_explanations(variants(source), source)
        listed = {name for lines in TABLES.values() for _, it, names in lines if it == source for name in names or known.keys() - unprinted}
        report.check(f"docs/ERRORS.md has each {source[2]}", listed == known.keys() - unprinted, repr(listed ^ (known.keys() - unprinted)))
        for name in sorted(listed):
            report.check(f"{source[2]}::{name} has a meaning, a cause and a remedy", all(known[name]), repr(known[name]))


def main():
    with open(DOCUMENT, encoding="utf-8") as file:
        text = file.read()
    if sys.argv[1:] == ["write"]:
        with open(DOCUMENT, "w", encoding="utf-8") as file:
            file.write(filled(text))
        return 0
    report = Report()
    report.check("docs/ERRORS.md has the tables of the code: python3 -m tests.documents.errors write", filled(text) == text)
    complete(report)
    return report.close()


if __name__ == "__main__":
    sys.exit(main())
