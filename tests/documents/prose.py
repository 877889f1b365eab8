"""Checks the prose of documents, comments and scripts: words of a dialect may not return, and sentences are short.

The words of NEVER occur nowhere. Those of FEWER are counted in tests/documents/prose.json, and no count may rise; `write` records the counts of today."""
import glob
import json
import os
import re
import sys

from tests.report import TOP, Report

RECORD = os.path.join(TOP, "tests", "documents", "prose.json")

# Each with a plain word in its place.
NEVER = {
    r"\bwant of memory\b|\bmemory (?:was|is|can be|were) wanting\b|\bwants memory\b": "an allocation failed",
    r"\bmemory (?:was|is|were) (?:really )?refused\b|\bgrowth (?:of [a-z]+ )?(?:was|is|were) (?:really )?refused\b": "an allocation failed",
    r"\btakes? (?:no|the|any)? ?memory\b": "does not allocate",
    r"\bput by\b": "saved",
    r"\bjust one\b": "exactly one",
    r"\bexactly (?:where|if)\b": "if and only if",
    r"\b(?:keep|keeps|kept) (?:the|to the|no|these) rules?\b": "obeys the rules",
    r"\banew\b": "again",
    r"\bat hand\b": "buffered",
    r"\b(?:dear|dearer|dearest)\b": "expensive",
    r"\bof one processor\b": "processor minutes",
    r"\bfrom nothing\b": "from scratch",
    r"\bmend\b": "fix",
    r"\b(?:read|passed|(?<![Tt]he )passes) over\b": "ignored",
    r"\blean on\b": "depend on",
    r"\bstretch(?:es)?\b": "range",
    r"\bbehind\b": "after",
}
FEWER = {
    r"\b(?:tell|tells|told|telling)\b": "report, print, return",
    r"\b(?:stand|stands|stood|standing) for\b": "represents",
    r"\b(?:stand|stands|stood|standing)\b(?! for)": "is, occurs",
    r"\bwhere\b": "if, when",
    r"\basked of\b|\basks (?:nothing |much )?of\b": "applies to, requires",
    r"\bfronts?\b": "prefix",
    r"\bso many\b": "that many",
    r"\b(?:give|gives|given|gave) up\b": "stops",
    r"\b(?:hand|hands|handed|handing)\b": "pass",
    r"\b(?:lent|lend|lends|lending)\b": "borrowed",
    r"\b(?:is|are|be|was|were|has|have) no\b(?! (?:more|fewer|less|longer)\b)": "is not a",
    r"(?:^|[.;:*] |\*\*)That (?!is |was )[a-z`]": "subject first",
    r"(?:^|[.:;] )Of [a-z`]": "the of-phrase after its noun",
}
CASED = ("That (", "Of [")
# How many words a sentence of a document may have.
LONGEST, LONGEST_OF_README = 35, 30


def read(path):
    with open(path, encoding="utf-8", errors="replace") as file:
        return file.read()


def comments(text, mark):
    """Returns the comments of a file, without the names in backquotes."""
    lines = (re.sub(rf"^\s*{mark}\s?", "", line) for line in text.splitlines() if re.match(rf"\s*{mark}", line))
    return re.sub(r"`[^`]*`", "`x`", "\n".join(lines))


def prose(text):
    """Returns the prose of a document, without code and names in backquotes."""
    text = re.sub(r"```.*?```", "", text, flags=re.DOTALL)
    text = "\n".join(line for line in text.splitlines() if not line.startswith("    "))
    return re.sub(r"\]\([^)]*\)", "]", re.sub(r"`[^`]*`", "`x`", text))


def script(text):
    found = re.findall(r'"""(.*?)"""', text, re.DOTALL) + re.findall(r"^\s*# (.*)$", text, re.MULTILINE)
    return re.sub(r"`[^`]*`", "`x`", "\n".join(found))


def paths(*patterns):
    return sorted({path for it in patterns for path in glob.glob(os.path.join(TOP, it), recursive=True)} - {os.path.abspath(__file__)})


def documents():
    return [path for path in paths("*.md", "docs/*.md", "examples/**/*.md") if os.path.basename(path) != "CONTRACTS.md"]


def corpora():
    """Returns the texts, by what they are."""
    return {
        "documents": [prose(read(it)) for it in documents()],
        "src": [comments(read(it), "//[/!]?") for it in paths("crates/*/src/**/*.rt")],
        "specs": [comments(read(it), "--") for it in paths("crates/*/specs/**/*.antt")],
        "proofs": [comments(read(it), "--") for it in paths("crates/*/proofs/**/*.antt")],
        "scripts": [script(read(it)) for it in paths("tests/**/*.py", "scripts/*.py", "examples/*.py", "python/**/*.py")],
    }


def counts(patterns, texts):
    found = {}
    for pattern in patterns:
        flags = re.MULTILINE | (0 if any(it in pattern for it in CASED) else re.IGNORECASE)
        found[pattern] = {name: sum(len(re.findall(pattern, it, flags)) for it in several) for name, several in texts.items()}
    return found


def sentences(report):
    for path in documents():
        name = os.path.relpath(path, TOP)
        for line in re.sub(r"^(?:[-*]|\d+\.) ", "", prose(read(path)), flags=re.MULTILINE).splitlines():
            most = LONGEST_OF_README if name == "README.md" else LONGEST
            for sentence in re.split(r"(?<=[.?!:])\s|\|", line):
                words = sentence.split()
                report.check(f"{name}: at most {most} words: {' '.join(words[:8])}", len(words) <= most, f"{len(words)}: {sentence}")


def main():
    texts = corpora()
    fewer = counts(FEWER, texts)
    if sys.argv[1:] == ["write"]:
        with open(RECORD, "w", encoding="utf-8") as file:
            json.dump(fewer, file, indent=1, sort_keys=True)
            file.write("\n")
        return 0
    report = Report()
    for pattern, found in counts(NEVER, texts).items():
        report.check(f"{NEVER[pattern]!r} in place of {pattern}", not any(found.values()), repr(found))
    recorded = json.loads(read(RECORD))
    for pattern, found in fewer.items():
        for name, count in found.items():
            most = recorded.get(pattern, {}).get(name, 0)
            report.check(f"{FEWER[pattern]!r} in place of {pattern} in {name}: at most {most}", count <= most, str(count))
    sentences(report)
    return report.close()


if __name__ == "__main__":
    sys.exit(main())
