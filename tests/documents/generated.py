"""Puts generated text between two marks of a document."""
import sys


def between(text, start, made, end):
    """Returns the text with `made` between the first `start` and the `end` after it. Stops the script if a mark is missing."""
    before, found, rest = text.partition(start)
    _, ended, after = rest.partition(end)
    if not (found and ended):
        sys.exit(f"the marks {start!r} and {end!r} are not in the document")
    return f"{before}{start}{made}{end}{after}"
