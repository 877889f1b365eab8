"""Runs the program on one row of a table and compares its status, its output and its errors with those of the row."""
import os
import tempfile

from tests.report import PROGRAM, Report, run
from tests.program.worked_runs import refusal


def asks(report, name, words, given, wanted):
    """Checks the answer to an input."""
    answer = run(words, given)
    return report.check(name, answer == wanted, repr(answer))


def refuses(report, name, words, given, why, written=b""):
    """Checks that an input is refused with this line, after this output."""
    return asks(report, name, words, given, (2, written, refusal(why)))


def asks_of_files(report, name, words, files, given, wanted):
    """Checks the same of words that name these files."""
    with tempfile.TemporaryDirectory() as folder:
        paths = {word: os.path.join(folder, word) for word in files}
        for word, text in files.items():
            with open(paths[word], "wb") as file:
                file.write(text)
        return asks(report, name, [paths.get(word, word) for word in words], given, wanted)


def judged(*tests):
    """Runs each test if there is a program, and returns the status of the script."""
    report = Report()
    if report.check("the gate has built the program", os.access(PROGRAM, os.X_OK)):
        for test in tests:
            test(report)
    return report.close()
