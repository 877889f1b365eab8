"""How `normalise`, `mask` and `name` write: the records that come together go out in one write, and a record that comes alone goes out before the next
one comes. The output is a socket that keeps the bounds of writes."""
import os
import socket
import subprocess
import sys
import tempfile

from tests.program.asked import judged
from tests.report import PROGRAM
from tests.program.worked_runs import CONFIGURED, NORMAL_CONFIGURED, OUTPUT, RULES, masked, record, recording

PIECE = 65_536
# Longer than each write.
MOST = 1 << 20


def started(words, given):
    """The program, with its input, and the socket that its writes go to."""
    reads, writes = socket.socketpair(socket.AF_UNIX, socket.SOCK_SEQPACKET)
    reads.settimeout(60)
    with writes:
        process = subprocess.Popen([PROGRAM, *words], stdin=given, stdout=writes, stderr=subprocess.PIPE)
    return process, reads


def all_writes(reads):
    return list(iter(lambda: reads.recv(MOST), b""))


def writes_of_file(words, text):
    """The status, what each write wrote, and the errors, of an input in a file: a read gives as much of it as it asks for."""
    with tempfile.TemporaryFile() as file:
        file.write(text)
        file.seek(0)
        process, reads = started(words, file)
        with process, reads:
            found = all_writes(reads)
            errors = process.stderr.read()
        return process.returncode, found, errors


def commands(folder):
    """The words of each command, and the texts of the records of the configured session that it writes."""
    rules = os.path.join(folder, "rules")
    with open(rules, "wb") as file:
        file.write(RULES)
    return [
        (["normalise"], [record(line) for line in NORMAL_CONFIGURED]),
        (["mask", rules], [recording(masked([line])) for line in CONFIGURED]),
        (["name", rules], [record(line) for line in CONFIGURED]),
    ]


def records_that_come_together(report):
    """All records of one read go out in one write: of a short session in one write, of a long recording in a write for each read."""
    long = recording([OUTPUT]) * 10_000
    with tempfile.TemporaryDirectory() as folder:
        for words, texts in commands(folder):
            found = writes_of_file(words, recording(CONFIGURED))
            report.check(f"{words[0]} writes a session at once", found == (0, [b"".join(texts)], b""), repr(found))
            status, written, errors = writes_of_file(words, long)
            held = (status, errors, b"".join(written) == long) == (0, b"", True) and len(written) == -(-len(long) // PIECE)
            report.check(f"{words[0]} writes once for each read", held, repr((status, [len(it) for it in written], errors)))


def records_that_come_alone(report):
    """The text of each record is there before the next record comes."""
    with tempfile.TemporaryDirectory() as folder:
        for words, texts in commands(folder):
            process, reads = started(words, subprocess.PIPE)
            with process, reads:
                found = []
                for line, text in zip(CONFIGURED, texts):
                    process.stdin.write(record(line))
                    process.stdin.flush()
                    found += [reads.recv(MOST)] if text else []
                process.stdin.close()
                found += all_writes(reads)
                errors = process.stderr.read()
            answer = (process.returncode, found, errors)
            report.check(f"{words[0]} writes each record as it comes", answer == (0, [it for it in texts if it], b""), repr(answer))


if __name__ == "__main__":
    sys.exit(judged(records_that_come_together, records_that_come_alone))
