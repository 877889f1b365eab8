"""Runs the program that the gate built on the examples, as a user would."""
import json
import os
import re
import subprocess
import sys

from tests.report import PROGRAM, TOP, Report, run

EXAMPLES = os.path.join(TOP, "examples")


def read(name):
    with open(os.path.join(EXAMPLES, name), "rb") as file:
        return file.read()


def frames(text):
    """The contents of frames, read apart from the program."""
    at, contents = 0, []
    while at < len(text):
        end = text.index(b"\r\n\r\n", at) + 4
        fields = dict(line.split(b":", 1) for line in text[at:end].lower().split(b"\r\n") if line)
        length = int(fields[b"content-length"])
        contents.append(text[end:end + length])
        at = end + length
    return contents


def canonical(content):
    """The canonical form of a content, by Python's own JSON. It orders names by characters, which for these is by bytes."""
    return json.dumps(json.loads(content), sort_keys=True, separators=(",", ":"), ensure_ascii=False).encode()


def compact_an_adapter(report):
    given = read("debugpy-adapter.frames")
    status, written, errors = run(["compact"], given)
    report.check("compact takes a real adapter's frames", (status, errors) == (0, b""), repr((status, errors)))
    report.check("its contents come out canonical", frames(written) == [canonical(content) for content in frames(given)])
    report.check("it is the stored example", written == read("debugpy-adapter.compact"))
    report.check("compacting it again changes nothing", run(["compact"], written) == (0, written, b""))


def check_a_session(report):
    """`check` over pipes, also where a session comes in small pieces."""
    session = read("captures/debugpy-l-stopentry.1.rec")
    wanted = (0, b"accepted records=59 open=0,0\n", b"")
    for arguments in (["check"], ["check", "--complete"]):
        report.check(f"{' '.join(arguments)} accepts a real session", run(arguments, session) == wanted)
    with subprocess.Popen([PROGRAM, "check"], stdin=subprocess.PIPE, stdout=subprocess.PIPE, stderr=subprocess.PIPE) as process:
        for at in range(0, len(session), 997):
            process.stdin.write(session[at:at + 997])
            process.stdin.flush()
        output, errors = process.communicate()
        report.check("check takes a session in pieces", (process.returncode, output, errors) == wanted, repr((output, errors)))
    report.check("check takes an empty recording", run(["check", "--complete"]) == (0, b"accepted records=0 open=0,0\n", b""))
    cut = run(["check", "--complete"], session[:-1])
    report.check("check tells a cut", cut == (2, b"", b"dapnorm: record 59: Cut\n"), repr(cut))
    first = session[:session.index(b"\n", session.index(b"\r\n\r\n") + 4) + 1]
    answer = run(["check", "--complete"], first)
    report.check("check tells open requests", answer == (2, b"", b"dapnorm: incomplete: 1 client, 0 adapter\n"), repr(answer))
    answer = run(["check"], first + first)
    report.check("check tells a broken rule", answer == (2, b"", b"dapnorm: record 2: StillInitializing\n"), repr(answer))


def streams(report):
    """The program over the operating system's own streams."""
    closed = subprocess.run([PROGRAM, "compact"], stdin=subprocess.DEVNULL, stdout=subprocess.PIPE, stderr=subprocess.PIPE)
    report.check("an empty input gives an empty output", (closed.returncode, closed.stdout, closed.stderr) == (0, b"", b""))


def arguments_that_are_no_text(report):
    for words in ([b"\xff"], [b"check", b"\xff"], [b"compare", b"\xff", b"b"]):
        ran = subprocess.run([PROGRAM, *words], capture_output=True)
        answer = (ran.returncode, ran.stdout, ran.stderr)
        report.check(f"{words} is a usage fault", answer == (3, b"", b"error: an argument is not valid UTF-8\n"), repr(answer))


def numbers_of_rows():
    """The numbers of the rows that docs/PROFILE.md has."""
    return sorted(re.findall(rb"(?:\| |<br>)(\d+) `", read("../docs/PROFILE.md")), key=int)


def usage(report):
    status, output, errors = run([])
    report.check("no subcommand is a usage fault", status == 3 and output == b"" and errors.startswith(b"error: "))
    status, output, errors = run(["--help"])
    report.check("help goes to the output", status == 0 and b"compact" in output and b"check" in output and errors == b"")
    status, output, errors = run(["--version"])
    version = re.search(r"^## ([\d.]+)", read("../CHANGELOG.md").decode(), re.MULTILINE)[1]
    wanted = f"dapnorm {version} (profile of {len(numbers_of_rows())} rows)\n".encode()
    report.check("the version is that of the changelog", (status, output, errors) == (0, wanted, b""), repr(output))
    status, output, errors = run(["check", "--help"])
    report.check("help of check names its flag", status == 0 and b"--complete" in output and errors == b"")
    status, output, errors = run(["check", "--all"])
    report.check("an unknown flag is a usage fault", status == 3 and output == b"" and errors.startswith(b"error: "))


def rows(report):
    numbers = numbers_of_rows()
    status, output, errors = run(["rows"])
    printed = [line.split()[0] for line in output.splitlines()]
    version = run(["--version"])[1]
    report.check("the version names the profile that runs", version.endswith(b" (profile of %d rows)\n" % len(printed)), repr(version))
    report.check("rows prints each row of the profile", (status, printed, errors) == (0, numbers, b""), repr((printed, errors)))
    for number, line in [
        ("1", b"1 * * seq needed own-seq\n"),
        ("2", b"2 request * command needed string\n"),
        ("62", b"62 response stackTrace body.stackFrames[].id needed frame\n"),
        ("166", b"166 request terminateThreads arguments.threadIds[] needed thread\n"),
        ("172", b"172 event breakpoint body.breakpoint.id optional breakpoint\n"),
        ("188", output.splitlines(keepends=True)[-1]),
    ]:
        answer = run(["rows", number])
        report.check(f"rows {number} prints that row", answer == (0, line, b""), repr(answer))
    for number in ("0", "189", "062", "x", ""):
        answer = run(["rows", number])
        report.check(f"there is no row {number!r}", answer[:2] == (3, b"") and answer[2].startswith(b"error: no row "), repr(answer))


def refusals(report):
    for given, line in [
        (b"Content-Length: 2\r\n\r\n-0", b"record 1: Fraction"),
        (b"Content-Length: 1\r\n\r\n{", b"record 1: Json"),
        (b"Content-Length: 2\r\n\r\n{", b"record 1: Cut"),
        (b"X\r\n\r\n", b"record 1: HeaderLine"),
        (b"Content-Length: 16777217\r\n\r\n", b"record 1: ContentTooLong"),
    ]:
        answer = run(["compact"], given)
        report.check(f"{given!r} is refused", answer == (2, b"", b"dapnorm: " + line + b"\n"), repr(answer))


def main():
    report = Report()
    if not report.check("the gate has built the program", os.access(PROGRAM, os.X_OK)):
        return report.close()
    compact_an_adapter(report)
    check_a_session(report)
    streams(report)
    arguments_that_are_no_text(report)
    usage(report)
    rows(report)
    refusals(report)
    return report.close()


if __name__ == "__main__":
    sys.exit(main())
