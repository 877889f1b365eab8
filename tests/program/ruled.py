"""Runs `order`, and `check`, `compare`, `diff` and `golden` by rules, on small sessions: outputs, refusals, files and explanations."""
import json
import os
import sys

from tests.program.golden import Folder, wrote
from tests.report import TOP, Report
from tests.program.worked_runs import BEGUN, DONE, FILLED, INITIALIZE, INITIALIZED, NEW_FRAME, NORMAL_PER_STOP, STOP_PAIRS, TWO_STOPS, record, recording, refusal

CONTINUE = '>{"arguments":{"threadId":1},"command":"continue","seq":2,"type":"request"}'
CONTINUED = '<{"command":"continue","request_seq":2,"seq":%d,"success":true,"type":"response"}'
STOPPED = '<{"body":{"reason":"%s"},"event":"stopped","seq":%d,"type":"event"}'
SWAP = b"swap response continue event stopped\n"
# The adapter answers and then stops, or it stops and then answers.
ANSWERED_FIRST = [INITIALIZE, FILLED, CONTINUE, CONTINUED % 2, STOPPED % ("step", 3)]
STOPPED_FIRST = [INITIALIZE, FILLED, CONTINUE, STOPPED % ("step", 2), CONTINUED % 3]
# What `order` makes of the second.
IN_ORDER = [INITIALIZE, FILLED, CONTINUE, CONTINUED % 3, STOPPED % ("step", 2)]
PAIRS = b"client-seq 1 1\nclient-seq 2 2\nadapter-seq 1 1\nadapter-seq 2 3\nadapter-seq 3 2\nthread 1 1\n"
# Without its `initialized` event the session breaks a rule of the protocol.
CONFIGURED = recording([INITIALIZE, FILLED, INITIALIZED, DONE])
EARLY = "after the rules: record 3: ConfiguredEarly"


def order(report):
    files = {"a": recording(ANSWERED_FIRST), "b": recording(STOPPED_FIRST), "rules": SWAP, "none": b"# no rule\n", "bad": b"swap response\n"}
    with Folder(**files) as folder:
        report.check("a recording that is in order", folder.run("order", "rules", "a") == (0, files["a"], b""))
        report.check("a recording that is not", folder.run("order", "rules", "b") == (0, recording(IN_ORDER), b""))
        report.check("from standard input", folder.run("order", "rules", given=files["b"]) == (0, recording(IN_ORDER), b""))
        report.check("without a rule for the order", folder.run("order", "none", "b") == (0, files["b"], b""))
        report.check("into a file", folder.run("order", "rules", "b", "-o", "c") == (0, b"", b"") and folder.read("c") == recording(IN_ORDER))
        report.check("into its own file", folder.run("order", "rules", "c", "-o", "c") == (0, b"", b"") and folder.read("c") == recording(IN_ORDER))
        answer = folder.run("order", "bad", "b", "-o", "d")
        report.check("a rule that is rejected", answer == (2, b"", refusal("rules: line 1: BadRule")) and folder.read("d") is None, repr(answer))
        answer = folder.run("order", "missing", "b")
        report.check("rules that do not exist", answer == (4, b"", refusal("rules: read fault")), repr(answer))
        answer = folder.run("order", "rules", given=files["b"] + b"x")
        report.check("nothing is written before all is read", answer == (2, b"", refusal("record 6: BadMarker")), repr(answer))
        answer = folder.run("order", "rules", given=recording([INITIALIZE, CONTINUE]))
        report.check("a session that breaks a rule", answer == (2, b"", refusal("record 2: StillInitializing")), repr(answer))
        answer = folder.run("order", "rules", given=b"")
        report.check("an empty recording", answer == (0, b"", b""), repr(answer))


def comparisons(report):
    files = {"a": recording(ANSWERED_FIRST), "b": recording(STOPPED_FIRST), "rules": SWAP, "none": b""}
    other = recording([INITIALIZE, FILLED, CONTINUE, STOPPED % ("pause", 2), CONTINUED % 3])
    with Folder(**files, other=other) as folder:
        report.check("they differ", folder.run("compare", "a", "b") == (1, b"differ 4\n", b""))
        answer = folder.run("compare", "--rules", "rules", "a", "b")
        report.check("by the rules they are the same", answer == (0, b"same\n" + PAIRS, b""), repr(answer))
        report.check("without a rule they differ", folder.run("compare", "--rules", "none", "a", "b") == (1, b"differ 4\n", b""))
        report.check("with one from standard input", folder.run("compare", "--rules", "rules", "a", "-", given=files["b"])[:2] == (0, b"same\n" + PAIRS))
        for words in (["diff"], ["diff", "--all"]):
            report.check(f"{words} by the rules", folder.run(*words, "--rules", "rules", "a", "b") == (0, b"same\n", b""))
        answer = folder.run("diff", "--rules", "rules", "a", "other")
        lines = b'differ 5\n< event "stopped"\nA body.reason "step"\nB body.reason "pause"\n'
        report.check("what differs after the rules", answer == (1, lines, b""), repr(answer))
        answer = folder.run("diff", "--all", "--rules", "rules", "a", "other")
        lines = b'differ: 1 paired, 0 only in A, 0 only in B\n5/5 < event "stopped"\nA body.reason "step"\nB body.reason "pause"\n'
        report.check("all that differs after the rules", answer == (1, lines, b""), repr(answer))
        report.check("golden by the rules", folder.run("golden", "--rules", "rules", "--update", "g", "a") == wrote(ANSWERED_FIRST))
        report.check("the other session is held to it", folder.run("golden", "--rules", "rules", "g", "b") == (0, b"same\n", b""))
        report.check("without the rules it differs", folder.run("golden", "g", "b")[:2][0] == 1)
        report.check("another session is not held to it", folder.run("golden", "--rules", "rules", "g", "other")[0] == 1)


def per_stop(report):
    """The line `per-stop` is as the option for `compare`, `diff` and `golden`, and nothing for `mask` and `order`."""
    files = {"a": recording(TWO_STOPS), "b": recording(NEW_FRAME)}
    rules = {"rules": b"per-stop # ids\n", "none": b"# per-stop\n", "swap": SWAP + b"per-stop\n"}
    with Folder(**files, **rules) as folder:
        report.check("without the line they differ", folder.run("compare", "--rules", "none", "a", "b")[0] == 1)
        for name in ("rules", "swap"):
            answer = folder.run("compare", "--rules", name, "a", "b")
            report.check(f"with the line of {name} they are the same", answer == (0, STOP_PAIRS, b""), repr(answer))
            report.check("with the option too", folder.run("compare", "--per-stop", "--rules", name, "a", "b") == answer)
            for words in (["diff"], ["diff", "--all"]):
                report.check(f"{words} with the line of {name}", folder.run(*words, "--rules", name, "a", "b") == (0, b"same\n", b""))
            answer = folder.run("golden", "--open", "--rules", name, "--update", f"g-{name}", "a")
            report.check(f"golden with the line of {name}", answer[0] == 0 and folder.read(f"g-{name}") == recording(NORMAL_PER_STOP), repr(answer))
            answer = folder.run("golden", "--open", "--rules", name, f"g-{name}", "b")
            report.check(f"the other run is held to it by {name}", answer == (0, b"same\n", b""), repr(answer))
            answer = folder.run("golden", "--open", "--per-stop", "--rules", "none", f"g-{name}", "b")
            report.check(f"the option does what the line of {name} does", answer == (0, b"same\n", b""), repr(answer))
            report.check("without either it differs", folder.run("golden", "--open", "--rules", "none", f"g-{name}", "b")[0] == 1)
        report.check("mask leaves ids", folder.run("mask", "rules", "b")[1] == folder.run("mask", "none", "b")[1])
        report.check("order leaves ids", folder.run("order", "rules", "b") == folder.run("order", "none", "b"))


def capture(name):
    """The lines of a recording of a real adapter."""
    with open(os.path.join(TOP, "examples", "captures", name), "rb") as file:
        rest = file.read()
    lines = []
    while rest:
        header, rest = rest.split(b"\r\n\r\n", 1)
        length = int(header.split(b":")[1])
        lines.append((header[:1] + rest[:length]).decode())
        rest = rest[length + 1:]
    return lines


def moved(lines, old, new):
    """A recording with another text in the contents."""
    return recording([line.replace(old, new) for line in lines])


def words(report):
    """Sessions of two project folders are the same if each folder becomes one word."""
    folders = ("/home/ada/project/tests/progs", "/srv/ci/build-17")
    lines = capture("debugpy-l-stopentry.1.rec")
    files = {"a": recording(lines), "b": moved(lines, *folders), "late": moved(lines, folders[0] + "/", folders[1] + "//")}
    rules = {f"word-{name}": f'word "{folder}" "<project>"\n'.encode() for name, folder in zip("ab", folders)}
    both = {"word-both": b"".join(rules.values())}
    with Folder(**files, **rules, **both) as folder:
        report.check("the folder is in the session", folders[0].encode() in files["a"] and files["a"] != files["b"])
        report.check("without words they differ", folder.run("compare", "a", "b")[0] == 1)
        answers = [folder.run("compare", "--rules", "word-both", "a", name) for name in "ab"]
        report.check("with words they are the same", answers[0] == answers[1] and answers[1][:2][0] == 0, repr(answers))
        report.check("another difference stays", folder.run("compare", "--rules", "word-both", "a", "late")[0] == 1)
        report.check("masked alike", folder.run("mask", "word-a", "a") == folder.run("mask", "word-b", "b"))
        answer = folder.run("golden", "--rules", "word-a", "--update", "g", "a")
        report.check("a golden file of one folder", answer[0] == 0, repr(answer))
        report.check("without the folder", folders[0].encode() not in folder.read("g") and b"<project>" in folder.read("g"))
        answer = folder.run("golden", "--rules", "word-b", "g", "b")
        report.check("is that of the other", answer == (0, b"same\n", b""), repr(answer))
        report.check("but not with the other's word", folder.run("golden", "--rules", "word-a", "g", "b")[0] == 1)
        answers = [folder.run("order", f"word-{name}", name) for name in "ab"]
        report.check("order leaves the words of the file", answers[0][0] == 0 and answers[0][1] != answers[1][1], repr(answers))


def word_option(report):
    """The option `--word` is as a line `word` after the rules: on one machine, and on two."""
    folders = ("/home/ada/project/tests/progs", "/srv/ci/build-17")
    lines = capture("debugpy-l-stopentry.1.rec")
    files = {"a": recording(lines), "b": moved(lines, *folders), "none": b"# no rule"}
    rules = {f"word-{name}": f'word "{folder}" "<project>"\n'.encode() for name, folder in zip("ab", folders)}
    rules["word-both"] = b"".join(rules.values())
    of_a, of_b = (["--word", f"{folder}=<project>"] for folder in folders)
    with Folder(**files, **rules) as folder:
        answer = folder.run("golden", *of_a, "--update", "g", "a")
        report.check("a golden file of one folder by the option", answer[0] == 0 and folders[0].encode() not in folder.read("g"), repr(answer))
        folder.run("golden", "--rules", "word-a", "--update", "h", "a")
        report.check("it is that of the line", folder.read("g") == folder.read("h"))
        answer = folder.run("golden", *of_b, "g", "b")
        report.check("it is that of the other machine by its option", answer == (0, b"same\n", b""), repr(answer))
        report.check("but not by the option of the first", folder.run("golden", *of_a, "g", "b")[0] == 1)
        answer = folder.run("golden", *of_a, *of_b, "g", "b")
        report.check("both options serve both machines", answer == (0, b"same\n", b""), repr(answer))
        for words in (["compare"], ["diff"], ["diff", "--all"]):
            wanted = folder.run(*words, "--rules", "word-both", "a", "b")
            report.check(f"{words} by two options", wanted[0] == 0 and folder.run(*words, *of_a, *of_b, "a", "b") == wanted)
            report.check(f"{words} by one option", folder.run(*words, *of_a, "a", "b")[0] == 1)
            report.check(f"{words} by a line and an option", folder.run(*words, "--rules", "word-a", *of_b, "a", "b") == wanted)
            report.check(f"{words} by a comment and options", folder.run(*words, "a", "b", *of_b, "--rules", "none", *of_a) == wanted)
        masked = folder.run("mask", "word-a", "a")
        report.check("mask of two machines, each by its option", folder.run("mask", *of_a, "none", "a") == folder.run("mask", *of_b, "none", "b") == masked)
        answer = folder.run("mask", *of_a, "none", "-o", "c", given=files["a"])
        report.check("mask into a file", answer == (0, b"", b"") and folder.read("c") == masked[1], repr(answer))
        answer = folder.run("suggest", *of_a, *of_b, "a", "b")
        report.check("suggest after the words", answer == (0, b"# with these rules: same\n", b""), repr(answer))


def values(report):
    """What a value means: TEXT ends at the first `=`, and both are any text."""
    first, many = ANSWERED_FIRST[0], b"".join(b"drop event e%d\n" % it for it in range(999))
    with Folder(a=recording(ANSWERED_FIRST), none=b"", many=many, bad=b"# a comment\nswap\n", long=b"#" * 65_500) as folder:
        for text, word in (("mock", "<a=b>"), ("mock", "="), ("mock", '"\\\t='), ("mock", "\u00e9\x01")):
            answer = folder.run("mask", "--word", f"{text}={word}", "none", "a")
            content = json.dumps(word, ensure_ascii=False)[1:-1]
            written = recording([first.replace(text, content), *ANSWERED_FIRST[1:]])
            report.check(f"{text} becomes {word!r}", text in first and answer == (0, written, b""), repr(answer))
        answer = folder.run("mask", "--word=mock=<m>", "--word", "mo=<n>", "none", "a")
        report.check("the longer text is found", answer[1] == recording([first.replace("mock", "<m>"), *ANSWERED_FIRST[1:]]), repr(answer))
        report.check("the thousandth rule", folder.run("mask", "--word", "x=<w>", "many", "a")[0] == 0)
        for name, given, why in (("many", ["x=<w>", "y=<v>"], TOO_MANY), ("long", ["x=<w>", f"y=<{'v' * 99}>"], TOO_LONG)):
            answer = folder.run("mask", *(it for value in given for it in ("--word", value)), name, "a")
            report.check(f"the rules of {name} and words", answer == bad_word(given[-1], why), repr(answer))
        for words in (["mask", "bad", "a"], ["compare", "--rules", "bad", "a", "a"], ["golden", "--rules", "bad", "g", "a"]):
            answer = folder.run(*words, "--word", "x=<w>")
            report.check(f"{words} names its own line", answer == (2, b"", refusal("rules: line 2: BadRule")), repr(answer))
            answer = folder.run(*["missing" if it == "bad" else it for it in words], "--word", "x=<w>")
            report.check(f"{words} without the file", answer == (4, b"", refusal("rules: read fault")), repr(answer))


# Why a value of the option `--word` is wrong.
NO_EQUALS, EMPTY, REPEATED = "write TEXT=WORD", "TEXT is empty", "TEXT has a WORD already"
EMPTY_WORD = "WORD is empty"
OVERLAP = "a WORD and a TEXT overlap: take another WORD, such as <home>"
TOO_MANY, TOO_LONG = "there are more than 1,000 rules", "the rules are longer than 65,536 bytes"

# A file of rules, values, and why the last of them is wrong.
BAD_WORDS = [
    (None, ["x"], NO_EQUALS), (None, [""], NO_EQUALS), (None, ["a=<a>", "x"], NO_EQUALS), (None, ["=x"], EMPTY), (None, ["="], EMPTY),
    (None, ["a=1", "=x"], EMPTY), (None, ["x="], EMPTY_WORD), (None, ["a=1", "b="], EMPTY_WORD), (None, ["a=ba"], OVERLAP), (None, ["a=1", "b=a"], OVERLAP), (None, ["a=1", "1=b"], OVERLAP),
    (None, ["a=1", "a=2"], REPEATED), (None, ["a=1", "b=2", "a=1"], REPEATED),
    ("word", ["mock=<n>"], REPEATED), ("word", ["a=1", "<m=<n>"], OVERLAP), ("bad", ["=x"], EMPTY), ("missing", ["x"], NO_EQUALS),
]


def bad_word(value, why):
    return 3, b"", f"error: --word {value}: {why}\n".encode()


def bad_words(report):
    with Folder(a=recording(ANSWERED_FIRST), none=b"", word=b'word mock "<m>"\n', bad=b"swap\n") as folder:
        for rules, given, why in BAD_WORDS:
            options = [it for value in given for it in ("--word", value)]
            named = ["--rules", rules] if rules else []
            runs = [["mask", rules or "none", "a"], ["check", *named, "a"], ["compare", *named, "a", "a"], ["diff", "--all", *named, "a", "a"]]
            for words in (*runs, ["golden", *named, "--update", "g", "a"], ["suggest", *named, "a", "a"]):
                answer = folder.run(*words, *options)
                report.check(f"{words} {options}", answer == bad_word(given[-1], why) and folder.read("g") is None, repr(answer))


def refusals(report):
    files = {"a": recording(ANSWERED_FIRST), "early": CONFIGURED, "bytes": recording(BEGUN) + b"x", "json": recording(BEGUN) + record("<{")}
    rules = {"drop": b"drop event initialized\n", "both": b"drop event initialized\n" + SWAP, "bad": b"swap\n"}
    with Folder(**files, **rules) as folder:
        for name in ("drop", "both"):
            for a, b, told in (("early", "a", "A"), ("a", "early", "B")):
                answer = folder.run("compare", "--rules", name, a, b)
                report.check(f"{told} is refused after the rules {name}", answer == (2, b"", refusal(f"{told}: {EARLY}")), repr(answer))
        for name, told in (("bytes", "record 3: BadMarker"), ("json", "record 3: Json")):
            for a, b, which in ((name, "a", "A"), ("a", name, "B")):
                for words in (["compare"], ["diff"], ["diff", "--all"]):
                    answer = folder.run(*words, "--rules", "both", a, b)
                    report.check(f"{words} of {name} as {which}", answer == (2, b"", refusal(f"{which}: {told}")), repr(answer))
        answer = folder.run("compare", "--rules", "bad", "a", "a")
        report.check("rules that are rejected", answer == (2, b"", refusal("rules: line 1: BadRule")), repr(answer))
        answer = folder.run("compare", "--rules", "missing", "a", "a")
        report.check("rules that do not exist", answer == (4, b"", refusal("rules: read fault")), repr(answer))
        answer = folder.run("compare", "--rules", "drop", "missing", "a")
        report.check("a file that does not exist", answer == (4, b"", refusal("A: read fault")), repr(answer))
        answer = folder.run("compare", "--rules", "drop", "-", "-")
        report.check("standard input twice", answer == (3, b"", b"error: only one of A and B can be standard input\n"), repr(answer))
        answer = folder.run("golden", "--rules", "both", "--update", "g", "early")
        report.check("golden after the rules", answer == (2, b"", refusal(f"golden: {EARLY}")) and folder.read("g") is None, repr(answer))


def checking(report):
    """`check` by rules: the session that the rules make is checked, as `compare` checks it."""
    # An adapter that sends its events without `seq`, as Perl's does.
    unnumbered = [INITIALIZE, FILLED, '<{"event":"initialized","type":"event"}', DONE]
    files = {"a": recording(unnumbered), "early": CONFIGURED, "stops": recording(TWO_STOPS), "bytes": recording(BEGUN) + b"x"}
    fill, drop = b"fill event * seq 0\n", b"drop event initialized\n"
    rules = {"fill": fill, "drop": drop, "both": drop + SWAP, "stop": fill + SWAP + b"per-stop\n", "none": b"# no rule\n", "bad": b"swap\n"}
    accepted = 0, b"accepted records=4 open=1,0\n", b""
    with Folder(**files, **rules) as folder:
        for words in ([], ["--rules", "none"], ["--word", "mock=<m>"]):
            missing = f"{'after the rules: ' if words else ''}record 3: Missing row 1"
            answer = folder.run("check", *words, "a")
            report.check(f"events without seq, {words}", answer == (2, b"", refusal(missing)), repr(answer))
        for words in (["a"], ["--word", "mock=<m>", "a"], ["--per-stop", "a"], ["-"], []):
            for name in ("fill", "stop"):
                answer = folder.run("check", "--rules", name, *words, given=files["a"])
                report.check(f"the rules {name} give events a seq, {words}", answer == accepted, repr(answer))
                answer = folder.run("check", "--complete", "--rules", name, *words, given=files["a"])
                open_request = refusal("after the rules: incomplete: 1 client, 0 adapter")
                report.check(f"a request without a response by {name}, {words}", answer == (2, b"", open_request), repr(answer))
        answer = folder.run("check", "--rules", "stop", "stops")
        report.check("two stops", answer == folder.run("check", "--per-stop", "stops") and answer[0] == 0, repr(answer))
        for name in ("drop", "both"):
            for words in (["early"], ["--complete", "early"]):
                answer = folder.run("check", "--rules", name, *words)
                report.check(f"{words} is rejected after the rules {name}", answer == (2, b"", refusal(EARLY)), repr(answer))
            answer = folder.run("check", "--rules", name, "a", given=files["a"])
            report.check(f"an event that {name} drops is not counted", answer == (2, b"", refusal(EARLY)), repr(answer))
            answer = folder.run("check", "--rules", name, "-", given=recording(unnumbered[:3]))
            report.check(f"events that {name} drops", answer == (0, b"accepted records=2 open=0,0\n", b""), repr(answer))
            answer = folder.run("check", "--rules", name, "bytes")
            report.check(f"bytes that {name} cannot mask", answer == (2, b"", refusal("record 3: BadMarker")), repr(answer))
        for words, error in ((["bad", "a"], "rules: line 1: BadRule"), (["missing", "a"], "rules: read fault"), (["-", "-"], "rules: read fault"), (["fill", "missing"], "read fault")):
            answer = folder.run("check", "--rules", *words, given=files["a"])
            report.check(f"check --rules {words}", answer == (2 if "bad" in words else 4, b"", refusal(error)), repr(answer))


def main():
    report = Report()
    order(report)
    checking(report)
    comparisons(report)
    per_stop(report)
    words(report)
    word_option(report)
    values(report)
    bad_words(report)
    refusals(report)
    return report.close()


if __name__ == "__main__":
    sys.exit(main())
