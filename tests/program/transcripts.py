"""Takes recordings through `show --yaml`, transcripts through each command that reads recordings, and golden files that are transcripts.

`python3 -m tests.program.transcripts N` instead takes N random sessions and N random lists of messages to transcripts and back, 100 at a time."""
import glob
import json
import os
import random
import re
import sys
import time

from tests.program.faulty import side_by_side
from tests.program.golden import CONFIGURATION, NORMAL, NOT_NORMAL, OLD, SAME, UNCHANGED, Folder, golden_refusal, trace_of, wrote
from tests.program.order_reference import messages, recorded
from tests.program.suggest import pairs_in
from tests.program.transcript_reference import LEAST_SEQ, MOST_SEQ, OTHER, NotTranscript, as_data, read_transcript, transcript, typed
from tests.program.worked_runs import (
    BEGUN, COMPARED, CONFIGURED, DIFFERENCES, DONE, DONE_RESPONSE, FAILED, INITIALIZE, INITIALIZED, LAUNCH, NORMAL_CONFIGURED, OUTPUT, PER_STOP,
    REFUSED_BYTES, REFUSED_LINES, RESPONSE, SESSIONS, STACK, STOPPED, recording, refusal, renumbered,
)
from tests.report import PROGRAM, TOP, Report, run

sys.path.insert(0, os.path.join(TOP, "scripts"))
from normalise_reference import CAPABILITIES

try:
    import yaml
    LOADER = getattr(yaml, "CSafeLoader", yaml.SafeLoader)
except ImportError:
    yaml = None

EXAMPLES = os.path.join(TOP, "examples")
HEADS = (b"- client: ", b"- adapter: ")
FAULT = re.compile(rb"dapnorm: line (\d+): (BadLine|BadValue|Differs|(Missing|WrongType) row \d+)\n")
CASES_IN_TEST, CHANGES_IN_TEST = 300, 200


def text_of(lines):
    """Returns the transcript of lines, each with a marker and a content, by the reference."""
    return transcript(messages(recording(lines)))


def frames_of(found):
    """Returns the recording of a transcript of messages."""
    return recorded(typed(found))


def read(path):
    with open(path, "rb") as file:
        return file.read()


# ---- transcripts that are spelled out

FIRST_TEXT = '- client: request initialize\n  arguments:\n    adapterID: "mock"\n- adapter: response initialize\n'
BEGUN_TEXT = FIRST_TEXT + "  body:\n" + "".join(f"    {name}: false\n" for name in sorted(CAPABILITIES))
THREADS_5, THREADS_7 = ('>{"command":"threads","seq":%d,"type":"request"}' % seq for seq in (5, 7))
FAILED_THREADS = '<{"command":"threads","request_seq":%d,"seq":%d,"success":false,"type":"response"}'
EVENT = '<{"event":%s,"seq":%d,"type":"event"}'
BODY = '<{"body":%s,"event":"x","seq":1,"type":"event"}'
OUTPUT_TEXT = '- adapter: event output\n  body:\n    output: "hi"\n'

WORKED = {
    "a beginning": (BEGUN, BEGUN_TEXT),
    "a configuration": (
        CONFIGURED,
        BEGUN_TEXT + "- adapter: event initialized\n- client: request configurationDone\n- adapter: response configurationDone\n",
    ),
    "a failure": (
        [*BEGUN, STACK, FAILED],
        BEGUN_TEXT + "- client: request stackTrace\n  arguments:\n    threadId: 1\n- adapter: response stackTrace\n"
        '  body:\n    error:\n      format: "gone"\n      id: 7\n  message: "gone"\n  success: false\n',
    ),
    "another number": ([*BEGUN, THREADS_5], BEGUN_TEXT + "- client: request threads\n  seq: 5\n"),
    "a response to the oldest request, and to the other one": (
        [*BEGUN, THREADS_5, THREADS_7, FAILED_THREADS % (5, 2), FAILED_THREADS % (7, 3)],
        BEGUN_TEXT + "- client: request threads\n  seq: 5\n- client: request threads\n  seq: 7\n" + 2 * "- adapter: response threads\n  success: false\n",
    ),
    "a response to the later request first": (
        [*BEGUN, THREADS_5, THREADS_7, FAILED_THREADS % (7, 2), FAILED_THREADS % (5, 3)],
        BEGUN_TEXT + "- client: request threads\n  seq: 5\n- client: request threads\n  seq: 7\n"
        "- adapter: response threads\n  request_seq: 7\n  success: false\n- adapter: response threads\n  success: false\n",
    ),
    "numbers that are always 0": (
        [*(OUTPUT.replace('"seq":1', '"seq":0') for _ in range(3)), OUTPUT],
        OUTPUT_TEXT + "  seq: 0\n" + OUTPUT_TEXT + "  seq: 0\n" + OUTPUT_TEXT + OUTPUT_TEXT + "  seq: 1\n",
    ),
    "the largest number": (
        [*(OUTPUT.replace('"seq":1', f'"seq":{seq}') for seq in (2**63 - 2, 2**63 - 1, 2**63 - 1, 2**63 - 1))],
        OUTPUT_TEXT + f"  seq: {2**63 - 2}\n" + 3 * OUTPUT_TEXT,
    ),
    "names that are not plain": (
        [INITIALIZE, BEGUN[1], *(EVENT % (name, number) for number, name in enumerate(('"on"', '"E1"', '"a b"', '""', '"y_"', '"null"'), 2))],
        BEGUN_TEXT + '- adapter: "event on"\n- adapter: "event E1"\n- adapter: "event a b"\n- adapter: "event "\n- adapter: event y_\n- adapter: "event null"\n',
    ),
    "names that are escaped": (
        [*BEGUN, *(EVENT % (name, number) for number, name in enumerate(('"a\\"b"', '"\\\\"', '"\\n"', '"é"', '""'), 2))],
        BEGUN_TEXT + '- adapter: "event a\\"b"\n- adapter: "event \\\\"\n- adapter: "event \\n"\n- adapter: "event é"\n- adapter: "event \\u0085"\n',
    ),
    "names of the head": (
        [*BEGUN, '<{"adapter":1,"adapter_":2,"client":3,"clients":4,"command":"x","event":"x","seq":2,"success":true,"type":"event"}'],
        BEGUN_TEXT + '- adapter: event x\n  adapter_: 1\n  adapter__: 2\n  client_: 3\n  clients: 4\n  command: "x"\n  success: true\n',
    ),
    "lists and objects": (
        [*BEGUN, '<{"body":{"":0,"a":[[],{},[1,[2],{"b":{"c":[null]},"d":true}],{"e":[{}]},{"f g":[[3]]}],"h":{},"i":[]},"event":"x","seq":2,"type":"event"}'],
        BEGUN_TEXT + "- adapter: event x\n  body:\n    \"\": 0\n    a:\n    - []\n    - {}\n    -\n      - 1\n      -\n        - 2\n      - b:\n"
        "          c:\n          - null\n        d: true\n    - e:\n      - {}\n    - \"f g\":\n      -\n        - 3\n    h: {}\n    i: []\n",
    ),
    "characters that YAML does not allow": (
        [*BEGUN, '<{"body":"\\u0000\\n\u007f\u0085\u009f\u00a0\u2028\u2029\ufeff\ufffd\ufffe\uffff\U0001f600\\"\\\\","event":"x","seq":2,"type":"event"}'],
        BEGUN_TEXT + "- adapter: event x\n  body: \"\\u0000\\n\\u007f\\u0085\\u009f\u00a0\\u2028\\u2029\\ufeff\ufffd\\ufffe\\uffff\U0001f600\\\"\\\\\"\n",
    ),
}


def worked(report):
    for name, (lines, text) in WORKED.items():
        given, text = recording(lines), text.encode()
        report.check(f"{name}: the script writes it", text_of(lines) == text, repr(text_of(lines)))
        report.check(f"{name}: the script reads it", read_transcript(text) == typed(messages(given)))
        answer = run(["show", "--yaml"], given)
        report.check(f"{name}: show --yaml", answer == (0, text, b""), repr(answer))
        status, normal, _ = run(["normalise"], given)
        with Folder(session=given, **{"x.yaml": text, "none": b""}) as folder:
            if status == 0:
                folder.run("golden", "--open", "--update", "g.yaml", "session")
                report.check(f"{name}: the golden file", folder.read("g.yaml") == transcript(messages(normal)), repr(folder.read("g.yaml")))
            answer = folder.run("show", "--yaml", "x.yaml")
            report.check(f"{name}: show --yaml of the transcript", answer == (0, text, b""), repr(answer))
            answer = folder.run("mask", "none", "x.yaml")
            report.check(f"{name}: the frames of the transcript", answer == (0, frames_of(messages(given)), b""), repr(answer))


# ---- recordings of real adapters

def recordings():
    """Yields the name and the content of each recording among the examples, and of the records of each trace of a log."""
    for path in sorted(glob.glob(os.path.join(EXAMPLES, "*", "*.rec")) + glob.glob(os.path.join(EXAMPLES, "*.golden"))):
        yield os.path.basename(path), read(path)
    for path in sorted(glob.glob(os.path.join(EXAMPLES, "logs", "*.trace"))):
        yield os.path.basename(path), run(["record"], read(path))[1]


def is_read_by_others(text, found):
    """Returns whether PyYAML, if it is installed, reads the messages as they are."""
    return yaml is None or json.dumps(yaml.load(text, Loader=LOADER) or [], sort_keys=True) == json.dumps(as_data(found), sort_keys=True)


# Words of commands that read one recording, which is x, and of commands that read two. A transcript takes its place.
SINGLE = [
    "check x", "check --complete x", "check --per-stop x", "normalise x", "normalise --per-stop x", "show x", "show --full x", "show --faulty x",
    "show --record 2 x", "show --record 9999 x", "mask rules x", "order rules x", "name rules x", "golden --open g x", "golden --open --rules rules g x",
]
DOUBLE = [
    "compare a b", "compare --per-stop a b", "diff a b", "diff --per-stop a b", "diff --all a b", "suggest a b", "compare --rules rules a b",
    "diff --all --rules rules a b", "suggest --rules rules a b",
]
RULES = read(os.path.join(EXAMPLES, "session.rules"))


def one_real(name, given):
    """Takes a recording to its transcript and back. Returns whether it is accepted, and what is wrong."""
    with Folder(x=given, g=OLD, rules=RULES) as folder:
        checked, answer = folder.run("check", "x"), folder.run("show", "--yaml", "x")
        if checked[0] != 0:
            return False, [] if answer == checked else [f"show --yaml: {answer}"]
        found = messages(given)
        text = transcript(found)
        folder.write("x.yaml", text)
        normal = folder.run("normalise", "x")
        checks = {
            "show --yaml": answer == (0, text, b""),
            "other readers": is_read_by_others(text, found),
            "show --yaml of the transcript": folder.run("show", "--yaml", "x.yaml") == (0, text, b""),
            "normalise": normal[0] == 0 and folder.run("normalise", "x.yaml") == normal,
        }
        folder.write("x", frames_of(found))
        for line in SINGLE if os.path.exists(os.path.join(EXAMPLES, "captures", name)) else []:
            of_frames, of_text = (folder.run(*(it if word == "x" else word for word in line.split())) for it in ("x", "x.yaml"))
            checks[line] = of_frames[0] in (0, 1, 2) and of_frames == of_text
        return True, [title for title, holds in checks.items() if not holds]


def real(report):
    cases = list(recordings())
    for (name, _), (_, wrong) in zip(cases, found := side_by_side(lambda case: one_real(*case), cases)):
        report.check(f"{name} to its transcript and back", not wrong, repr(wrong))
    report.check("most recordings are accepted", sum(accepted for accepted, _ in found) > 30, repr(found))
    report.check("nothing is no transcript", run(["show", "--yaml"]) == (0, b"", b""))


def one_pair(pair):
    """Takes two recordings, of which one or both are transcripts, through each command. Returns what is wrong, or None if one is not accepted."""
    _, *paths = pair
    given = dict(zip("ab", map(read, paths)))
    if any(run(["check"], content)[0] != 0 for content in given.values()):
        return None
    frames = {name: frames_of(messages(content)) for name, content in given.items()}
    texts = {f"{name}.yaml": transcript(messages(content)) for name, content in given.items()}
    wrong = []
    with Folder(rules=RULES, **frames, **texts) as folder:
        for line in DOUBLE:
            wanted = folder.run(*line.split())
            for names in [{"a": "a.yaml", "b": "b.yaml"}] + ([{"a": "a.yaml"}, {"b": "b.yaml"}] if line in ("compare a b", "diff --all a b") else []):
                answer = folder.run(*(names.get(word, word) for word in line.split()))
                if wanted[0] not in (0, 1) or answer != wanted:
                    wrong.append((line, names, answer, wanted))
    return wrong


def pairs(report):
    cases = list(pairs_in(os.path.join(EXAMPLES, "captures"), os.path.join(EXAMPLES, "pairs")))
    found = side_by_side(one_pair, cases)
    for (title, *_), wrong in zip(cases, found):
        report.check(f"{title}: as transcripts", not wrong, repr(wrong)[:400])
    report.check("some pairs are tried", sum(wrong is not None for wrong in found) >= 5, repr(len(found)))


# ---- random messages with hard names and strings

HARD = [
    "on", "y", "N", "Yes", "off", "e1", "E12", "e1x", "ex", "client", "client_", "adapter", "adapter__", "clients", "type", "null", "True", "nan",
    "inf", ".inf", "~", "", 'a"b', "a: b", "a:", ":", "#", "a # b", "- ", "-", "- a", "? a", "\u0085", "a\u2028b", "\u2029", "\ufeff", "\ufffe",
    "\uffff", "\u007f", "\u00e9", "\U0001f600", "<<", "=", "a b", " a", "a ", "\t", "\n", "\r\n", "\\", "\0", "1", "1e3", "0x1", "1_000", "12:30",
    "2001-01-01", "_", "__", "a-b", "a.b", "seq", "command", "event", "request_seq", "success", "body", "arguments", "[]", "{}", "[a", "{a", "*a",
    "&a", "!a", "|", ">", "%a", "@a", "`a", "'", "'a'", ",", "---", "...", "z" * 130,
]
CHARACTERS = [
    *map(chr, range(0x00, 0x30)), *":;<=>?@[\\]^_`{|}~aAeE019", *map(chr, range(0x7F, 0xA2)), *"\u00ad\u0600\u200b\u200e\u2027\u2028\u2029\u202a",
    *"\ud7ff\ue000\ufdd0\ufefe\ufeff\uff00\ufff9\ufffc\ufffd\ufffe\uffff\U00010000\U0001f600\U0001fffe\U0010fffe\U0010ffff",
]
INTEGERS = [0, 1, -1, 10, 2**53 + 1, MOST_SEQ, 2**63, 2**64 - 1, LEAST_SEQ]
NUMBERS = [0, 1, 2, 3, -1, MOST_SEQ - 1, MOST_SEQ, LEAST_SEQ]
ENVELOPE = ("type", "seq", "command", "event", "request_seq", "success", "message")


def hard_string(dice):
    if dice.random() < 0.7:
        return dice.choice(HARD)
    return "".join(dice.choice(CHARACTERS) for _ in range(dice.randrange(1, 9)))


def hard_value(dice, depth):
    kind, count = dice.random(), dice.choice([0, 1, 1, 2, 3])
    if depth > 0 and kind < 0.3:
        return [hard_value(dice, depth - 1) for _ in range(count)]
    if depth > 0 and kind < 0.6:
        return {hard_string(dice): hard_value(dice, depth - 1) for _ in range(count)}
    return dice.choice([hard_string(dice), hard_string(dice), dice.choice(INTEGERS), True, False, None])


def deep_value(dice, depth):
    """A value that is nested as deep as this."""
    value = dice.choice([[], {}])
    for _ in range(depth - 1):
        value = [value] if dice.random() < 0.5 else {hard_string(dice): value}
    return value


def hard_object(dice):
    return {hard_string(dice): hard_value(dice, 3) for _ in range(dice.choice([0, 0, 1, 2, 4]))}


def hard_members(dice, envelope):
    """Members of a message. Those of an envelope are among them only if they are named."""
    members = {name: value for name, value in hard_object(dice).items() if name not in ENVELOPE}
    members.update({name: hard_value(dice, 1) for name in envelope if dice.random() < 0.1})
    for name in ("body", "arguments"):
        if dice.random() < 0.5:
            members[name] = deep_value(dice, 126) if dice.random() < 0.02 else hard_value(dice, 5)
    return members


# The members of an envelope that messages of a kind may have with any value.
ANY_VALUE = {"request": ("event", "request_seq", "success", "message"), "response": ("event",), "event": ("command", "request_seq", "success", "message")}


def hard_message(dice, kind, name, seq, **members):
    return {**hard_members(dice, ANY_VALUE[kind]), "type": kind, "event" if kind == "event" else "command": name, "seq": seq, **members}


def hard_list(dice, parts):
    """Any messages, in parts. A part has few names and few numbers, so that many are expected and others are almost."""
    found = []
    for _ in range(parts):
        names = [hard_string(dice) for _ in range(dice.choice([1, 2, 3]))]
        numbers = dice.sample(NUMBERS, dice.choice([2, 3, len(NUMBERS)]))
        for _ in range(dice.randrange(1, 12)):
            kind = dice.choice(["request", "request", "response", "response", "event"])
            answer = {"request_seq": dice.choice(numbers), "success": dice.random() < 0.7} if kind == "response" else {}
            message = hard_message(dice, kind, dice.choice(names), dice.choice(numbers), **answer)
            found.append((dice.choice(list(OTHER)), message))
    return found


class HardSession:
    """A session as it grows, which obeys the rules of sessions."""

    def __init__(self, dice):
        self.dice = dice
        self.found, self.open, self.used = [], {side: [] for side in OTHER}, {side: set() for side in OTHER}
        self.last = {side: dice.choice([0, 0, 7, MOST_SEQ - 3]) for side in OTHER}
        self.way = {side: dice.choice(["counts", "counts", "zero", "any"]) for side in OTHER}

    def number(self, side, kind):
        """The next number of a side. A request has another number than the earlier requests of its side."""
        number = {"counts": min(self.last[side] + 1, MOST_SEQ), "zero": 0, "any": self.dice.choice(NUMBERS)}[self.way[side]]
        if kind == "request":
            while number in self.used[side]:
                number = self.dice.choice([*NUMBERS, self.dice.randrange(LEAST_SEQ, MOST_SEQ)])
            self.used[side].add(number)
        self.last[side] = number
        return number

    def send(self, side, kind, name, **members):
        message = hard_message(self.dice, kind, name, self.number(side, kind), **members)
        if kind == "request":
            self.open[side].append(message)
        self.found.append((side, message))

    def respond(self, side, **members):
        """This side responds to one of the open requests of the other side."""
        asked = self.open[OTHER[side]]
        request = asked.pop(self.dice.randrange(len(asked)))
        self.send(side, "response", request["command"], request_seq=request["seq"], **members)


def hard_session(dice, parts):
    """A session in parts, each with other names."""
    session = HardSession(dice)
    session.send("client", "request", "initialize", arguments={**hard_object(dice), "adapterID": hard_string(dice)})
    session.respond("adapter", success=True, body=hard_object(dice))
    for _ in range(parts):
        names = [hard_string(dice) for _ in range(3)]
        for _ in range(dice.randrange(0, 14)):
            side, chance = dice.choice(list(OTHER)), dice.random()
            if chance < 0.4 and session.open[OTHER[side]]:
                session.respond(side, success=dice.random() < 0.7)
            elif chance < 0.6:
                session.send("adapter", "event", dice.choice(names))
            else:
                session.send(side, "request", dice.choice(names))
    return session.found


def session_there_and_back(case):
    """Takes a random session through the program, and returns what is wrong."""
    seed, parts = case
    found = hard_session(random.Random(f"session {seed}"), parts)
    text, frames = transcript(found), recorded(found)
    with Folder(x=frames, **{"x.yaml": text}) as folder:
        normal = folder.run("normalise", "x")
        checks = {
            "the script reads it": recorded(read_transcript(text)) == frames_of(found),
            "show --yaml": folder.run("show", "--yaml", "x") == (0, text, b""),
            "show --yaml of the transcript": folder.run("show", "--yaml", "x.yaml") == (0, text, b""),
            "normalise": normal[0] == 0 and folder.run("normalise", "x.yaml") == normal,
            "other readers": is_read_by_others(text, found),
        }
        folder.run("golden", "--open", "--update", "g.yaml", "x")
        checks["the golden file"] = folder.read("g.yaml") == transcript(messages(normal[1]))
    return [name for name, holds in checks.items() if not holds]


def list_there_and_back(case):
    """Takes random messages through the program, and then a text that differs a little, and returns what is wrong."""
    seed, parts = case
    dice = random.Random(f"list {seed}")
    found = hard_list(dice, parts)
    text = transcript(found)
    with Folder(none=b"", **{"x.yaml": text}) as folder:
        checks = {
            "the script reads it": recorded(read_transcript(text)) == recorded(found),
            "the frames": folder.run("mask", "none", "x.yaml") == (0, recorded(found), b""),
            "other readers": is_read_by_others(text, found),
        }
        wrong = judged_otherwise(folder, changed(dice, text), found)
    return [name for name, holds in checks.items() if not holds] + ([wrong[-500:]] if wrong else [])


def random_messages(report, cases):
    """Takes random sessions and lists through the program. A case is a seed and a number of parts."""
    for name, function in ("session", session_there_and_back), ("list", list_there_and_back):
        wrong = [(case, found) for case, found in zip(cases, side_by_side(function, cases)) if found]
        report.check(f"{len(cases)} random cases: {name}", not wrong, f"{len(wrong)} are wrong: {wrong[:5]}")


# ---- texts that are changed

def changed(dice, text):
    """Returns a text with a byte changed, removed or added, or with a line removed, doubled or exchanged with the next one."""
    place, byte = dice.randrange(len(text)), bytes([dice.choice(b' \t\r\n-:"#\\{}[]aei01_\x80\xff<>')])
    lines = text.splitlines(keepends=True)
    line = dice.randrange(len(lines))
    others = [
        text[:place] + byte + text[place + 1:], text[:place] + text[place + 1:], text[:place] + byte + text[place:],
        b"".join(lines[:line] + lines[line + 1:]), b"".join(lines[:line] + lines[line:line + 1] + lines[line:]),
        b"".join(lines[:line] + lines[line + 1:line + 2] + lines[line:line + 1] + lines[line + 2:]),
    ]
    return dice.choice(others)


def line_of(text, number):
    """Returns the number of the line of a record's head."""
    return [line for line, content in enumerate(text.split(b"\n"), 1) if content.startswith(HEADS)][number - 1]


def judged_otherwise(folder, text, found):
    """Returns how the program and the script judge a text otherwise, or None. Neither may read messages that have another transcript."""
    folder.write("y.yaml", text)
    status, output, errors = folder.run("check", "y.yaml")
    try:
        wanted = read_transcript(text)
    except NotTranscript as fault:
        if not text.startswith(HEADS):
            is_right = status == 2 and errors.startswith(b"dapnorm: record 1: ")
        else:
            line = FAULT.fullmatch(errors)
            is_right = line and 1 <= int(line[1]) <= text.count(b"\n") + 1 and (status, output) == (2, b"")
        return None if is_right else f"{text!r} is refused at line {fault}: {(status, output, errors)}"
    folder.write("y", recorded(wanted))
    shown = folder.run("show", "y")
    if shown[0] != 0:
        # A row of the profile after the first six is violated.
        number, row = re.fullmatch(rb"dapnorm: record (\d+): (.*)\n", shown[2]).groups()
        is_right = (status, output, errors) == (2, b"", b"dapnorm: line %d: %s\n" % (line_of(text, int(number)), row))
    else:
        is_right = folder.run("check", "y") == (status, output, errors) and folder.run("mask", "none", "y.yaml") == (0, recorded(wanted), b"")
    is_other = (recorded(wanted) == frames_of(found)) == (text == transcript(found))
    return None if is_right and is_other else f"{text!r} is read as {wanted}: {(status, output, errors)} {shown}"


FAILED_RESPONSE = RESPONSE.replace("true", "false")
SMALL = [OUTPUT, INITIALIZE, FAILED_RESPONSE, THREADS_7, FAILED_THREADS % (7, 2)]


def judge_all(report, name, cases):
    """Judges each text by the program and the script. A case is the messages and a text that differs from their transcript."""
    def judge(case):
        with Folder(none=b"") as folder:
            return judged_otherwise(folder, case[1], case[0])

    wrong = [it[-400:] for it in side_by_side(judge, cases) if it]
    report.check(f"{len(cases)} changes of {name}", not wrong, f"{len(wrong)} are wrong: {wrong[:5]}")


def each_place(report):
    """Changes each byte of a small transcript, removes it, adds one before it, and cuts the text there."""
    found, text, dice, texts = messages(recording(SMALL)), text_of(SMALL), random.Random(5), []
    for place in range(len(text) + 1):
        one, other = (bytes([byte]) for byte in dice.sample(b' \n"-a:\t{#', 2))
        texts += [text[:place] + one + text[place:], text[:place] + other + text[place + 1:], text[:place] + text[place + 1:], text[:place]]
    texts = sorted({other for other in texts if other != text})
    report.check("enough texts", len(texts) > 600, str(len(texts)))
    judge_all(report, "a small transcript", [(found, other) for other in texts])


def random_places(report):
    """Changes transcripts of real sessions at random places."""
    names = ["debugpy-l-stopentry.1.rec", "dlv-e-errors.1.rec", "lldb14-b-loop.1.rec", "rdbg-e-errors.5.rec"]
    originals = [messages(read(os.path.join(EXAMPLES, "captures", name))) for name in names]
    dice = random.Random(6)
    judge_all(report, "real sessions", [(found, changed(dice, transcript(found))) for found in originals for _ in range(CHANGES_IN_TEST // 4)])


# ---- texts that are refused

TEXT = FIRST_TEXT + '  success: false\n- adapter: event process\n  body:\n    name: "abc"\n    x: 1\n'
REFUSED = {
    "a tab": (TEXT.replace("    adapterID", "\tadapterID"), "line 3: BadLine"),
    "a comment": (TEXT.replace("  arguments", "  # more\n  arguments"), "line 2: BadLine"),
    "a comment after a value": (TEXT.replace("1\n", "1 # one\n"), "line 9: BadLine"),
    "an empty line": (TEXT.replace("- adapter: event", "\n- adapter: event"), "line 6: Differs"),
    "an empty line at the end": (TEXT + "\n", "line 10: Differs"),
    "a blank after a value": (TEXT.replace('"mock"', '"mock" '), "line 3: BadLine"),
    "no blank before a value": (TEXT.replace(': "mock"', ':"mock"'), "line 3: BadLine"),
    "CR LF": (TEXT.replace("\n", "\r\n"), "line 1: BadLine"),
    "no LF": (TEXT[:-1], "line 9: Differs"),
    "no quotes": (TEXT.replace('"abc"', "abc"), "line 6: BadValue"),
    "single quotes": (TEXT.replace('"abc"', "'abc'"), "line 8: BadLine"),
    "a fraction": (TEXT.replace("x: 1", "x: 1.5"), "line 6: BadValue"),
    "minus nought": (TEXT.replace("x: 1", "x: -0"), "line 6: BadValue"),
    "half a surrogate": (TEXT.replace("abc", "\\ud800"), "line 6: BadValue"),
    "an escape that is not needed": (TEXT.replace("abc", "\\u0061bc"), "line 8: Differs"),
    "a character that has to be escaped": (TEXT.replace("abc", "\u2028"), "line 8: Differs"),
    "capital digits": (TEXT.replace("abc", "\\uFEFF"), "line 8: Differs"),
    "a plain name in quotes": (TEXT.replace("name:", '"name":'), "line 8: Differs"),
    "a name without quotes": (TEXT.replace("name:", "e1:"), "line 8: Differs"),
    "names out of order": (TEXT.replace("name:", "z:"), "line 8: Differs"),
    "a name twice": (TEXT.replace("    x", '    name: "abc"\n    x'), "line 9: Differs"),
    "a list in brackets": (TEXT.replace('"abc"', "[1]"), "line 8: BadLine"),
    "an expected seq": (TEXT.replace("  success", "  seq: 1\n  success"), "line 5: Differs"),
    "an expected request_seq": (TEXT.replace("  success", "  request_seq: 1\n  success"), "line 5: Differs"),
    "success": (TEXT.replace("success: false", "success: true"), "line 5: Differs"),
    "absent capabilities": (TEXT.replace("  success: false\n", ""), "line 5: Differs"),
    "no request": (TEXT.replace("response initialize", "response launch"), "line 4: Missing row 4"),
    "a seq too large": (TEXT + f"  seq: {2**63}\n", "line 6: WrongType row 1"),
    "a row of its command": (TEXT.replace("adapterID", "adapter"), "line 1: Missing row 9"),
    "another kind": (TEXT.replace("event process", "reply process"), "line 6: BadLine"),
    "a plain head in quotes": (TEXT.replace("event process", '"event process"'), "line 6: Differs"),
    "a head without quotes": (TEXT.replace("event process", "event on"), "line 6: Differs"),
    "a type": (TEXT + '  type: "event"\n', "line 10: Differs"),
    "another name": (TEXT.replace("  body", '  event: "x"\n  body'), "line 6: Differs"),
    "a name of the head": (TEXT.replace("  body", "  adapter: 1\n  body"), "line 7: Differs"),
    "nothing below a name": (TEXT + "  data:\n", "line 10: Differs"),
    "a list at another indentation": (TEXT + "  data:\n    - 1\n", "line 11: BadLine"),
    "nested lists at one indentation": (TEXT + "  data:\n  - - 1\n", "line 11: BadLine"),
    "lists 127 deep": (TEXT + "  data:\n" + "".join(f"{' ' * (2 * n)}-\n" for n in range(1, 127)) + " " * 254 + "- []\n", "line 6: BadValue"),
    "a merge conflict": (TEXT.replace("    x", "<<<<<<< HEAD\n    x"), "line 9: BadLine"),
    "frames after it": (TEXT + ">Content-Length: 2\r\n\r\n{}\n", "line 10: BadLine"),
    "not UTF-8": (TEXT.encode().replace(b"abc", b"\xff"), "line 6: BadValue"),
    "a name that is not UTF-8": (TEXT.encode().replace(b"x:", b"\xff:"), "line 9: BadLine"),
    "only a head": ("- client: ", "line 1: BadLine"),
}

# Commands that name a text which is refused, and what precedes its line.
LINES = {
    "normalise x.yaml": "", "show x.yaml": "", "show --faulty x.yaml": "", "show --yaml x.yaml": "", "show --record 1 x.yaml": "",
    "mask none x.yaml": "", "order none x.yaml": "", "compare x.yaml other": "A: ", "diff other x.yaml": "B: ", "diff --all x.yaml other": "A: ",
    "suggest other x.yaml": "B: ", "golden g x.yaml": "golden: ", "golden --update g x.yaml": "golden: ",
}


def as_bytes(text):
    return text.encode() if isinstance(text, str) else text


def one_refused(name):
    """Takes a text that is not a transcript through the commands. Returns what is wrong."""
    text, said = as_bytes(REFUSED[name][0]), REFUSED[name][1]
    wrong = []
    # The script does not know the rows of the profile after the first six.
    try:
        wrong += ["the script reads it" for _ in read_transcript(text)[:1] if not said.endswith("row 9")]
    except NotTranscript:
        pass
    lines = {"check x.yaml": "", "golden x.yaml other": "golden: x.yaml: ", **(LINES if name in ("a tab", "a fraction", "a type", "no request") else {})}
    with Folder(none=b"", other=CONFIGURATION, **{"x.yaml": text}) as folder:
        for line, which in lines.items():
            answer = folder.run(*line.split())
            if answer != (2, b"", refusal(which + said)):
                wrong.append((line, answer))
        answer = folder.run("golden", "--update", "x.yaml", "other")
        if answer != wrote(CONFIGURED, "x.yaml") or folder.read("x.yaml") != NORMAL_TEXT or folder.names() != ["none", "other", "x.yaml"]:
            wrong.append(("golden --update", answer))
    return wrong


def refused(report):
    """Texts that are not transcripts, with the line and the reason."""
    report.check("the text is a transcript", read_transcript(TEXT.encode()) is not None)
    for name, wrong in zip(REFUSED, side_by_side(one_refused, REFUSED)):
        report.check(f"{name}: {REFUSED[name][1]}", not wrong, repr(wrong)[:600])


# ---- golden files

NORMAL_TEXT = text_of(NORMAL_CONFIGURED)


def golden_sessions(report):
    """Golden files by their names, from recordings, traces and transcripts."""
    few = ["a configuration", "frames", "a cancel"]
    cases = [(name, title) for name in ("x.yaml", "x.yml", "x.golden") for title in (SESSIONS if name == "x.yaml" else few) if SESSIONS[title][0]]
    for name, title in cases:
        lines, normal, is_open = SESSIONS[title]
        text = recording(normal) if name == "x.golden" else text_of(normal)
        words = ["--open"] if any(is_open) else []
        forms = {"recording": recording(lines), "trace": trace_of(lines, 7), "transcript": text_of(lines)}
        for form in forms if title in few else ["recording"]:
            content = forms[form]
            with Folder(session=content) as folder:
                said = f"{name} of {title}, {form}"
                report.check(f"{said}: made", folder.run("golden", *words, "--update", name, "session") == wrote(lines, name))
                report.check(f"{said}: its text", folder.read(name) == text, repr(folder.read(name)))
                report.check(f"{said}: the same", folder.run("golden", *words, name, "session") == (*SAME, b""))
                report.check(f"{said}: unchanged", folder.run("golden", *words, "--update", name, "session") == (*UNCHANGED, b""))
                report.check(f"{said}: no other file", folder.names() == ["session", name] and folder.read(name) == text)
        if any(is_open):
            with Folder(session=recording(lines)) as folder:
                answer = folder.run("golden", "--update", name, "session")
                said = golden_refusal("incomplete: {} client, {} adapter".format(*is_open))
                report.check(f"{name} of {title}: open requests", answer == (2, b"", said) and folder.read(name) is None, repr(answer))


def line_told(text, differ):
    """Returns the line on standard error that says at which line the record that differs starts, if the golden file has this record."""
    number = int(differ.split()[1])
    if number > sum(line.startswith(HEADS) for line in text.split(b"\n")):
        return b""
    return b"  g.yaml: record %d starts at line %d\n" % (number, line_of(text, number))


def golden_differences(report):
    """A golden file that is a transcript differs as one of frames does."""
    for name, (a, b, (status, _, _)) in COMPARED.items():
        if not a or not b or status == 2:
            continue
        with Folder(a=a, b=b) as folder:
            folder.run("golden", "--open", "--update", "g.yaml", "a")
            before = folder.read("g.yaml")
            wanted = (*SAME, b"") if status == 0 else (1, DIFFERENCES[name], line_told(before, DIFFERENCES[name]))
            if name == "a fault behind a difference":
                wanted = (2, b"", golden_refusal("record 5: BadMarker"))
            answer = folder.run("golden", "--open", "g.yaml", "b")
            report.check(f"g.yaml of {name}", answer == wanted and folder.read("g.yaml") == before, repr(answer))
    for name, normal in PER_STOP.items():
        with Folder(session=recording(SESSIONS[name][0])) as folder:
            folder.run("golden", "--per-stop", "--update", "g.yaml", "session")
            report.check(f"g.yaml of {name} with --per-stop", folder.read("g.yaml") == text_of(normal))
            report.check(f"{name} is held to it with --per-stop", folder.run("golden", "--per-stop", "g.yaml", "session") == (*SAME, b""))


# Another session with the same normal form.
OTHER_NUMBERS = [*BEGUN, INITIALIZED, renumbered(DONE, seq=(2, 9)), renumbered(DONE_RESPONSE, request_seq=(2, 9))]
ENDS = b'differ 3\nA ends\nB < event "initialized"\n'
NONE = b'differ 1\nA ends\nB > request "initialize"\n'
NOT_REPLACED = "%s: not replaced, since it is not a golden file: remove it first"

# A name, what the file is, and the output for a configuration, or a line that refuses the file; and whether --update replaces it.
GOLDEN = [
    ("g.yaml", NORMAL_TEXT, b"same\n", None),
    ("g", NORMAL, b"same\n", None),
    # The other form, or not the normal form.
    ("g.yaml", NORMAL, NOT_NORMAL, True),
    ("g.yaml", CONFIGURATION, NOT_NORMAL, True),
    ("g.yaml", text_of(OTHER_NUMBERS), NOT_NORMAL, True),
    ("g", NORMAL_TEXT, NOT_NORMAL, True),
    ("g", text_of(OTHER_NUMBERS), NOT_NORMAL, True),
    ("g", recording(OTHER_NUMBERS), NOT_NORMAL, True),
    # Another session.
    ("g.yaml", OLD, ENDS, True),
    ("g.yaml", text_of(BEGUN), ENDS, True),
    ("g", text_of(BEGUN), ENDS, True),
    ("g.yaml", b"", NONE, True),
    ("g", b"", NONE, True),
    # Names that do not end so, and names that do.
    ("g.YAML", NORMAL, b"same\n", None),
    (".yml", NORMAL_TEXT, b"same\n", None),
    # Files that are damaged.
    ("g.yaml", NORMAL_TEXT.replace(b"\n", b"\r\n"), "line 1: BadLine", True),
    ("g.yaml", NORMAL_TEXT.replace(b"    adapterID", b"\tadapterID"), "line 3: BadLine", True),
    ("g.yaml", NORMAL_TEXT[:-3], "line 43: Missing row 4", True),
    ("g.yaml", NORMAL_TEXT[:30], "line 2: BadLine", True),
    ("g.yaml", NORMAL_TEXT[:NORMAL_TEXT.index(b"- adapter: event")], ENDS, True),
    ("g.yaml", NORMAL_TEXT[:NORMAL_TEXT.index(b"    adapterID")], "line 1: WrongType row 8", True),
    ("g.yaml", NORMAL_TEXT.replace(b"- adapter", b"<<<<<<< HEAD\n- adapter", 1), "line 4: BadLine", True),
    ("g.yaml", NORMAL_TEXT + NORMAL, f"line {NORMAL_TEXT.count(10) + 1}: BadLine", True),
    ("g.yaml", NORMAL + NORMAL_TEXT, "record 6: BadMarker", True),
    # Files that are not replaced.
    ("g.yaml", b"<<<<<<< HEAD\n" + NORMAL_TEXT, "line 1: BadLine", False),
    ("g.yaml", b"# a session\n" + NORMAL_TEXT, "line 1: BadLine", False),
    ("g.yaml", b"\xef\xbb\xbf" + NORMAL_TEXT, "line 1: BadLine", False),
    ("g.yaml", b"- client:\n", "line 1: BadLine", False),
    ("g.yaml", b"hello\n", "line 1: BadLine", False),
    ("g.yaml", b"\n", "line 1: Differs", False),
    ("g.yaml", trace_of(CONFIGURED, 7), "line 1: BadLine", False),
    ("g", b"hello\n", "record 1: BadMarker", False),
    ("g", b"<<<<<<< HEAD\n" + NORMAL, "record 1: HeaderLine", False),
]


def golden_files(report):
    """Files with each content under each name, compared and replaced."""
    for number, (name, content, said, replaced) in enumerate(GOLDEN, 1):
        with Folder(session=CONFIGURATION, **{name: content}) as folder:
            title = f"row {number}, {name} {content[:24]!r}"
            wanted = (2, b"", golden_refusal(f"{name}: {said}")) if isinstance(said, str) else (0 if said == b"same\n" else 1, said, b"")
            answer = folder.run("golden", name, "session")
            report.check(title, answer == wanted and folder.read(name) == content, repr(answer))
            answer = folder.run("golden", "--update", name, "session")
            wanted = (*UNCHANGED, b"") if replaced is None else wrote(CONFIGURED, name) if replaced else (2, b"", golden_refusal(NOT_REPLACED % name))
            text = (NORMAL_TEXT if name.endswith((".yaml", ".yml")) else NORMAL) if replaced in (True, None) else content
            report.check(f"{title}, --update", answer == wanted and folder.read(name) == text, repr(answer))
            report.check(f"{title}, no other file", len(folder.names()) == 2)


def golden_rules(report):
    """Rules, `--open` and refused sessions with a golden file that is a transcript."""
    blank = b"blank event stopped body.reason\nblank request launch arguments.x\n"
    session = [*BEGUN, LAUNCH % "0.5", STOPPED]
    normal = text_of([INITIALIZE, NORMAL_CONFIGURED[1], LAUNCH % "0", STOPPED.replace("step", "")])
    with Folder(session=recording(session), rules=blank, drop=b"drop event *\n") as folder:
        made = folder.run("golden", "--open", "--rules", "rules", "--update", "g.yaml", "session")
        report.check("g.yaml by rules", made == wrote(session, "g.yaml") and folder.read("g.yaml") == normal, repr(made))
        for words, wanted in (
            (["--open", "--rules", "rules"], (*SAME, b"")),
            (["--open"], (2, b"", golden_refusal("record 3: Fraction"))),
            (["--rules", "rules"], (2, b"", golden_refusal("after the rules: incomplete: 1 client, 0 adapter"))),
            (["--open", "--rules", "none"], (4, b"", refusal("rules: read fault"))),
            (["--open", "--rules", "g.yaml"], (2, b"", refusal("rules: line 1: BadRule"))),
        ):
            answer = folder.run("golden", *words, "g.yaml", "session")
            report.check(f"golden {words} g.yaml", answer == wanted, repr(answer))
            if wanted != (*SAME, b""):
                answer = folder.run("golden", *words, "--update", "g.yaml", "session")
                report.check(f"golden {words} --update g.yaml", answer[0] != 0 and folder.read("g.yaml") == normal, repr(answer))
        answer = folder.run("golden", "--open", "--rules", "rules", "--update", "g.yaml", "g.yaml")
        same_file = refusal("golden: the golden file and the input are the same file: g.yaml")
        report.check("the golden file is the input", answer == (3, b"", same_file), repr(answer))
    cases = [(recording([*lines, line]), said) for lines, line, said in REFUSED_LINES.values()] + [(b"", "no records"), (OLD[:-1], "record 2: Cut")]
    for given, said in cases:
        with Folder(session=given) as folder:
            answers = [folder.run("golden", *words, "g.yaml", "session") for words in ([], ["--update"])]
            report.check(f"g.yaml of a session with {said}", answers == 2 * [(2, b"", golden_refusal(said))] and folder.names() == ["session"], repr(answers))


# ---- the words of show, and inputs that are not looked at

def show_words(report):
    text = text_of(CONFIGURED)
    for words in (["--full"], ["--faulty"], ["--record", "1"], ["--full", "--faulty"]):
        with Folder(x=CONFIGURATION, out=b"old") as folder:
            for line in (["show", "--yaml", *words, "x", "-o", "out"], ["show", *words, "--yaml", "x"]):
                status, output, errors = folder.run(*line)
                report.check(f"{line} is a mistake", (status, output) == (3, b"") and errors.startswith(b"error: ") and b"--yaml" in errors, repr(errors))
            report.check(f"{words}: nothing is written", folder.read("out") == b"old" and folder.names() == ["out", "x"])
    for given in (CONFIGURATION, text):
        with Folder(x=given) as folder:
            report.check("show --yaml -o out", folder.run("show", "--yaml", "x", "-o", "out") == (0, b"", b"") and folder.read("out") == text)
            report.check("show --yaml over its input", folder.run("show", "--yaml", "-o", "x", "x") == (0, b"", b"") and folder.read("x") == text)
    cases = [(recording([*lines, line]), said) for lines, line, said in REFUSED_LINES.values()]
    cases += [(recording(lines) + rest, said) for lines, rest, said in REFUSED_BYTES.values()]
    for given, said in cases:
        with Folder(x=given, out=b"old") as folder:
            answers = [folder.run("show", "--yaml", "x", "-o", "out"), folder.run("show", "--yaml", given=given)]
            report.check(f"show --yaml of a recording with {said}", answers == 2 * [(2, b"", refusal(said))] and folder.read("out") == b"old", repr(answers))


def from_streams(report):
    """Transcripts on standard input and in a pipe, and texts that only start like one."""
    with Folder(frames=CONFIGURATION, **{"x.yaml": NORMAL_TEXT}) as folder:
        for words in (["check"], ["normalise"], ["show", "--yaml"], ["mask", "/dev/null"], ["golden", "--open", "x.yaml"], ["compare", "frames"]):
            wanted = folder.run(*words, "x.yaml")
            for name in ("-", "/dev/stdin"):
                answer = folder.run(*words, name, given=NORMAL_TEXT)
                report.check(f"{words} of a transcript from {name}", answer == wanted and wanted[0] == 0, repr(answer))
        for text in (b"-", b"- ", b"- client", b"- client:", b"- adapter:x", b"- clients: ", b"-- client: ", b"x"):
            folder.write("start", text)
            given, wanted = folder.run("check", given=text), folder.run("check", "start")
            report.check(f"{text!r} from standard input", given == wanted and wanted[0] == 2, repr(given))
        for text in (NORMAL_TEXT[:-1], NORMAL_TEXT.replace(b"\n", b"\r\n"), b"- client: nothing\n"):
            folder.write("wrong", text)
            given, wanted = folder.run("check", given=text), folder.run("check", "wrong")
            is_same = given[:2] == wanted[:2] and wanted[2].startswith(given[2]) and b": line " in given[2]
            report.check(f"a wrong transcript of {len(text)} bytes from standard input", is_same, repr((given, wanted)))


def not_looked_at(report):
    """A transcript as a rules file, as a trace or as frames."""
    with Folder(frames=CONFIGURATION, **{"x.yaml": NORMAL_TEXT}) as folder:
        for words, wanted in (
            (["record", "x.yaml"], (2, b"", refusal("piece 1: BadCount"))), (["mask", "x.yaml", "frames"], (2, b"", refusal("rules: line 1: BadRule"))),
        ):
            answer = folder.run(*words)
            report.check(f"{words} of a transcript", answer == wanted, repr(answer))
        status, _, errors = folder.run("compact", "x.yaml")
        report.check("compact of a transcript", status == 2 and errors.startswith(b"dapnorm: record 1: "), repr(errors))


# ---- large transcripts

def longest(report):
    """A content as long as the limit, and one that is longer by a byte."""
    head, count = "- client: request launch\n  x: ", 16_777_216 - len('{"command":"launch","seq":1,"type":"request","x":""}')
    for name, unit, written in (("letters", "a" * 2, "a" * 2), ("characters that are escaped", "\u0085", "\\u0085")):
        text, written = unit * (count // 2), written * (count // 2)
        frames = recorded([("client", {"command": "launch", "seq": 1, "type": "request", "x": text})])
        report.check(f"{name}: the limit", frames.startswith(b">Content-Length: 16777216\r\n"))
        with Folder(none=b"", **{"x.yaml": f'{head}"{written}"\n'.encode(), "y.yaml": f'{BEGUN_TEXT}{head}"{written}a"\n'.encode()}) as folder:
            answer = folder.run("mask", "none", "x.yaml")
            report.check(f"{name}: the longest content", answer == (0, frames, b""), repr((answer[0], answer[2])))
            answer = folder.run("mask", "none", "y.yaml")
            report.check(f"{name}: a content that is too long", answer == (2, b"", refusal("line 41: TooLong")), repr((answer[0], answer[2])))


MANY = 20_000


def many(report):
    """Many requests that are open at once, and then their responses in either order, with one command or each with its own."""
    asked = "- client: request threads\n"
    failed = "  success: false\n"
    sessions = {
        "in their order": asked * MANY + ("- adapter: response threads\n" + failed) * MANY,
        "the other way round": asked * MANY + "".join(
            "- adapter: response threads\n" + (f"  request_seq: {number}\n" if number > 2 else "") + failed for number in range(MANY + 1, 1, -1)),
        "with a command each": "".join(f"- client: request c{number}\n" for number in range(MANY)) + "".join(
            f"- adapter: response c{number}\n{failed}" for number in reversed(range(MANY))),
        "a long list": "- adapter: event x\n  body:\n" + "  - 1\n" * 10 * MANY,
        "a long list of objects": "- adapter: event x\n  body:\n" + "  - a: 1\n    b:\n    - []\n" * 4 * MANY,
    }
    for name, text in sessions.items():
        text = (BEGUN_TEXT + text).encode()
        with Folder(none=b"", **{"x.yaml": text}) as folder:
            began = time.monotonic()
            status, frames, errors = folder.run("mask", "none", "x.yaml")
            report.check(f"{name}: they are read", (status, errors) == (0, b"") and frames.startswith(frames_of(messages(recording(BEGUN)))), repr((status, errors)))
            folder.write("x", frames)
            answer = folder.run("show", "--yaml", "x")
            report.check(f"{name}: they are written", answer == (0, text, b""), repr((answer[0], answer[2])))
            report.check(f"{name}: in seconds", time.monotonic() - began < 30, f"{time.monotonic() - began:.1f} s")


def main():
    report = Report()
    if not report.check("the gate has built the program", os.access(PROGRAM, os.X_OK)):
        return report.close()
    if yaml is None:
        print("no other reader is tried: python3-yaml is not installed", flush=True)
    tests = (
        worked, real, pairs, refused, golden_sessions, golden_differences, golden_files, golden_rules, show_words, from_streams, not_looked_at, longest, many,
        each_place, random_places,
    )
    if len(sys.argv) > 1:
        random_messages(report, [(f"part {seed}", 100) for seed in range(int(sys.argv[1]) // 100)])
        return report.close()
    for test in tests:
        test(report)
    random_messages(report, [(seed, 1) for seed in range(CASES_IN_TEST)])
    return report.close()


if __name__ == "__main__":
    sys.exit(main())
