"""Writes messages as a transcript, and reads a transcript, by the definition of the format and without the program, as a second opinion.

A message is a pair: its side, "client" or "adapter", and its JSON value. A message has the members of rows 1 to 6 of the profile, and a
response to `initialize` has all capabilities. The reader accepts a text if and only if the writer writes exactly this text of some messages."""
import json
import re
from itertools import zip_longest

from tests.program.order_reference import messages, name_of, recorded
from normalise_reference import fill

OTHER = {"client": "adapter", "adapter": "client"}
KINDS = ("request", "response", "event")
MOST_SEQ, LEAST_SEQ, MOST_INTEGER = 2**63 - 1, -2**63, 2**64 - 1
MOST_NESTED, LONGEST_CONTENT = 127, 1 << 24

PLAIN = re.compile(r"[A-Za-z_][A-Za-z0-9_]*")
# Words in any case of letters that some reader of YAML takes for a boolean, null or a number.
OTHER_TYPE = re.compile(r"y|n|yes|no|on|off|true|false|null|nan|inf|e[0-9]+")
# Characters that YAML does not allow, or that end a line in YAML.
ESCAPED = re.compile("[\u007f-\u009f\u2028\u2029\ufeff\ufffe\uffff]")
OF_HEAD = re.compile(r"(client|adapter)_*")


class NotTranscript(Exception):
    """The text is not a transcript. The first argument is a line at which it is not, counted from 1."""


class Before:
    """The messages before a record: the `seq` of each side, and its open requests, the oldest first."""

    def __init__(self):
        self.numbers = {side: [] for side in OTHER}
        self.open = {side: [] for side in OTHER}

    def add(self, side, message):
        self.numbers[side].append(message["seq"])
        if message["type"] == "request":
            self.open[side].append((message["seq"], message["command"]))
        elif message["type"] == "response":
            asked = self.open[OTHER[side]]
            asked[:] = [(seq, command) for seq, command in asked if seq != message["request_seq"]]

    def expected_seq(self, side):
        numbers = self.numbers[side]
        if not numbers:
            return 1
        if numbers[-1:] == numbers[-2:-1]:
            return numbers[-1]
        return min(numbers[-1] + 1, MOST_SEQ)

    def expected_request_seq(self, side, command):
        """Returns the `seq` of the oldest open request with this command, or None."""
        return next((seq for seq, asked in self.open[OTHER[side]] if asked == command), None)


# ---- the writer

def typed(found):
    """Returns the messages, in which absent capabilities of the adapter are false."""
    filled = []
    for side, message in found:
        body = message.get("body")
        filled.append((side, {**message, "body": dict(body)} if isinstance(body, dict) else dict(message)))
        if body is None or isinstance(body, dict):
            fill(*filled[-1])
    return filled


def is_plain(name):
    return PLAIN.fullmatch(name) is not None and OTHER_TYPE.fullmatch(name.lower()) is None


def scalar_text(value):
    """Returns the canonical JSON text, in which more characters are escaped. An object or an array is empty."""
    text = json.dumps(value, ensure_ascii=False, separators=(",", ":"))
    return ESCAPED.sub(lambda found: f"\\u{ord(found[0]):04x}", text)


def member_lines(members, indent):
    lines, blanks = [], " " * indent
    for name in sorted(members):
        value, start = members[name], f"{blanks}{name if is_plain(name) else scalar_text(name)}:"
        if not value or not isinstance(value, (dict, list)):
            lines.append(f"{start} {scalar_text(value)}")
            continue
        lines.append(start)
        lines += member_lines(value, indent + 2) if isinstance(value, dict) else element_lines(value, indent)
    return lines


def element_lines(elements, indent):
    lines, blanks = [], " " * indent
    for element in elements:
        if not element or not isinstance(element, (dict, list)):
            lines.append(f"{blanks}- {scalar_text(element)}")
        elif isinstance(element, list):
            lines += [f"{blanks}-", *element_lines(element, indent + 2)]
        else:
            first, *others = member_lines(element, indent + 2)
            lines += [f"{blanks}- {first[indent + 2:]}", *others]
    return lines


def written_members(before, side, message):
    """Returns the members that are written below the head, by the names as they are written."""
    kind, members = message["type"], dict(message)
    del members["type"], members["event" if kind == "event" else "command"]
    if message["seq"] == before.expected_seq(side):
        del members["seq"]
    if kind == "response":
        if message["request_seq"] == before.expected_request_seq(side, message["command"]):
            del members["request_seq"]
        if message["success"]:
            del members["success"]
    return {f"{name}_" if OF_HEAD.fullmatch(name) else name: value for name, value in members.items()}


def head_of(message):
    kind, name = message["type"], name_of(message)
    head = f"{kind} {name}"
    return head if is_plain(name) else scalar_text(head)


def written(found):
    """Yields the side of each message, the message, and its members as they are written."""
    before = Before()
    for side, message in typed(found):
        yield side, message, written_members(before, side, message)
        before.add(side, message)


def transcript(found):
    """Returns the transcript of messages."""
    lines = []
    for side, message, members in written(found):
        lines += [f"- {side}: {head_of(message)}", *member_lines(members, 2)]
    return "".join(line + "\n" for line in lines).encode()


def as_data(found):
    """Returns what a reader of YAML makes of the transcript of messages."""
    return [{side: f"{message['type']} {name_of(message)}", **members} for side, message, members in written(found)]


# ---- the reader

# A fraction and NaN raise ValueError, as no text of theirs is that of an integer.
DECODER = json.JSONDecoder(parse_float=int, parse_constant=int)


class Lines:
    """The lines of a text, read from the first one on."""

    def __init__(self, text):
        try:
            self.lines = text.decode().split("\n")
        except UnicodeDecodeError as error:
            raise NotTranscript(text[:error.start].count(b"\n") + 1) from error
        self.at = 0
        if self.lines.pop() != "":
            raise NotTranscript(text.count(b"\n") + 1)

    def refuse(self):
        raise NotTranscript(min(self.at + 1, len(self.lines)))

    def starts_with(self, start):
        return self.at < len(self.lines) and self.lines[self.at].startswith(start)

    def value(self, text):
        """Returns the value of a scalar. The writer decides later whether it is written so."""
        try:
            return DECODER.decode(text)
        except (ValueError, RecursionError):
            self.refuse()

    def name_and_rest(self, text):
        """Returns a name at the start of a text and what follows its colon, or None."""
        found = PLAIN.match(text)
        if found is not None:
            name, end = found[0], found.end()
        elif text.startswith('"'):
            try:
                name, end = DECODER.raw_decode(text)
            except ValueError:
                self.refuse()
        else:
            return None
        return (name, text[end + 1:]) if text[end:end + 1] == ":" else None

    def members(self, indent):
        """Reads members at an indentation, as many as there are. `elements` does the same."""
        members, blanks = {}, " " * indent
        while self.starts_with(blanks) and not self.starts_with((blanks + " ", blanks + "-")):
            name, rest = self.name_and_rest(self.lines[self.at][indent:]) or self.refuse()
            if name in members:
                self.refuse()
            self.at += 1
            if rest:
                members[name] = self.value(rest)
            else:
                members[name] = (self.elements(indent) if self.starts_with(blanks + "-") else self.members(indent + 2)) or self.refuse()
        return members

    def elements(self, indent):
        elements, blanks = [], " " * indent
        while self.starts_with(blanks + "-"):
            rest = self.lines[self.at][indent + 2:]
            if self.lines[self.at] == blanks + "-":
                self.at += 1
                elements.append(self.elements(indent + 2) or self.refuse())
            elif self.name_and_rest(rest) is not None:
                # The first member is read as if it had a line of its own.
                self.lines[self.at] = f"{blanks}  {rest}"
                elements.append(self.members(indent + 2) or self.refuse())
            else:
                elements.append(self.value(rest))
                self.at += 1
        return elements


def read_head(lines):
    """Reads a head. Returns its side, and a message with the members of the head."""
    found = re.fullmatch(r"- (client|adapter): (.*)", lines.lines[lines.at], re.DOTALL)
    if found is None:
        lines.refuse()
    side, head = found.groups()
    if head.startswith('"'):
        head = lines.value(head)
    kind, blank, name = head.partition(" ") if isinstance(head, str) else lines.refuse()
    if kind not in KINDS or not blank:
        lines.refuse()
    lines.at += 1
    return side, {"type": kind, "event" if kind == "event" else "command": name}


def read_record(lines, before):
    """Reads a record. Returns its side and its message."""
    side, message = read_head(lines)
    members = lines.members(2)
    for name, value in members.items():
        if OF_HEAD.fullmatch(name):
            name = name[:-1] if name.endswith("_") else lines.refuse()
        if name in message:
            lines.refuse()
        message[name] = value
    message.setdefault("seq", before.expected_seq(side))
    if message["type"] == "response":
        message.setdefault("request_seq", before.expected_request_seq(side, message["command"]))
        message.setdefault("success", True)
    return side, message


def is_seq(value):
    return isinstance(value, int) and not isinstance(value, bool) and LEAST_SEQ <= value <= MOST_SEQ


def nesting(value):
    """Returns how deep a value is nested. Raises ValueError if an integer in it is too small or too large."""
    if isinstance(value, (dict, list)):
        inner = value.values() if isinstance(value, dict) else value
        return 1 + max(map(nesting, inner), default=0)
    if isinstance(value, int) and not isinstance(value, bool) and not LEAST_SEQ <= value <= MOST_INTEGER:
        raise ValueError(value)
    return 0


def is_message(message):
    """Returns whether a value is a content and has the envelope of a message, as rows 1 to 6 of the profile require."""
    try:
        is_content = nesting(message) <= MOST_NESTED and len(recorded([("client", message)])) <= LONGEST_CONTENT
    except (ValueError, RecursionError):
        return False
    seqs = [message["seq"], message["request_seq"]] if message["type"] == "response" else [message["seq"]]
    has_success = message["type"] != "response" or isinstance(message["success"], bool)
    return is_content and has_success and all(map(is_seq, seqs))


def read_transcript(text):
    """Returns the messages of a transcript. Raises NotTranscript if the text is not what the writer writes of them."""
    lines, found, before = Lines(text), [], Before()
    while lines.at < len(lines.lines):
        start = lines.at + 1
        try:
            side, message = read_record(lines, before)
        except RecursionError as error:
            raise NotTranscript(start) from error
        if not is_message(message):
            raise NotTranscript(start)
        found.append((side, message))
        before.add(side, message)
    pairs = zip_longest(text.split(b"\n"), transcript(found).split(b"\n"))
    for number, (line, wanted) in enumerate(pairs, 1):
        if line != wanted:
            raise NotTranscript(number)
    return found
