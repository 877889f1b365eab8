"""Measures inputs that are chosen to be expensive, each at two sizes. If the cost is linear, four times the size takes four times as long.

    python3 scripts/costs.py [--size small] [--json FILE]
"""
import json
import os
import random
import re
import sys
import tempfile
from typing import Callable, NamedTuple

from compact_reference import canonical, compacted
from compare_reference import compared
from generated_inputs import MARKERS, begin_session, record, request, response
from measuring import Figures, digest, measure, options
from normalise_reference import OTHER, fill, normalised
from one_direction import records
from record_reference import recorded

# A value that the other recording has as the next number.
VALUE = 1_234_567
# The number of rules that a file can have. With more, `suggest` ends with status 1.
MOST_RULES = 1000
# The larger input of a case has four times as many numbers, members, frames, records or bytes as the smaller one.
FACTORS = (1, 4)
NOISE = 1.5
# Small inputs have a hundredth of them.
SMALL = 100


def launched(file, arguments):
    """Writes a session whose third record is a `launch` request with these arguments, a JSON text."""
    begin_session(file)
    content = ('{"seq":1,"type":"request","command":"launch","arguments":%s}' % arguments).encode()
    file.write(b">Content-Length: %d\r\n\r\n%s\n" % (len(content), content))


def nested(file, count):
    """The same numbers in arrays that are 120 deep."""
    launched(file, '{"x":' + "[" * 120 + ",".join(map(str, range(count))) + "]" * 120 + "}")


def nested_objects(file, count):
    """The same numbers in one array in objects that are 120 deep."""
    launched(file, '{"x":' * 120 + "[" + ",".join(map(str, range(count))) + "]" + "}" * 120)


def flat(file, count):
    """Numbers in one array."""
    launched(file, '{"x":[' + ",".join(map(str, range(count))) + "]}")


def members(file, count):
    """One object with many members, from the last name to the first."""
    launched(file, "{" + ",".join(f'"name{number:07}":1' for number in reversed(range(count))) + "}")


def one_name(file, count):
    """One object that has one name many times."""
    launched(file, "{" + ",".join(f'"name":{number}' for number in range(count)) + "}")


def fractions(file, count):
    """Fractions that a later member of the same name replaces, so that each content is read twice."""
    launched(file, "{" + '"x":1.5,' * count + '"x":1}')


def escapes(file, count):
    """A string of which each byte becomes six."""
    launched(file, '{"x":"' + "\\u0001" * count + '"}')


def frames(file, count):
    """Responses with a thousand new frames each."""
    begin_session(file)
    for seq in range(1, count + 1):
        file.write(record("client", request(seq, "stackTrace", {"threadId": 1})))
        found = [{"id": 1000 * seq + n, "name": "f", "line": 1, "column": 1} for n in range(1000)]
        file.write(record("adapter", response(seq, seq, "stackTrace", body={"stackFrames": found})))


def open_requests(file, count):
    """Requests without responses, with mixed numbers."""
    begin_session(file)
    numbers = list(range(1, count + 1))
    random.Random(1).shuffle(numbers)
    for number in numbers:
        file.write(record("client", request(number, "pause", {"threadId": 1})))


def long_headers(file, count):
    """Small records with header parts of 4,000 bytes."""
    content = json.dumps({"seq": 1, "type": "event", "event": "output", "body": {"output": "x"}}).encode()
    field = b"X-Filler: " + b"x" * 3940 + b"\r\n"
    file.write((b"<%sContent-Length: %d\r\n\r\n%s\n" % (field, len(content), content)) * count)


def deep_frames(file, count):
    """Frames of nothing but 127 arrays."""
    content = b"[" * 127 + b"]" * 127
    file.write((b"Content-Length: %d\r\n\r\n%s" % (len(content), content)) * count)


def small_pieces(file, count):
    """A trace of pieces of one byte."""
    frame = b'Content-Length: 2\r\n\r\n{}' * count
    file.write(b"".join(b">1\n%c" % byte for byte in frame))


def variables(file, count):
    """Variables with numbers and addresses in their values."""
    begin_session(file)
    for seq in range(1, count + 1):
        file.write(record("client", request(seq, "variables", {"variablesReference": 1})))
        found = [{"name": f"v{n}", "value": f"0x{n:x} is {n}", "variablesReference": 0} for n in range(100)]
        file.write(record("adapter", response(seq, seq, "variables", body={"variables": found})))


def letters(file, count):
    """A text in which none of a thousand texts with a common start occurs."""
    dice = random.Random(1)
    launched(file, '{"x":"%s"}' % "".join(dice.choice("ab") for _ in range(count)))


def one_letter(file, count):
    """A text of one letter in which a text of 30,000 such letters and another one does not occur."""
    launched(file, '{"x":"%s"}' % ("a" * count))


def named_events(file, count):
    """Events of two thousand names, any two of which may change places."""
    begin_session(file)
    for seq in range(1, count + 1):
        file.write(record("adapter", {"seq": seq, "type": "event", "event": f"name{seq % 2000}"}))


def new_members(file, count):
    """A member with a new name in each record, and another value in the other recording."""
    begin_session(file)
    for seq in range(1, count + 1):
        file.write(record("adapter", {"seq": seq, "type": "event", "event": "custom", "body": {f"name{seq}": VALUE}}))


def new_commands(file, count):
    """A request with a new command in each record, and another value in the other recording."""
    begin_session(file)
    for seq in range(1, count + 1):
        file.write(record("client", request(seq, f"command{seq}", {"x": VALUE})))


def nested_fractions(file, count):
    """Numbers in arrays that are 120 deep, after a fraction that a later member of the same name replaces."""
    launched(file, '{"x":1.5,"x":' + '{"x":' * 120 + "[" + ",".join(map(str, range(count))) + "]" + "}" * 121)


def addresses(file, count):
    """Texts of a thousand hexadecimal numbers, all of them different."""
    begin_session(file)
    for seq in range(1, count + 1):
        text = " ".join(f"0x{number * 2_654_435_761 % 2**32 + 2**32:x}" for number in range(1000 * seq, 1000 * seq + 1000))
        file.write(record("client", request(seq, "launch", {"x": text})))


def pointers(file, count):
    """Texts that have each hexadecimal number in two spellings."""
    begin_session(file)
    for seq in range(1, count + 1):
        file.write(record("client", request(seq, "variables", {"variablesReference": 1})))
        found = [{"name": "v", "value": f"0x{number:x} 0x{number:08x}", "variablesReference": 0} for number in range(100 * seq, 100 * seq + 100)]
        file.write(record("adapter", response(seq, seq, "variables", body={"variables": found})))


def crossing(file, count):
    """Responses that all pass each other."""
    begin_session(file)
    for seq in range(1, count + 1):
        file.write(record("client", request(seq, "pause", {"threadId": 1})))
    for seq in range(1, count + 1):
        file.write(record("adapter", response(seq, count + 1 - seq, "pause")))


# A thousand rules that apply to the same messages: only the last two name members that exist.
RULES = "".join(f"blank response variables body.variables[].none{number}\n" for number in range(998))
RULES += "hex response variables body.variables[].value\ndigits response variables body.variables[].name\n"


# Two responses may change places, if they answer different requests.
SWAPS = "swap response * response *\n"

# A thousand texts with a common start, and a text of many equal letters.
ALIKE = "".join(f'word "{"ab" * 8}{number:04}" "<{number}>"\n' for number in range(1000))
LONG = f'word "{"a" * 30_000}b" "<long>"\n'
# Rules that declare ids: at one place, and a thousand that apply to the same messages, of which only the last one names members that exist.
ONE_LABEL = "hex request launch arguments.x as address\n"
LABELS = "".join(f"hex response variables body.variables[].none{number} as address\n" for number in range(999))
LABELS += "hex response variables body.variables[].value as address\n"
# A thousand rules for the order of two thousand names.
NAMED = "".join(f"swap event name{number} event name{number + 1000}\n" for number in range(1000))


def in_order(recording):
    """The recording with canonical contents and all capabilities, and with its responses, which are its last records, in the order of
    their requests."""
    out, responses = [], {}
    for side, _, content in records(recording):
        message = json.loads(content)
        fill(side, message)
        content = canonical(message)
        text = b"%sContent-Length: %d\r\n\r\n%s\n" % (MARKERS[side], len(content), content)
        if message.get("request_seq"):
            responses[message["request_seq"]] = text
        else:
            out.append(text)
    return b"".join(out + [responses[seq] for seq in sorted(responses)])


def masked(recording):
    """The recording with canonical contents, and with the last two rules applied."""
    out = []
    for side, _, content in records(recording):
        message = json.loads(content)
        if message["type"] == "response" and message["command"] == "variables":
            for variable in message["body"]["variables"]:
                variable["value"] = re.sub("0[xX][0-9a-fA-F]+", "0x0", variable["value"])
                variable["name"] = re.sub("[0-9]+", "0", variable["name"])
        content = canonical(message)
        out.append(b"%sContent-Length: %d\r\n\r\n%s\n" % (MARKERS[side], len(content), content))
    return b"".join(out)


def named(recording):
    """The recording with canonical contents, and with a name in the place of each hexadecimal number in a `launch` request or in the value of
    a variable."""
    out, numbers = [], {}

    def name(found):
        return f"<address {numbers.setdefault(int(found[0], 16), len(numbers) + 1)}>"

    for side, _, content in records(recording):
        message = json.loads(content)
        if message.get("command") == "launch":
            message["arguments"]["x"] = re.sub("0x[0-9a-f]+", name, message["arguments"]["x"])
        for variable in message.get("body", {}).get("variables", []):
            variable["value"] = re.sub("0x[0-9a-f]+", name, variable["value"])
        content = canonical(message)
        out.append(b"%sContent-Length: %d\r\n\r\n%s\n" % (MARKERS[side], len(content), content))
    return b"".join(out)


def accepted(recording):
    """What `check` prints: the number of records, and how many requests of each side have no response."""
    count, unanswered = 0, {"client": 0, "adapter": 0}
    for side, _, content in records(recording):
        kind = json.loads(content)["type"]
        unanswered[side] += kind == "request"
        unanswered[OTHER[side]] -= kind == "response"
        count += 1
    return f"accepted records={count} open={unanswered['client']},{unanswered['adapter']}\n".encode()


def compared_with_itself(recording):
    return compared(recording, recording).encode()


def saved(folder, name, data):
    """Writes a file and returns its path."""
    path = os.path.join(folder, name)
    with open(path, "wb") as file:
        file.write(data)
    return path


def by(rules):
    """The arguments of a command that reads a file with these rules."""
    return lambda path, folder: [saved(folder, "rules", rules.encode())]


def with_itself(path, folder):
    return [path, path]


def with_other_values(path, folder):
    """The recording, and one that has the next number in place of each VALUE."""
    with open(path, "rb") as file:
        return [path, saved(folder, "other", file.read().replace(b":%d" % VALUE, b":%d" % (VALUE + 1)))]


def suggested(recording):
    """The rules for a recording and the one with other values: a rule for each place that has a VALUE, by the places in order. Nothing if
    these are more than a file can have."""
    rules = []
    for number, (_, _, content) in enumerate(records(recording), 1):
        message = json.loads(content)
        name, part = message.get("event") or message.get("command"), "body" if message["type"] == "event" else "arguments"
        places = [f"{name} {part}.{member}" for member, value in message.get(part, {}).items() if value == VALUE]
        comment = f"# A record {number}: {VALUE}\n# B record {number}: {VALUE + 1}\n"
        rules += [(place, f"{comment}blank  {message['type']:8} {place}\n\n") for place in places]
    if len(rules) > MOST_RULES:
        return b""
    return ("".join(rule for _, rule in sorted(rules)) + "# with these rules: same\n").encode()


class Case(NamedTuple):
    """A command, the function that writes its input, the count that it is passed, a function from the input to the expected output, and
    one from the path of the input and a folder to the further arguments."""

    command: str
    make: Callable
    count: int
    expected: Callable
    words: Callable = lambda path, folder: []


CASES = [
    Case("normalise", flat, 200_000, normalised), Case("normalise", nested, 200_000, normalised),
    Case("normalise", nested_objects, 200_000, normalised), Case("normalise", members, 100_000, normalised),
    Case("normalise", one_name, 250_000, normalised), Case("normalise", fractions, 300_000, normalised),
    Case("normalise", escapes, 600_000, normalised), Case("normalise", frames, 30, normalised),
    Case("check", open_requests, 50_000, accepted), Case("normalise", long_headers, 2_000, normalised),
    Case("compact", deep_frames, 20_000, compacted), Case("record", small_pieces, 20_000, recorded),
    Case("mask", variables, 100, masked, by(RULES)), Case("compare", frames, 30, compared_with_itself, with_itself),
    Case("order", crossing, 25_000, in_order, by(SWAPS)), Case("normalise", nested_fractions, 500_000, normalised),
    Case("order", named_events, 1_000, in_order, by(NAMED)), Case("mask", letters, 50_000, masked, by(ALIKE)),
    Case("mask", one_letter, 50_000, masked, by(LONG)), Case("suggest", new_members, 5_000, suggested, with_other_values),
    Case("suggest", new_commands, 10_000, suggested, with_other_values), Case("name", addresses, 250, named, by(ONE_LABEL)),
    Case("name", pointers, 100, named, by(LABELS)),
]


def measured(case, count, program, folder, size):
    """Measures a case with an input of this count, and returns the figures and the length of the input.

    Ends the benchmark if the output is not the expected one."""
    path = os.path.join(folder, "input")
    with open(path, "wb") as file:
        case.make(file, count)
    with open(path, "rb") as file:
        given = file.read()
    expected = case.expected(given)
    found = measure([program, case.command, *case.words(path, folder)], path, size, status=0 if expected else 1)
    if found.output != digest(expected):
        sys.exit(f"dapnorm {case.command} did not write the expected output: {case.make.__doc__}")
    return found, len(given)


def measure_cases(chosen, figures, folder):
    """Prints a row of the table for each case, and returns the cases that grow faster than their input."""
    slow = []
    for case in CASES:
        cells, costs = [], []
        for factor in FACTORS:
            count = case.count * factor if chosen.size == "full" else max(1, case.count // SMALL) * factor
            found, length = measured(case, count, chosen.program, folder, chosen.size)
            figures.add(found, input=case.make.__doc__.rstrip(".").lower(), program="dapnorm", command=case.command, bytes=length)
            cells += [f"{length / 1e6:.1f}", f"{found.seconds:.2f}", f"{found.memory / 1e6:.0f} MB"]
            costs.append(found.seconds / length)
        growth = costs[1] / costs[0]
        print(f"| {case.make.__doc__.rstrip('.').lower()} | `{case.command}` | {' | '.join(cells)} | {growth:.1f} |", flush=True)
        if growth > NOISE and chosen.size == "full":
            slow.append(case)
    return slow


def main():
    chosen = options(__doc__, program="bin/dapnorm")
    figures = Figures(chosen.size)
    print("| Input | Command | MB | Seconds | Memory | MB | Seconds | Memory | Time for each byte, compared with the smaller input |")
    print("|---|---|---|---|---|---|---|---|---|")
    with tempfile.TemporaryDirectory() as folder:
        slow = measure_cases(chosen, figures, folder)
    for case in slow:
        print(f"more than linear: {case.command}: {case.make.__doc__}")
    if chosen.json:
        figures.write(chosen.json)


if __name__ == "__main__":
    main()
