"""Random contents, in each run the same ones: `compact` writes the canonical text of each, or reports the number in it that is not whole.

A content whose members are almost in order is read in one pass, and any other as a tree. Both kinds are among these."""
import json
import sys

from tests.engines.driver import Call, Input, Output, many_answers, run_tests
from tests.engines.random import Pcg32
from tests.program.worked_runs import frame

CONTENTS = 20_000
ROOM = Output(262_144, 262_144, 262_144)
NAMES = ["", "a", "aa", "b", "B", "body", "id", "name", "seq", "\u00e9", "\u20ac", "\U0001f600", '"', "\\", "\n", "\u0001"]
WHOLE = ["0", "1", "-1", "9223372036854775807", "-9223372036854775808", "18446744073709551615", "9223372036854775808"]
NOT_WHOLE = ["-0", "1.0", "1e0", "18446744073709551616", "-9223372036854775809", "0.5e-3"]
SPACES = ["", "", "", " ", "\n", "\t ", "\r\n"]


class NotWhole(Exception):
    """A number that is left in the content is not whole."""


class Value:
    """A value, as the text that is written of it and as its canonical text, which is None if a number is not whole."""

    def __init__(self, text, canonical):
        self.text, self.canonical = text, canonical


def space(random):
    return SPACES[random.below(len(SPACES))]


def string(random, value):
    """A string of JSON: some characters are escaped that need not be."""
    parts = []
    for char in value:
        if random.below(6) == 0:
            units = char.encode("utf-16-be")
            parts += [f"\\u{units[at]:02x}{units[at + 1]:02X}" for at in range(0, len(units), 2)]
        else:
            parts.append(json.dumps(char, ensure_ascii=False)[1:-1])
    return '"' + "".join(parts) + '"'


def number(random, loose):
    if loose and random.below(6) == 0:
        return Value(NOT_WHOLE[random.below(len(NOT_WHOLE))], None)
    text = WHOLE[random.below(len(WHOLE))] if random.below(3) == 0 else str(random.below(3000))
    return Value(text, text)


def text_value(random):
    value = "".join(NAMES[random.below(len(NAMES))] for _ in range(random.below(5)))
    return Value(string(random, value), json.dumps(value, ensure_ascii=False))


def array(random, depth, loose):
    parts = [value(random, depth - 1, loose) for _ in range(random.below(5))]
    text = "[" + space(random) + ",".join(space(random) + part.text + space(random) for part in parts) + "]"
    whole = all(part.canonical is not None for part in parts)
    return Value(text, "[" + ",".join(part.canonical for part in parts) + "]" if whole else None)


def keys(random):
    """Names of members: in order, in falling order, or as they come; sometimes one twice."""
    found = [NAMES[random.below(len(NAMES))] + str(random.below(40)) for _ in range(random.below(9))]
    order = random.below(4)
    if order < 2:
        found = sorted(set(found), key=str.encode, reverse=order == 1)
    elif order == 2:
        found = list(dict.fromkeys(found))
    return found


def members(random, depth, loose):
    written, last = [], {}
    for name in keys(random):
        part = value(random, depth - 1, loose)
        written.append(space(random) + string(random, name) + space(random) + ":" + space(random) + part.text + space(random))
        last[name] = part.canonical
    whole = all(each is not None for each in last.values())
    pairs = sorted(last.items(), key=lambda pair: pair[0].encode())
    canonical = "{" + ",".join(json.dumps(name, ensure_ascii=False) + ":" + each for name, each in pairs) + "}" if whole else None
    return Value("{" + ",".join(written) + "}", canonical)


def value(random, depth, loose):
    kind = random.below(9 if depth else 5)
    if kind == 0:
        word = ["null", "true", "false"][random.below(3)]
        return Value(word, word)
    if kind < 3:
        return number(random, loose)
    if kind < 5:
        return text_value(random)
    return array(random, depth, loose) if kind < 6 else members(random, depth, loose)


def contents():
    random = Pcg32(7, 11)
    for _ in range(CONTENTS):
        part = value(random, 1 + random.below(5), random.below(3) == 0)
        yield Value(space(random) + part.text + space(random), part.canonical)


def random_contents(report):
    made = list(contents())
    found = many_answers(Call("compact", Input(frame(each.text)), output=ROOM) for each in made)
    wrong = []
    for each, one in zip(made, found):
        wanted = ("Err(Fraction(1))", b"") if each.canonical is None else ("Ok(())", frame(each.canonical))
        if (one.result, one.output) != wanted:
            wrong.append(repr((each.text, wanted, one)))
    report.check(f"{len(made)} contents", not wrong, "; ".join(wrong[:2])[:1000])
    refused = sum(each.canonical is None for each in made)
    report.check("there are enough of each kind", 1_000 < refused < 10_000, str(refused))


TESTS = [random_contents]

if __name__ == "__main__":
    sys.exit(run_tests(TESTS))
