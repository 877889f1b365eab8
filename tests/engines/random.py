"""Inputs made at random out of worked recordings, in each run the same ones. `normalise`, `check`, `compare` and `show` are held to each
other on each. `show` reads a content as a tree, and the others as a flat document if they can."""
import sys

from tests.engines.driver import Call, Input, Output, many_answers, run_tests
from tests.engines.inputs import worked

INPUTS = 20_000
ROOM = Output(65_536, 65_536, 65_536)
# What a changed byte becomes.
BYTES = b'0123456789{}[]":,-.e \r\n><'
WORD, LONG = 2**32 - 1, 2**64 - 1


class Pcg32:
    """The generator PCG-XSH-RR 64/32 of the PCG family, from a seed and the number of a stream."""

    def __init__(self, seed, stream):
        self.step = (stream << 1 | 1) & LONG
        self.state = (self.step + seed) * 6364136223846793005 + self.step & LONG

    def next(self):
        old = self.state
        self.state = old * 6364136223846793005 + self.step & LONG
        word, turn = ((old >> 18) ^ old) >> 27 & WORD, old >> 59
        return (word >> turn | word << (-turn & 31)) & WORD

    def below(self, bound):
        """A number below the bound, or 0 if there is none."""
        word = self.next()
        return word % bound if bound else 0


def begins_record(text, place):
    return text[place:place + 1] in (b">", b"<") and text[max(place - 1, 0):place] in (b"", b"\n")


def place_in(random, text):
    """A place in the bytes: mostly one where a record begins, or the end."""
    place = random.below(len(text) + 1)
    if random.below(8) == 0:
        return place
    return next((at for at in range(place, len(text)) if begins_record(text, at)), len(text))


def change(random, text):
    """Changes a byte, a digit mostly to another digit."""
    place = random.below(len(text))
    most = len(BYTES) if random.below(4) == 0 else 10
    byte = BYTES[random.below(most)]
    if place < len(text) and (most != 10 or 48 <= text[place] <= 57):
        text[place] = byte


def joined(random, a, b):
    """Records from the start of the one recording and from the end of the other, and some bytes changed."""
    front = a[:place_in(random, a)]
    back = b[place_in(random, b):]
    text = bytearray(front)
    if random.below(2) == 0:
        text += back
    for _ in range(random.below(4)):
        change(random, text)
    return bytes(text)


def inputs():
    every, random = worked(), Pcg32(42, 54)
    for _ in range(INPUTS):
        a, b = every[random.below(len(every))], every[random.below(len(every))]
        yield joined(random, a, b)


def the_generator(report):
    """The first words that the PCG library documents for this seed and stream."""
    random = Pcg32(42, 54)
    found = [random.next() for _ in range(6)]
    report.check("the generator", found == [0xA15C02B7, 0x7B47F409, 0xBA1D3330, 0x83D2F293, 0xBFA4784B, 0xCBED606E], repr(found))


def normalise(text):
    return Call("normalise", Input(text), output=ROOM)


def compare(a, b):
    return Call("compare", Input(a), Input(b))


def carries(a, b):
    return Call("carries", Input(a), Input(b))


def asks_accepted(report, accepted):
    """An accepted recording is the same as its normal form, which is its own, and as another one if and only if their normal texts are
    equal. The renaming of two that are the same maps the messages of one to those of the other, both ways."""
    other, calls = b"", []
    for text, normal in accepted:
        calls += [normalise(normal), compare(text, normal), compare(text, other), carries(text, normal), carries(normal, text), carries(text, other)]
        other = normal
    found = many_answers(calls)
    before, wrong = b"", []
    for place, (text, normal) in enumerate(accepted):
        again, own, different, *mapped = found[6 * place:6 * place + 6]
        same = different.result.startswith("Ok(Same(")
        carried = [each.result for each in mapped] == ["Ok(Some(true))", "Ok(Some(true))", "Ok(Some(true))" if same else "Ok(None)"]
        if (again.result, again.output) != ("Ok(())", normal) or not own.result.startswith("Ok(Same(") or same != (normal == before) or not carried:
            wrong.append(repr((text, again, own, different, mapped)))
        before = normal
    report.check(f"{len(accepted)} accepted inputs", not wrong, "; ".join(wrong[:2])[:1000])


def asks_shown(report, texts, checked):
    """`show`, which reads each content as a tree, accepts and refuses what `check` does, but for the rules of a session, which it does not
    judge."""
    asked = [(text, each.result) for text, each in zip(texts, checked) if not each.result.startswith("Err(Rule(")]
    shown = many_answers(Call("show", Input(text), output=ROOM) for text, _ in asked)
    wrong = []
    for (text, result), each in zip(asked, shown):
        wanted = "Ok(())" if result.startswith("Ok(") else result
        if each.result != wanted:
            wrong.append(repr((text, wanted, each.result)))
    report.check(f"{len(asked)} inputs, which check and show judge alike", not wrong and len(asked) > 10_000, "; ".join(wrong[:2])[:1000])


def random_inputs(report):
    texts = list(inputs())
    normalised = many_answers(map(normalise, texts))
    checked = many_answers(Call("check", Input(text)) for text in texts)
    accepted, refused, wrong = [], [], []
    for text, one, other in zip(texts, normalised, checked):
        if one.result == "Ok(())" and other.result.startswith("Ok("):
            accepted.append((text, one.output))
        elif one.result == other.result and one.result.startswith("Err("):
            refused.append((text, one.result))
        else:
            wrong.append(repr((text, one, other)))
    alike = len(texts) == INPUTS and not wrong
    report.check(f"{len(texts)} inputs, which check and normalise answer alike", alike, "; ".join(wrong[:2])[:1000])
    asks_accepted(report, accepted)
    asks_shown(report, texts, checked)
    compared = many_answers(compare(text, text) for text, _ in refused)
    wanted = [f"Err(Input(A, {result[4:-1]}))" for _, result in refused]
    other = [repr((text, want, each)) for (text, _), want, each in zip(refused, wanted, compared) if each.result != want]
    report.check(f"{len(refused)} refused inputs, of which compare reports the same", not other, "; ".join(other[:2])[:1000])
    report.check("there are enough of each sort", 2_000 < len(accepted) < 18_000, str(len(accepted)))


TESTS = [the_generator, random_inputs]

if __name__ == "__main__":
    sys.exit(run_tests(TESTS))
