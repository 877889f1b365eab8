"""Checks the leaves that `diff` prints, their order and their texts, for the arguments of two `launch` requests and for two events."""
import sys

from tests.program.asked import asks_of_files, judged
from tests.program.worked_runs import BEGUN, recording

# Two arguments, and the leaves at which they differ: which of the two has the leaf, its path from the arguments, and its value.
ARGUMENTS = [
    ('{"a":[1,{}]}', '{ "a" : [1, {}] }', []),
    ('{"x":1}', '{"x":2}', ["A x 1", "B x 2"]),
    (
        '{"a":[1,{"b":2},[3],4]}', '{"a":[1,{"b":5},[6]]}',
        ["A a[1].b 2", "B a[1].b 5", "A a[2][0] 3", "B a[2][0] 6", "A a[3] 4"],
    ),
    ('{"x":[[]]}', '{"x":[[],{"a":[7]}]}', ['B x[1] {"a":[7]}']),
    (
        '{"b":0,"d":0,"e":0}', '{"a":0,"c":0,"d":1,"f":0}',
        ["B a 0", "A b 0", "B c 0", "A d 0", "B d 1", "A e 0", "B f 0"],
    ),
    ('{"a":{}}', '{"a":[]}', ["A a {}", "B a []"]),
    ('{"a":{}}', '{"a":{"b":null}}', ["B a.b null"]),
    (
        '{"x y":true,"":1}', '{"x-y":true,"$_9":[{"\\"":2}]}',
        ['A "" 1', 'B $_9 [{"\\"":2}]', 'A "x y" true', "B x-y true"],
    ),
]

STOPPED = '<{"body":{"reason":"%s","threadId":1},"event":"stopped","seq":2,"type":"event"}'

# The text of a value without its last characters: a quote, and 198 characters of two bytes each.
LONG = '"' + "\u00e9" * 198


def launched(arguments):
    return recording([*BEGUN, f'>{{"arguments":{arguments},"command":"launch","seq":2,"type":"request"}}'])


def differ(report, name, a, b, told):
    """Checks what `diff` prints of two recordings, which are the same if no line is to be printed."""
    wanted = (1, f"differ 3\n{told}".encode(), b"") if told else (0, b"same\n", b"")
    asks_of_files(report, name, ["diff", "a", "b"], {"a": a, "b": b}, b"", wanted)


def of_launches(leaves):
    """Returns what `diff` prints after its first line of two `launch` requests with these leaves."""
    paths = [f"{which} arguments.{rest}\n" for which, rest in (leaf.split(" ", 1) for leaf in leaves)]
    return "".join(['> request "launch"\n', *paths]) if leaves else ""


def in_the_order_of_their_paths(report):
    for number, (a, b, leaves) in enumerate(ARGUMENTS, 1):
        differ(report, f"arguments, row {number}", launched(a), launched(b), of_launches(leaves))
    a, b = (recording([*BEGUN, STOPPED % reason]) for reason in ("step", "breakpoint"))
    differ(report, "two events", a, b, '< event "stopped"\nA body.reason "step"\nB body.reason "breakpoint"\n')


def cut_texts(report):
    """Checks that a text of 200 characters is printed whole, and that a longer one is cut."""
    for end, printed in (('"', '"'), ('a"', "a...")):
        a, b = launched(f'{{"x":{LONG}{end}}}'), launched('{"x":null}')
        differ(report, f"a value that ends in {end}", a, b, of_launches([f"A x {LONG}{printed}", "B x null"]))


def quoted(body):
    return f'"{body}"'


def windows(report):
    """Checks what is printed of two values that differ, if one of them has more than 200 characters: 16 characters or escape sequences before the
    first difference, and 200 characters at most. What is left out is replaced by three dots."""
    a, e, escape = "a" * 1000, "\u00e9" * 1000, r"\u001b" * 1000
    tried = {
        "character 900": (quoted(a[:899] + "b" + a[:98]), quoted(a[:899] + "c" + a[:98]), f'...{a[:16]}b{a[:98]}"', f'...{a[:16]}c{a[:98]}"'),
        "character 500": (
            quoted(a[:499] + "b" + a[:498]), quoted(a[:499] + "c" + a[:498]), f"...{a[:16]}b{a[:183]}...", f"...{a[:16]}c{a[:183]}...",
        ),
        "the first character": (quoted(a), f"[{'1,' * 499}1]", f'"{a[:199]}...', f"[{'1,' * 99}1..."),
        "the character after the quote": (quoted("b" + a[:997]), quoted("c" + a[:997]), f'"b{a[:198]}...', f'"c{a[:198]}...'),
        "character 16": (quoted(a[:15] + "b" + a), quoted(a[:15] + "c" + a), f'"{a[:15]}b{a[:183]}...', f'"{a[:15]}c{a[:183]}...'),
        "character 17": (quoted(a[:16] + "b" + a), quoted(a[:16] + "c" + a), f"...{a[:16]}b{a[:183]}...", f"...{a[:16]}c{a[:183]}..."),
        "the last character": (quoted(a[:997] + "b"), quoted(a[:997] + "c"), f'...{a[:16]}b"', f'...{a[:16]}c"'),
        "the end of the first text": (quoted(a[:997]), quoted(a[:998]), f'...{a[:16]}"', f'...{a[:17]}"'),
        "the end of a short text": (quoted(a[:98]), quoted(a), quoted(a[:98]), f"...{a[:200]}..."),
        "character 200": (quoted(a[:198]), quoted(a[:199]), quoted(a[:198]), f'...{a[:17]}"'),
        "a character of two bytes": (quoted(e[:500] + "b"), quoted(e[:500] + "c"), f'...{e[:16]}b"', f'...{e[:16]}c"'),
        "the second byte of a character": (quoted(e[:501]), quoted(e[:500] + "\u00e8"), f'...{e[:16]}"', f'...{e[:15]}\u00e8"'),
        "a character after 20 escape sequences": (
            quoted(a[:300] + escape[:120] + "b"), quoted(a[:300] + escape[:120] + "c"), f'...{escape[:96]}b"', f'...{escape[:96]}c"',
        ),
        "the last digit of an escape sequence": (
            quoted(escape[:600]), quoted(escape[:594] + r"\u001c"), f'...{escape[:96]}"', f'...{escape[:90]}\\u001c"',
        ),
        "a letter after backslashes": (
            quoted(r"\\n" * 200 + "b"), quoted(r"\\n" * 200 + "c"), "..." + r"\\n" * 8 + 'b"', "..." + r"\\n" * 8 + 'c"',
        ),
        "a backslash after a line end": (
            quoted(r"\n" * 200 + r"\\"), quoted(r"\n" * 200 + r"\""), "..." + r"\n" * 15 + r'\\"', "..." + r"\n" * 15 + r'\""',
        ),
    }
    for name, (one, other, printed, beside) in tried.items():
        told = of_launches([f"A x {printed}", f"B x {beside}"])
        differ(report, f"texts that differ at {name}", launched(f'{{"x":{one}}}'), launched(f'{{"x":{other}}}'), told)


if __name__ == "__main__":
    sys.exit(judged(in_the_order_of_their_paths, cut_texts, windows))
