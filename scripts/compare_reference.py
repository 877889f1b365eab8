"""Does the work of `dapnorm compare` as a short Python script would, without validation.

`make bench` compares the two, and the tests use it as a second opinion."""
import sys
from itertools import zip_longest

from normalise_reference import BREAKPOINT, FRAME, REFERENCE, THREAD, normal_records

WORDS = [
    ("client", "client-seq"), ("adapter", "adapter-seq"), (FRAME, "frame"), (REFERENCE, "reference"), (THREAD, "thread"),
    (BREAKPOINT, "breakpoint"),
]


def numbers(names, sort):
    """The ids of a kind in the order of their lines, each with the number of stops before its numbering."""
    classes = [*names.get(("past", sort), []), names.get(sort, {})]
    return [(stops, number) for stops, named in enumerate(classes) for number in named]


def compared(a, b, per_stop=False):
    """What `compare` prints for two recordings without errors: the pairs of their ids, or the first record that differs."""
    names_a, names_b = {}, {}
    pairs = zip_longest(normal_records(names_a, a, per_stop=per_stop), normal_records(names_b, b, per_stop=per_stop))
    for number, (one, other) in enumerate(pairs, 1):
        if one != other:
            return f"differ {number}\n"
    lines = ["same\n"]
    for sort, word in WORDS:
        for (stops, one), (_, other) in zip(numbers(names_a, sort), numbers(names_b, sort)):
            at = f"@{stops}" if per_stop and sort in (FRAME, REFERENCE) else ""
            lines.append(f"{word}{at} {one} {other}\n")
    return "".join(lines)


def main():
    files = [word for word in sys.argv[1:] if word != "--per-stop"]
    if len(files) != 2:
        sys.exit("usage: compare_reference.py [--per-stop] A B")
    texts = []
    for path in files:
        with open(path, "rb") as file:
            texts.append(file.read())
    sys.stdout.write(compared(*texts, per_stop="--per-stop" in sys.argv[1:]))


if __name__ == "__main__":
    main()
