"""Checks which contents are JSON with whole numbers alone, and the canonical text of each, by the command `compact`."""
import sys

from tests.program.asked import asks, judged, refuses

DEEP = b"[" * 127 + b"]" * 127
NINES = b"9" * 400

# The text of 17 bytes that the escapes become.
UNESCAPED = '{"a":"\u00e9/\\u0001"}'.encode()

# Contents, and the canonical text of each.
CANONICAL = {
    "whole numbers": [
        (b"18446744073709551615", b"18446744073709551615"),
        (b"-9223372036854775808", b"-9223372036854775808"),
    ],
    "a loose content": [(b" [ 0 ]\n", b"[0]")],
    # A later member of the same name takes the place of a fraction.
    "a fraction that is replaced": [(b'{"a":1.5,"a":2}', b'{"a":2}')],
    "escapes": [(b'{"a":"\\u00e9\\/\\u0001"}', UNESCAPED)],
    "members by name": [(b'{"b":1,"a":[true,null],"B":{},"b":2,"":3}', b'{"":3,"B":{},"a":[true,null],"b":2}')],
    "nesting": [(DEEP, DEEP)],
}

# Contents, and the fault of each.
REFUSED = {
    "whole numbers": [
        (b"18446744073709551616", "Fraction"),
        (b"-9223372036854775809", "Fraction"),
        (b"-0", "Fraction"),
        (b"[1e3]", "Fraction"),
    ],
    "integers of many digits": [(NINES[:300], "Fraction"), (NINES, "Json")],
    "contents that are no JSON": [(b"", "Json"), (b"[0", "Json"), (b"[1e999]", "Json"), (b'"\xff"', "Json")],
    # A fraction is reported only if the whole content is JSON.
    "a fraction": [(b'{"a":2,"a":1.5}', "Fraction"), (b"[1.5,}", "Json")],
    "nesting": [(b"[" + DEEP + b"]", "Json")],
}


def framed(content):
    return b"Content-Length: %d\r\n\r\n%s" % (len(content), content)


def canonical_contents(report):
    report.check("the text of the escapes has 17 bytes", len(UNESCAPED) == 17)
    for name, rows in CANONICAL.items():
        for number, (content, text) in enumerate(rows, 1):
            asks(report, f"{name}, row {number}", ["compact"], framed(content), (0, framed(text), b""))
            asks(report, f"{name}, row {number}, again", ["compact"], framed(text), (0, framed(text), b""))


def refused_contents(report):
    for name, rows in REFUSED.items():
        for number, (content, fault) in enumerate(rows, 1):
            refuses(report, f"{name}, refused row {number}", ["compact"], framed(content), f"record 1: {fault}")


if __name__ == "__main__":
    sys.exit(judged(canonical_contents, refused_contents))
