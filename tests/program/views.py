"""Checks the frames, the scopes and the variables that `show` prints of a message."""
import sys

from tests.program.asked import asks, judged
from tests.program.worked_runs import LISTED, OUTPUT, recording

FRAME = '{"column":1,"id":1000,"line":3,"name":"f"}'

# A message, and the line of it and of each element that it lists.
LISTS = {
    "frames in order": (
        '<{"body":{"stackFrames":[{"column":1,"id":1000,"line":3,"name":"f"},{"column":2,"id":0,"line":18446744073709551615,"name":""}]},'
        '"command":"stackTrace","request_seq":2,"seq":2,"success":true,"type":"response"}',
        ['< response "stackTrace" seq=2 request_seq=2 ok', 'frame 1000 3:1 "f"', 'frame 0 18446744073709551615:2 ""'],
    ),
    "scopes in order": (
        '<{"body":{"scopes":[{"expensive":false,"name":"Locals","variablesReference":8},{"name":"None","variablesReference":0}]},'
        '"command":"scopes","request_seq":2,"seq":2,"success":true,"type":"response"}',
        ['< response "scopes" seq=2 request_seq=2 ok', 'scope 8 "Locals"', 'scope 0 "None"'],
    ),
    "variables in order": (
        LISTED % (5, 5, 3),
        [
            '< response "variables" seq=2 request_seq=2 ok', 'variable 0 "a" "1"', 'variable 5 "b" "1"', 'variable 0 "c" "1"',
            'variable 5 "d" "1"', 'variable 3 "e" "1"',
        ],
    ),
    "an empty list": (
        '<{"body":{"variables":[]},"command":"variables","request_seq":2,"seq":2,"success":true,"type":"response"}',
        ['< response "variables" seq=2 request_seq=2 ok'],
    ),
    "a failed response": (
        '<{"body":{"stackFrames":[%s]},"command":"stackTrace","request_seq":2,"seq":2,"success":false,"type":"response"}' % FRAME,
        ['< response "stackTrace" seq=2 request_seq=2 failed'],
    ),
    "another response": (
        '<{"body":{"scopes":[{"name":"Locals","variablesReference":8}],"threads":[{"id":1,"name":"main"}]},"command":"threads",'
        '"request_seq":2,'
        '"seq":2,"success":true,"type":"response"}',
        ['< response "threads" seq=2 request_seq=2 ok'],
    ),
    "a request": (
        '>{"arguments":{"threadId":1},"body":{"stackFrames":[%s]},"command":"stackTrace","seq":2,"type":"request"}' % FRAME,
        ['> request "stackTrace" seq=2'],
    ),
    "an event": (OUTPUT, ['< event "output" seq=1']),
}


def listed(report):
    for name, (line, (first, *elements)) in LISTS.items():
        told = f"1 {first}\n" + "".join(f"  {element}\n" for element in elements)
        asks(report, name, ["show"], recording([line]), (0, told.encode(), b""))


if __name__ == "__main__":
    sys.exit(judged(listed))
