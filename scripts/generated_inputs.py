"""Generates inputs for the benchmarks: frames, sessions, their traces, and sessions of small requests. Equal sizes give equal bytes."""
import json
import os
import random
from typing import NamedTuple

from one_direction import records

MARKERS = {"client": b">", "adapter": b"<"}
SEED = 20261122
INITIALIZE = {"seq": 0, "type": "request", "command": "initialize", "arguments": {"adapterID": "mock"}}
INITIALIZE_RESPONSE = {"seq": 0, "type": "response", "request_seq": 0, "success": True, "command": "initialize"}


class Generated(NamedTuple):
    """What kind of input a file is, its path and size in bytes, and how many frames or records and how many requests it holds."""

    kind: str
    path: str
    size: int
    records: int
    requests: int = 0


def request(seq, command, arguments):
    return {"seq": seq, "type": "request", "command": command, "arguments": arguments}


def response(seq, request_seq, command, **body):
    return {"seq": seq, "type": "response", "request_seq": request_seq, "success": True, "command": command, **body}


def stack_frames(dice):
    return [
        {"id": 1000 + n, "name": f"function_{dice.randrange(100)}", "line": dice.randrange(1, 900), "column": 1,
         "source": {"name": "main.py", "path": "/home/ada/project/main.py", "sourceReference": 0}}
        for n in range(dice.randrange(1, 12))
    ]


def variables(dice):
    return [
        {"name": f"variable_{n}", "value": "'" + "x" * dice.randrange(60) + "'", "type": "str", "variablesReference": 0,
         "evaluateName": f"variable_{n}"}
        for n in range(dice.randrange(1, 15))
    ]


def messages():
    """Yields messages of an adapter without end, of the kinds that make up most of a session."""
    dice = random.Random(SEED)
    seq = 0
    while True:
        seq += 1
        kind = dice.randrange(4)
        if kind == 0:
            frames = stack_frames(dice)
            yield response(seq, seq, "stackTrace", body={"stackFrames": frames, "totalFrames": len(frames)})
        elif kind == 1:
            yield response(seq, seq, "variables", body={"variables": variables(dice)})
        elif kind == 2:
            yield {"seq": seq, "type": "event", "event": "output",
                   "body": {"category": "stdout", "output": "line \"%d\"\n" % dice.randrange(10**6) * dice.randrange(1, 6)}}
        else:
            yield {"seq": seq, "type": "event", "event": "stopped",
                   "body": {"reason": "step", "threadId": 1, "allThreadsStopped": True}}


def record(side, message):
    content = json.dumps(message, separators=(",", ":")).encode()
    return b"%sContent-Length: %d\r\n\r\n%s\n" % (MARKERS[side], len(content), content)


def begin_session(file):
    return file.write(record("client", INITIALIZE)) + file.write(record("adapter", INITIALIZE_RESPONSE))


def frames(path, size):
    """Writes frames of at least `size` bytes; the contents of half of them have spaces."""
    with open(path, "wb") as file:
        written = 0
        for number, message in enumerate(messages()):
            content = json.dumps(message, separators=(", ", ": ") if number % 2 else (",", ":")).encode()
            written += file.write(b"Content-Length: %d\r\n\r\n" % len(content) + content)
            if written >= size:
                return Generated("frames", path, written, number + 1)


def session(path, size):
    """Writes a session of at least `size` bytes, in which each response of the adapter follows its request."""
    with open(path, "wb") as file:
        written, count, requests = begin_session(file), 2, 1
        for message in messages():
            if message["type"] == "response":
                arguments = {"threadId": 1} if message["command"] == "stackTrace" else {"variablesReference": 1}
                written += file.write(record("client", request(message["request_seq"], message["command"], arguments)))
                count, requests = count + 1, requests + 1
            written += file.write(record("adapter", message))
            count += 1
            if written >= size:
                return Generated("session", path, written, count, requests)


def small_requests(path, count):
    """Writes a session of `count` small requests with mixed sequence numbers, each with its response."""
    with open(path, "wb") as file:
        written = begin_session(file)
        for place in range(1, count):
            # The factor is odd, so no two places have the same number.
            seq = place * 2_654_435_761 % 2**32
            written += file.write(record("client", request(seq, "pause", {"threadId": 1})))
            written += file.write(record("adapter", response(place, seq, "pause")))
    return Generated("small requests", path, written, 2 * count, count)


def renumbered(given, path):
    """Writes the same session with other numbers of frames and of the client's requests."""
    with open(given.path, "rb") as source, open(path, "wb") as target:
        for side, _, content in records(source.read()):
            message = json.loads(content)
            if side == "client":
                message["seq"] += 1_000_000
            elif message["type"] == "response":
                message["request_seq"] += 1_000_000
            for frame in message.get("body", {}).get("stackFrames", []):
                frame["id"] += 7
            target.write(record(side, message))
    return given._replace(path=path, size=os.path.getsize(path))


def changed(given, path, count=50):
    """Writes the same session with other values of `count` variables, one of each of that many responses."""
    left = count
    with open(given.path, "rb") as source, open(path, "wb") as target:
        for side, frame, content in records(source.read()):
            message = json.loads(content) if left and b'"variables":' in content else {}
            for variable in message.get("body", {}).get("variables", [])[:1]:
                variable["value"] += "!"
                left -= 1
            target.write(record(side, message) if message else MARKERS[side] + frame + b"\n")
    return given._replace(path=path, size=os.path.getsize(path))


def trace(given, path):
    """Writes the trace of a session whose header parts and contents were written separately."""
    with open(given.path, "rb") as source, open(path, "wb") as target:
        for side, frame, content in records(source.read()):
            for piece in (frame[:-len(content)], content):
                target.write(b"%s%d\n%s" % (MARKERS[side], len(piece), piece))
    return given._replace(kind="trace", path=path, size=os.path.getsize(path))
