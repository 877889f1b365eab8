"""Joins the `output` events of a recording, as the line `join event output` of a rules file does, without the program."""
import json
import os
import sys

from tests.report import TOP

sys.path.insert(0, os.path.join(TOP, "scripts"))
from compact_reference import canonical
from one_direction import records

MARKERS = {"client": b">", "adapter": b"<"}


def text_of(message):
    """The category and the text of an `output` event that is joined, or None."""
    if not isinstance(message, dict) or (message.get("type"), message.get("event")) != ("event", "output"):
        return None
    body = message.get("body")
    if not isinstance(body, dict) or not isinstance(body.get("output"), str) or not isinstance(body.get("category", ""), str):
        return None
    if body.get("variablesReference", 0) != 0 or isinstance(body.get("variablesReference", 0), (bool, float)):
        return None
    if "seq" in message and (isinstance(message["seq"], bool) or not isinstance(message["seq"], int) or not -2**63 <= message["seq"] < 2**63):
        return None
    return body.get("category", "console"), body["output"]


def joined(recording, per_stop):
    """The records after joining, each with its side, its content and the number of the record from which it is."""
    rest, outputs, done = [], {}, []

    def end():
        nonlocal rest, outputs
        done.extend(rest)
        for category in sorted(outputs, key=str.encode):
            number, seq, texts = outputs[category]
            event = {"body": {"category": category, "output": "".join(texts)}, "event": "output", **seq, "type": "event"}
            done.append(("adapter", canonical(event), number))
        rest, outputs = [], {}

    for number, (side, _, content) in enumerate(records(recording), 1):
        message = json.loads(content) if side == "adapter" else None
        found = text_of(message)
        if found:
            seq = {"seq": message["seq"]} if "seq" in message else {}
            outputs.setdefault(found[0], (number, seq, []))[2].append(found[1])
            continue
        if per_stop and isinstance(message, dict) and (message.get("type"), message.get("event")) == ("event", "stopped"):
            end()
        rest.append((side, content, number))
    end()
    return done


def joined_recording(recording, per_stop):
    """The joined recording, whose other records have their contents unchanged."""
    parts = [b"%sContent-Length: %d\r\n\r\n%s\n" % (MARKERS[side], len(content), content) for side, content, _ in joined(recording, per_stop)]
    return b"".join(parts)
