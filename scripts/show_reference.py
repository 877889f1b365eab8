"""Does the work of `dapnorm show` as a short Python script would, without validation.

`make bench` compares the two, and the tests use it as a second opinion."""
import json
import re
import sys

from one_direction import records

MARKERS = {"client": ">", "adapter": "<"}
VIEWS = {
    "stackTrace": ("stackFrames", lambda frame: f"frame {frame['id']} {frame['line']}:{frame['column']} {quoted(frame['name'])}"),
    "scopes": ("scopes", lambda scope: f"scope {scope['variablesReference']} {quoted(scope['name'])}"),
    "variables": ("variables", lambda it: f"variable {it['variablesReference']} {quoted(it['name'])} {quoted(it['value'])}"),
}


def quoted(text):
    return json.dumps(text, ensure_ascii=False)


def first_line(number, side, message):
    """The line of a record."""
    kind = message["type"]
    name = message["event"] if kind == "event" else message["command"]
    line = f"{number} {MARKERS[side]} {kind} {quoted(name)} seq={message['seq']}"
    if kind == "response":
        line += f" request_seq={message['request_seq']} {'ok' if message['success'] else 'failed'}"
    return line


def elements(message):
    """A line for each element of the body of a message."""
    name = message.get("command")
    if message["type"] == "response" and message["success"] and name in VIEWS:
        listed, shown = VIEWS[name]
        for element in message["body"][listed]:
            yield "  " + shown(element)


def step(name):
    """A member's name in a path."""
    return name if re.fullmatch(r"[A-Za-z0-9_$-]+", name) else quoted(name)


def leaves(value, path=""):
    """A line for each leaf of a content, with its path and its whole value."""
    if isinstance(value, dict) and value:
        for name in sorted(value, key=str.encode):
            yield from leaves(value[name], f"{path}.{step(name)}" if path else step(name))
    elif isinstance(value, list) and value:
        for place, item in enumerate(value):
            yield from leaves(item, f"{path}[{place}]")
    else:
        yield f"  {path or '.'} {quoted(value)}"


def shown(recording, details=elements):
    """What `show` prints for a recording whose messages all fit the profile; with `leaves`, what `show --full` prints."""
    out = []
    for number, (side, _, content) in enumerate(records(recording), 1):
        message = json.loads(content)
        out += [line + "\n" for line in (first_line(number, side, message), *details(message))]
    return "".join(out).encode()


if __name__ == "__main__":
    sys.stdout.buffer.write(shown(sys.stdin.buffer.read()))
