"""Does the work of `dapnorm normalise` as a short Python script would, without validation.

`make bench` compares the two, and the tests use it as a second opinion."""
import json
import sys

from one_direction import records

MARKERS = {"client": b">", "adapter": b"<"}
OTHER = {"client": "adapter", "adapter": "client"}
FRAME, REFERENCE, THREAD, BREAKPOINT = "frame", "reference", "thread", "breakpoint"

# The ids of a message, by its type and its command or event: the path of each id, and its kind.
REQUESTS = {
    "scopes": [("arguments.frameId", FRAME)],
    "variables": [("arguments.variablesReference", REFERENCE)],
    "setVariable": [("arguments.variablesReference", REFERENCE)],
    "evaluate": [("arguments.frameId", FRAME)],
    "completions": [("arguments.frameId", FRAME)],
    "setExpression": [("arguments.frameId", FRAME)],
    "dataBreakpointInfo": [("arguments.frameId", FRAME), ("arguments.variablesReference", REFERENCE)],
    "restartFrame": [("arguments.frameId", FRAME)],
    "stepInTargets": [("arguments.frameId", FRAME)],
    "cancel": [("arguments.requestId", "own")],
}
RESPONSES = {
    "stackTrace": [("body.stackFrames[].id", FRAME)],
    "scopes": [("body.scopes[].variablesReference", REFERENCE)],
    "variables": [("body.variables[].variablesReference", REFERENCE)],
    "evaluate": [("body.variablesReference", REFERENCE)],
    "setVariable": [("body.variablesReference", REFERENCE)],
    "setExpression": [("body.variablesReference", REFERENCE)],
}
EVENTS = {
    "output": [("body.variablesReference", REFERENCE)],
    "invalidated": [("body.stackFrameId", FRAME)],
    "progressStart": [("body.requestId", "other")],
}
# The ids that the first rows of the profile do not mark: those of threads and of breakpoints.
LATER_REQUESTS = {
    **{
        name: [("arguments.threadId", THREAD)]
        for name in (
            "stackTrace", "continue", "next", "stepIn", "stepOut", "pause", "stepBack", "reverseContinue", "goto", "exceptionInfo",
        )
    },
    "terminateThreads": [("arguments.threadIds[]", THREAD)],
}
LATER_RESPONSES = {
    "threads": [("body.threads[].id", THREAD)],
    **{
        name: [("body.breakpoints[].id", BREAKPOINT)]
        for name in (
            "setBreakpoints", "setFunctionBreakpoints", "setDataBreakpoints", "setInstructionBreakpoints", "setExceptionBreakpoints",
        )
    },
}
LATER_EVENTS = {
    "stopped": [("body.threadId", THREAD), ("body.hitBreakpointIds[]", BREAKPOINT)],
    "continued": [("body.threadId", THREAD)],
    "thread": [("body.threadId", THREAD)],
    "invalidated": [("body.threadId", THREAD)],
    "breakpoint": [("body.breakpoint.id", BREAKPOINT)],
}
CAPABILITIES = """
    supportSuspendDebuggee supportTerminateDebuggee supportsBreakpointLocationsRequest supportsCancelRequest
    supportsClipboardContext supportsCompletionsRequest supportsConditionalBreakpoints supportsConfigurationDoneRequest
    supportsDataBreakpoints supportsDelayedStackTraceLoading supportsDisassembleRequest supportsEvaluateForHovers
    supportsExceptionFilterOptions supportsExceptionInfoRequest supportsExceptionOptions supportsFunctionBreakpoints
    supportsGotoTargetsRequest supportsHitConditionalBreakpoints supportsInstructionBreakpoints
    supportsLoadedSourcesRequest supportsLogPoints supportsModulesRequest supportsReadMemoryRequest supportsRestartFrame
    supportsRestartRequest supportsSetExpression supportsSetVariable supportsSingleThreadExecutionRequests
    supportsStepBack supportsStepInTargetsRequest supportsSteppingGranularity supportsTerminateRequest
    supportsTerminateThreadsRequest supportsValueFormattingOptions supportsWriteMemoryRequest
""".split()


def places(message, first_rows):
    """The paths of the ids of this message: those of all rows of the profile, or only of the first rows."""
    kind = message["type"]
    envelope = [("seq", "own"), ("request_seq", "other")] if kind == "response" else [("seq", "own")]
    if kind == "response" and not message["success"]:
        return envelope
    name = message["event" if kind == "event" else "command"]
    first, later = {"request": (REQUESTS, LATER_REQUESTS), "response": (RESPONSES, LATER_RESPONSES), "event": (EVENTS, LATER_EVENTS)}[kind]
    return [*envelope, *first.get(name, []), *([] if first_rows else later.get(name, []))]


def fill(side, message):
    """Sets each capability that an adapter leaves out to false."""
    if side == "adapter" and message["type"] == "response" and message["command"] == "initialize" and message["success"]:
        if message.get("body") is None:
            message["body"] = {}
        for name in CAPABILITIES:
            if message["body"].get(name) is None:
                message["body"][name] = False


def rename(names, sorts, side, path, value):
    """The value with its ids numbered by first appearance in the canonical content."""
    if isinstance(value, dict):
        return {name: rename(names, sorts, side, f"{path}.{name}" if path else name, value[name]) for name in sorted(value)}
    if isinstance(value, list):
        return [rename(names, sorts, side, f"{path}[]", item) for item in value]
    sort = sorts.get(path)
    if sort is None or not isinstance(value, int) or isinstance(value, bool) or (sort == REFERENCE and value == 0):
        return value
    sort = {"own": side, "other": OTHER[side]}.get(sort, sort)
    table = names.setdefault(sort, {})
    return table.setdefault(value, len(table) + 1)


def begin_again(names):
    """Saves the numbers of frames and of references, and restarts them at 1."""
    for sort in (FRAME, REFERENCE):
        names.setdefault(("past", sort), []).append(names.pop(sort, {}))


def normal_records(names, recording, first_rows=False, per_stop=False):
    """Yields the records of the normal form of a recording without errors.

    `names` receives the numbers of its ids, by kind. With `per_stop` those of frames and of references restart at 1 after each stop, and
    the earlier ones are saved."""
    for side, _, content in records(recording):
        message = json.loads(content)
        fill(side, message)
        message = rename(names, dict(places(message, first_rows)), side, "", message)
        content = json.dumps(message, separators=(",", ":"), ensure_ascii=False).encode()
        yield b"%sContent-Length: %d\r\n\r\n%s\n" % (MARKERS[side], len(content), content)
        if per_stop and message["type"] == "event" and message["event"] == "stopped":
            begin_again(names)


def normalised(recording, first_rows=False, per_stop=False):
    """The normal form of a recording without errors: by all rows of the profile or by the first rows, with one numbering or per stop."""
    return b"".join(normal_records({}, recording, first_rows, per_stop))


if __name__ == "__main__":
    sys.stdout.buffer.write(normalised(sys.stdin.buffer.read(), per_stop=sys.argv[1:] == ["--per-stop"]))
