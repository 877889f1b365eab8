"""Does the work of `dapnorm compact` as a short Python script would, without validation.

`make bench` compares the two."""
import json
import sys


def canonical(value):
    """The canonical content: no spaces, and the members of each object in the order of their names."""
    return json.dumps(value, sort_keys=True, separators=(",", ":"), ensure_ascii=False).encode()


def compacted(frames):
    """The frames with canonical contents."""
    at, out = 0, []
    while at < len(frames):
        end = frames.index(b"\r\n\r\n", at) + 4
        length = int(frames[at:end].split(b":", 1)[1].split(b"\r\n", 1)[0])
        content = canonical(json.loads(frames[end:end + length]))
        out.append(b"Content-Length: %d\r\n\r\n" % len(content))
        out.append(content)
        at = end + length
    return b"".join(out)


def main():
    sys.stdout.buffer.write(compacted(sys.stdin.buffer.read()))


if __name__ == "__main__":
    main()
