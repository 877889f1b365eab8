"""Prints how long the proofs of a crate's functions took: python3 scripts/proof_times.py CRATE [N], the N slowest, by default 20.

It reads the times at which a check by one job wrote its files into crates/CRATE/out/incremental. Remove the crate's folder `out`, and run
`rt check --jobs 1` there. A later check writes only the files that change, and several jobs write in turn: their times mean nothing."""
import collections
import os
import re
import sys

TOP = os.path.dirname(os.path.dirname(os.path.abspath(__file__)))


def module_of(file):
    """The function, or the file of specs or proofs, that a checked module belongs to."""
    name = re.sub(r"(\.decls)?\.oantt$", "", file)
    parts = re.sub(r"^Rattle-\w+-(specs|proofs)\.", r"\1.", name).split(".")
    return ".".join(parts[:-1] if len(parts) > 2 else parts)


def seconds_of(folder):
    """Seconds for each function: the sum over its files of the time since the file written before."""
    found = ((path, file) for path, _, files in os.walk(folder) for file in files if file.endswith(".oantt"))
    written = sorted((os.stat(os.path.join(path, file)).st_mtime_ns, file) for path, file in found)
    seconds = collections.Counter()
    for (before, _), (after, file) in zip(written, written[1:]):
        seconds[module_of(file)] += (after - before) / 1e9
    return seconds


def main():
    if len(sys.argv) not in (2, 3) or not all(number.isdigit() for number in sys.argv[2:]):
        sys.exit(__doc__)
    folder = os.path.join(TOP, "crates", sys.argv[1], "out", "incremental")
    seconds = seconds_of(folder)
    if not seconds:
        sys.exit(f"{os.path.relpath(folder, TOP)} has no files: run rt check --jobs 1 in the crate")
    for name, time in seconds.most_common(int(sys.argv[2]) if len(sys.argv) == 3 else 20):
        print(f"{time:7.1f}  {name}")
    print(f"{sum(seconds.values()):7.1f}  all")


if __name__ == "__main__":
    main()
