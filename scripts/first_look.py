"""Normalises two recordings of the same debug session, and shows that the outputs are equal.

    python3 scripts/first_look.py [PROGRAM]

PROGRAM is a `dapnorm` that is built already. Without it, `rt try` builds the small program `crates/first_look`, with run-time checks and
without proofs.
"""
import os
import re
import shutil
import subprocess
import sys
import tempfile

from one_direction import records

TOP = os.path.dirname(os.path.dirname(os.path.abspath(__file__)))
RUNS = ["dlv-l-stopentry.3.rec", "dlv-l-stopentry.5.rec"]
SHOWN = (6, 10, 11)


def normalised_by(program, paths):
    """The outputs of `PROGRAM normalise` for these files."""
    outputs = []
    for path in paths:
        with open(path, "rb") as file:
            outputs.append(subprocess.check_output([program, "normalise"], stdin=file))
    return outputs


def normalised_unproved(paths):
    """The same outputs by `rt try --cases`, which builds the program once and runs it on each file of a folder."""
    with tempfile.TemporaryDirectory() as folder:
        for path in paths:
            shutil.copy(path, folder)
        crate = os.path.join(TOP, "crates", "first_look")
        ran = subprocess.run(["rt", "try", "--cases", folder], cwd=crate, capture_output=True)
    report = ran.stderr.decode(errors="replace")
    if ran.returncode != 0 or report.count("run=ended status=0") != len(paths):
        sys.exit(f"{report}\nrt try did not build the program, or the program failed.")
    outputs = re.split(rb"^== \S+\n", ran.stdout, flags=re.MULTILINE)
    return outputs[1:]


def excerpt(title, recording):
    print(f"\n{title}")
    contents = [(side, content) for side, _, content in records(recording)]
    for number in SHOWN:
        side, content = contents[number - 1]
        print(f"  {number} {'>' if side == 'client' else '<'} {content.decode()}")


def main():
    if len(sys.argv) > 2:
        sys.exit(__doc__)
    paths = [os.path.join(TOP, "examples", "captures", name) for name in RUNS]
    print("Normalises two recordings of the same session with delve, a debugger for Go.")
    if len(sys.argv) == 2:
        print(f"Runs {sys.argv[1]}.", flush=True)
        outputs = normalised_by(sys.argv[1], paths)
    else:
        print("Builds a small program first, with run-time checks and without proofs: one to two minutes.", flush=True)
        outputs = normalised_unproved(paths)
    for path in paths:
        with open(path, "rb") as file:
            excerpt(f"Three records of {os.path.basename(path)}:", file.read())
    if len(outputs) != len(paths) or not outputs[0] or outputs[0] != outputs[1]:
        sys.exit("\nThe outputs of dapnorm normalise differ.")
    excerpt("The same records in the output for either recording:", outputs[0])
    count = len(list(records(outputs[0])))
    print(f"\nThe two outputs are equal: {len(outputs[0]):,} bytes, {count} records.")


if __name__ == "__main__":
    main()
