"""Proves a repository of a library and a program by the scripts of `make`, packs its proofs, and builds the program over the pack.

The program that is built over the pack has the bytes of the one that is proved. A pack of other sources, of another kit or with a
damaged content is refused. If the manifest of a pack names the sums of changed sources, the prover refuses it."""
import hashlib
import io
import json
import lzma
import os
import shutil
import subprocess
import sys
import tarfile
import tempfile

from tests.report import TOP

SCRIPTS = os.path.join(TOP, "scripts")
sys.path.append(SCRIPTS)
import pack_file
import side_by_side

LIST = "greeting:\nhello: greeting\n"
LIBRARY = """//! A greeting.
#![tactic(auto)]

/// Returns the greeting.
pub fn greeting() -> &'static str {
    "hello"
}
"""
PROGRAM = """//! Prints a greeting.
#![tactic(auto)]

use greeting::greeting;
use std::io;

fn main(rt: HostRuntime) -> io::Result<()> {
    println!(rt; "{}", greeting())?;
    Ok(())
}
"""
LIBRARY_FILE, PROGRAM_FILE = "crates/greeting/src/lib.rt", "crates/hello/src/main.rt"


def write(path, text):
    os.makedirs(os.path.dirname(path), exist_ok=True)
    with open(path, "wb") as file:
        file.write(text.encode() if isinstance(text, str) else text)


def read(path):
    with open(path, "rb") as file:
        return file.read()


def started(top, script, *words):
    words = [sys.executable, os.path.join(SCRIPTS, script), *words]
    return subprocess.Popen(words, cwd=top, stdin=subprocess.DEVNULL, stdout=subprocess.PIPE, stderr=subprocess.STDOUT, text=True)


def ended(process):
    return process.communicate(timeout=900)[0]


def files_of(archive):
    """The contents of an archive by their names."""
    with tarfile.open(fileobj=io.BytesIO(archive)) as opened:
        return {entry.name: opened.extractfile(entry).read() for entry in opened}


def archive_of(files):
    """An archive of contents by their names."""
    written = io.BytesIO()
    with tarfile.open(fileobj=written, mode="w") as archive:
        for name, content in files.items():
            entry = tarfile.TarInfo(name)
            entry.size = len(content)
            archive.addfile(entry, io.BytesIO(content))
    return written.getvalue()


def altered(pack, path, change):
    """Writes a copy of a pack, of which `change` has changed the manifest and the contents by their sums."""
    parts = files_of(read(pack))
    said = json.loads(parts.pop(pack_file.MANIFEST))
    found = {name: content for part in parts.values() for name, content in files_of(lzma.decompress(part)).items()}
    change(said, found)
    files = {pack_file.MANIFEST: json.dumps(said).encode(), "all.tar.xz": lzma.compress(archive_of(found), preset=0)}
    write(path, archive_of(files))
    return path


def other_library(said, found):
    """The library of the pack has another byte in its code, and the manifest has the sum of that."""
    path = next(it for it in said["files"] if it.startswith("rlib/greeting.rlib/") and it.endswith("toolchain/mir.json"))
    content = found.pop(said["files"][path]) + b"\n"
    said["files"][path] = hashlib.sha256(content).hexdigest()
    found[said["files"][path]] = content


def other_content(said, found):
    total = said["files"]["checked/hello/verdict"]
    found[total] = found[total].replace(b"proved", b"Proved")


def without_content(said, found):
    del found[said["files"]["checked/hello/verdict"]]


def outside(said, found):
    said["files"]["checked/../../escaped"] = said["files"].pop("checked/hello/verdict")


# Packs with another manifest or other contents, and the words by which they are refused.
ALTERED = [
    ("of another kit", lambda said, found: said.update(kit="another kit"), "was made with another kit"),
    ("of another form", lambda said, found: said.update(form="another"), "its form is another"),
    ("of another program", lambda said, found: said.update(program="greeting"), "of another program"),
    ("of other libraries", lambda said, found: said["crates"].update(hello=[]), "of another list of crates"),
    ("without a source", lambda said, found: said["sources"].pop(LIBRARY_FILE), f"{LIBRARY_FILE} is not what was proved"),
    ("with another content", other_content, "has another content"),
    ("without a content", without_content, "checked/hello/verdict is not in it"),
    ("with a path outside", outside, "its manifest names checked/../../escaped"),
    ("with another library", other_library, "is not as `rattle build` wrote it"),
]


class Built:
    """The repository, its pack, and the program that is built over the pack."""

    def __init__(self, report, top, pack):
        self.report, self.top, self.pack = report, top, pack
        self.program = os.path.join(top, "bin", "hello")

    def build(self, pack):
        process = started(self.top, "proof_pack.py", "build", os.path.join("crates", "hello"), pack, self.program)
        return ended(process), process.returncode

    def refuses(self, what, pack, why):
        """No program is built over this pack, and the one that is there stays."""
        there = read(self.program) if os.path.exists(self.program) else None
        said, status = self.build(pack)
        good = status == 1 and why in said and "is refused" in said and "Traceback" not in said
        self.report.check(f"a pack {what} is refused", good, said)
        left = read(self.program) if os.path.exists(self.program) else None
        self.report.check(f"a pack {what} leaves the program", left == there)


def damaged(built, folder):
    """Packs that are no archives of this form, and packs whose archive is changed."""
    whole, path = read(built.pack), os.path.join(folder, "damaged")
    middle = len(whole) // 2
    files = [
        ("that is cut", whole[:middle]), ("with another byte", whole[:middle] + bytes([whole[middle] ^ 1]) + whole[middle + 1 :]),
        ("that is empty", b""), ("that is a text", b"proved\n"), ("that is no archive", lzma.compress(b"proved\n")),
    ]
    for what, text in files:
        write(path, text)
        built.refuses(what, path, "is damaged")
    built.refuses("that is not there", os.path.join(folder, "absent"), "there is no such file")
    for what, change, why in ALTERED:
        built.refuses(what, altered(built.pack, path, change), why)
    built.report.check("nothing is written outside", not os.path.exists(os.path.join(folder, "escaped")))


def changed(built, folder):
    """Sources that are not those of the pack, also if the manifest has their sums: then the prover refuses them."""
    forged = os.path.join(folder, "forged")
    for name, old, new in ((LIBRARY_FILE, '"hello"', '"hallo"'), (PROGRAM_FILE, '"{}"', '"{}!"')):
        path = os.path.join(built.top, name)
        text = read(path).decode()
        write(path, text.replace(old, new))
        built.refuses(f"of another {name}", built.pack, f"{name} is not what was proved")
        altered(built.pack, forged, lambda said, found: said["sources"].update({name: pack_file.sum_of(path)}))
        built.refuses(f"that claims another {name}", forged, "did not find its records to be of these sources")
        write(path, text)


def order(report):
    """Tasks start after those that they wait for, the longest chain first and with more jobs, and none after a failure."""
    begun = []

    def task(name, waits_for, work, works=True):
        return side_by_side.Task(name, waits_for, work, lambda jobs: begun.append((name, jobs)) or works)

    chain = [task("low", [], 5), task("beside", [], 1), task("high", ["low"], 9), task("top", ["beside", "high"], 1)]
    report.check("all tasks end well", side_by_side.SideBySide(chain, 4, 8).run())
    report.check("the chain is in order", [name for name, _ in begun if name != "beside"] == ["low", "high", "top"], repr(begun))
    report.check("the chain has more jobs", dict(begun)["low"] == 3 and dict(begun)["beside"] == 2 and dict(begun)["top"] == 4, repr(begun))
    begun.clear()
    many = [task(str(number), [], 20 - number) for number in range(12)]
    report.check("many tasks end well", side_by_side.SideBySide(many, 4, 8).run())
    jobs = [dict(begun)[str(number)] for number in range(12)]
    report.check("while many are left, only the longest has two jobs", jobs[:3] == [2, 1, 1], repr(begun))
    report.check("the last have two jobs each", min(jobs[-4:]) >= 2, repr(begun))
    begun.clear()
    pair = [task("low", [], 5), task("beside", [], 1)]
    report.check("tasks with little memory end well", side_by_side.SideBySide(pair, 2, 2).run())
    report.check("in little memory each has one job", dict(begun) == {"low": 1, "beside": 1}, repr(begun))
    begun.clear()
    chain[2] = task("high", ["low"], 9, works=False)
    report.check("a failure is reported", not side_by_side.SideBySide(chain, 1, 1).run())
    report.check("nothing starts after it", [name for name, _ in begun] in (["low", "high"], ["low", "beside", "high"]), repr(begun))


def unproved(report, top):
    """A failure ends the run with what the prover printed, and no pack is made."""
    path, pack = os.path.join(top, LIBRARY_FILE), os.path.join(top, "unproved")
    text = read(path).decode()
    write(path, text.replace('"hello"', "4"))
    runs = [started(top, "prove_all.py", "crates/hello"), started(top, "proof_pack.py", "make", "crates/hello", pack)]
    for what, process in zip(("prove_all.py", "proof_pack.py"), runs):
        said = ended(process)
        before, _, after = said.partition("greeting: failed")
        good = process.returncode == 1 and "src/lib.rt" in before and after and "hello" not in after
        report.check(f"{what} stops at a failure", good, said)
    report.check("no pack is made of it", not os.path.exists(pack))
    write(path, text)


def proved_again(report, top):
    """Without --keep the prover's work is not kept. With the word it is, later runs take it, and the program has the same bytes."""
    program = os.path.join(top, "crates", "hello", "out", "hello")
    library = os.path.join(top, "crates", "hello", "out", "rlib", "greeting.rlib")
    work = os.path.join(top, "crates", "greeting", "out", "incremental")
    first, made = read(program), os.stat(program).st_mtime_ns
    report.check("a library of its own is built, and no work is kept", os.path.isdir(library) and not os.path.exists(work))
    said = ended(started(top, "prove_all.py", "crates/hello"))
    report.check("a second run proves nothing again", "hello is checked." in said and os.stat(program).st_mtime_ns == made, said)
    write(program, first + b"\n")
    said = ended(started(top, "prove_all.py", "crates/hello"))
    report.check("a program with other bytes is proved again", "hello is checked." in said and read(program) == first, said)
    shutil.rmtree(os.path.dirname(library))
    for words in (["--keep"], []):
        os.remove(program)
        said = ended(started(top, "prove_all.py", "crates/hello", *words))
        good = "hello is checked." in said and os.listdir(work) and not os.path.exists(library)
        report.check(f"the work is kept, and is taken by prove_all.py {' '.join(words)}", good, said)
        report.check("the program is the same", read(program) == first)


def tried(report):
    order(report)
    with tempfile.TemporaryDirectory() as folder:
        top, pack = os.path.join(folder, "small"), os.path.join(folder, "pack")
        for name, text in (("crates.txt", LIST), (LIBRARY_FILE, LIBRARY), (PROGRAM_FILE, PROGRAM)):
            write(os.path.join(top, name), text)
        unproved(report, top)
        runs = [started(top, "prove_all.py", "crates/hello"), started(top, "proof_pack.py", "make", "crates/hello", pack)]
        for what, process in zip(("the small program is proved", "its proofs are packed"), runs):
            said = ended(process)
            if not report.check(what, process.returncode == 0 and "hello is checked." in said, said):
                return
        proved = os.path.join(top, "crates", "hello", "out", "hello")
        built = Built(report, top, pack)
        moved = shutil.copytree(top, os.path.join(folder, "elsewhere"), ignore=shutil.ignore_patterns("out"))
        said, status = Built(report, moved, pack).build(pack)
        report.check("the program is built over the pack, in another folder", status == 0, said)
        built.program = os.path.join(moved, "bin", "hello")
        report.check("it has the bytes of the program that is proved", read(built.program) == read(proved))
        answer = subprocess.run([built.program], capture_output=True, timeout=60)
        report.check("it runs", (answer.returncode, answer.stdout) == (0, b"hello\n"), repr(answer))
        damaged(built, folder)
        changed(built, folder)
        proved_again(report, top)
