"""The file of a proof pack: an archive of a manifest, which says what was proved, and of one compressed archive for each crate.

These have each content that the manifest names, once. They are written and read side by side."""
import contextlib
import hashlib
import io
import json
import lzma
import os
import tarfile
from concurrent.futures import ThreadPoolExecutor
from typing import Dict, Iterator, List, Optional

from kit import link_file

MANIFEST = "manifest.json"
# The folder of what the prover recorded, one folder for each crate, and that of the libraries that it built.
CHECKED, BUILT = "checked", "rlib"
FORM = "dapnorm proof pack 2"
PARTS = ("src", "specs", "proofs")
TAKE = "take the pack of these sources and this kit, or prove them: make PROOFS="


class Refused(Exception):
    """Why a pack is refused."""


def sum_of(path: str) -> str:
    with open(path, "rb") as file:
        return hashlib.sha256(file.read()).hexdigest()


def files_below(folder: str) -> Iterator[str]:
    """Yields the files below a folder by their paths from it, in order."""
    for at, folders, names in os.walk(folder):
        folders.sort()
        for name in sorted(names):
            yield os.path.relpath(os.path.join(at, name), folder)


def rows(top: str) -> Dict[str, List[str]]:
    """Returns by crate the words of its line in crates.txt: what it is, and what it uses."""
    found = {}
    with open(os.path.join(top, "crates.txt"), encoding="utf-8") as file:
        for line in file:
            words = line.partition("#")[0].replace(":", " ").split()
            found.update({words[0]: words[1:]} if words else {})
    return found


def used(listed: Dict[str, List[str]], crate: str) -> List[str]:
    """Returns the crate and the crates of the repository below it, in the order of their names."""
    found, left = set(), [crate]
    while left:
        name = left.pop()
        if name in listed and name not in found:
            found.add(name)
            left += listed[name]
    return sorted(found)


def sources(top: str, crate: str) -> Dict[str, str]:
    """Returns the sums of the sources of a crate by their paths from the repository's top."""
    folder = os.path.join(top, "crates", crate)
    paths = [os.path.join(part, it) for part in PARTS for it in files_below(os.path.join(folder, part)) if it.endswith((".rt", ".antt"))]
    return {f"crates/{crate}/{path}": sum_of(os.path.join(folder, path)) for path in paths}


def manifest(top: str, program: str, kit: str) -> dict:
    """Returns what a pack of these sources says of itself, except for its files."""
    listed = rows(top)
    names = used(listed, program)
    files = {path: total for name in names for path, total in sources(top, name).items()}
    return {"form": FORM, "kit": kit, "program": program, "crates": {name: listed[name] for name in names}, "sources": files}


def packed(archive: tarfile.TarFile, name: str, content: bytes) -> None:
    """Adds a file to an archive, with no time and no owner, so that equal contents give equal bytes."""
    entry = tarfile.TarInfo(name)
    entry.size, entry.mode = len(content), 0o644
    archive.addfile(entry, io.BytesIO(content))


def part_of(path: str) -> str:
    """Returns the name of the archive that has the content of a path: that of its crate."""
    return f"{path.split('/')[1].partition('.')[0]}.tar.xz"


def compressed(place: str, contents: Dict[str, str]) -> bytes:
    """Returns a compressed archive of files below a folder, given by the sums that name them in it."""
    written = io.BytesIO()
    with tarfile.open(fileobj=written, mode="w:xz") as archive:
        for total, path in contents.items():
            with open(os.path.join(place, path), "rb") as file:
                packed(archive, total, file.read())
    return written.getvalue()


def write(pack: str, said: dict, place: str) -> None:
    """Writes what the manifest says, and the records and libraries below a folder, to a pack."""
    paths = [f"{it}/{path}" for it in (CHECKED, BUILT) for path in files_below(os.path.join(place, it))]
    parts: Dict[str, Dict[str, str]] = {}
    with tarfile.open(f"{pack}.new", "w") as archive, ThreadPoolExecutor(os.cpu_count()) as pool:
        sums = dict(zip(paths, pool.map(lambda path: sum_of(os.path.join(place, path)), paths)))
        # A record and its library share most of their bytes.
        for total, path in {total: path for path, total in sums.items()}.items():
            parts.setdefault(part_of(path), {})[total] = path
        packed(archive, MANIFEST, json.dumps({**said, "files": sums}, indent=1).encode())
        for name, content in zip(parts, pool.map(lambda contents: compressed(place, contents), parts.values())):
            packed(archive, name, content)
    os.replace(f"{pack}.new", pack)


def placed(said: dict) -> Dict[str, List[str]]:
    """Returns by sum the paths at which a content is to be written."""
    found: Dict[str, List[str]] = {}
    for path, total in said["files"].items():
        if os.path.normpath(path) != path or path.split("/")[0] not in (CHECKED, BUILT):
            raise Refused(f"it is damaged: its manifest names {path}")
        found.setdefault(total, []).append(path)
    return found


def said_by(archive: tarfile.TarFile) -> dict:
    """Returns the manifest, which is the first entry of an archive."""
    entry = archive.next()
    if entry is None or entry.name != MANIFEST or not entry.isfile():
        raise Refused("it is no proof pack")
    said = json.loads(archive.extractfile(entry).read())
    if said["form"] != FORM:
        raise Refused(f"its form is {said['form']}, and not {FORM}")
    return said


def put_contents(content: bytes, left: Dict[str, List[str]], place: str) -> None:
    """Writes the contents of one compressed archive below a folder, and removes their sums from those that are left."""
    with tarfile.open(fileobj=io.BytesIO(lzma.decompress(content))) as archive:
        for entry in archive:
            text = archive.extractfile(entry).read() if entry.isfile() else b""
            paths = left.pop(entry.name, None) if hashlib.sha256(text).hexdigest() == entry.name else None
            if paths is None:
                raise Refused(f"it is damaged: {entry.name[:80]} has another content")
            first, *others = [os.path.join(place, path) for path in paths]
            for path in (first, *others):
                os.makedirs(os.path.dirname(path), exist_ok=True)
            with open(first, "wb") as file:
                file.write(text)
            for path in others:
                link_file(first, path)


@contextlib.contextmanager
def opened(pack: str) -> Iterator[tarfile.TarFile]:
    """Opens a pack, and raises `Refused` for all that goes wrong while it is read."""
    if not os.path.isfile(pack):
        raise Refused("there is no such file")
    try:
        with tarfile.open(pack, "r:") as archive:
            yield archive
    except Refused:
        raise
    except Exception as why:
        # What the libraries for archives raise at a damaged file is of many types.
        raise Refused(f"it is damaged: {why}") from why


def read(pack: str) -> dict:
    """Returns the manifest of a pack."""
    with opened(pack) as archive:
        return said_by(archive)


def unpack(pack: str, place: str) -> None:
    """Writes the contents of a pack below a folder."""
    with opened(pack) as archive, ThreadPoolExecutor(os.cpu_count()) as pool:
        left = placed(said_by(archive))
        contents = [archive.extractfile(entry).read() for entry in archive if entry.name != MANIFEST]
        for written in [pool.submit(put_contents, content, left, place) for content in contents]:
            written.result()
    if left:
        raise Refused(f"it is damaged: {min(left.values())[0]} is not in it")


def refuse(said: dict, top: str, program: str, kit: Optional[str] = None) -> None:
    """Raises `Refused` if a pack is of other sources, of another program or, if one is given, of another kit."""
    here = manifest(top, program, kit or said["kit"])
    if said["kit"] != here["kit"]:
        raise Refused(f"it was made with {said['kit']}, and this is {kit}: {TAKE}")
    for key, what in (("program", "program"), ("crates", "list of crates, in crates.txt")):
        if said[key] != here[key]:
            raise Refused(f"it is of another {what}: {TAKE}")
    differing = [path for path in {**said["sources"], **here["sources"]} if said["sources"].get(path) != here["sources"].get(path)]
    if differing:
        what = "is" if len(differing) == 1 else f"and {len(differing) - 1} more are"
        raise Refused(f"it is of other sources: {min(differing)} {what} not what was proved: {TAKE}")
