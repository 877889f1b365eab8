"""Makes what a release gives out: python3 scripts/make_package.py PROGRAM PACK FOLDER

FOLDER then has dapnorm-VERSION.proofs, which is the proof pack PACK, dapnorm-VERSION.tar.gz, the
sources of the last commit with that pack, dapnorm_VERSION_amd64.deb, a package of PROGRAM,
which has to be built of that commit, and python3-dapnorm_VERSION_all.deb, a package of the Python
package in python/. A pack of other sources is refused. The version is that of the first heading of
CHANGELOG.md. The same commit, PROGRAM and PACK give the same bytes.
"""
import gzip
import hashlib
import io
import os
import re
import shutil
import subprocess
import sys
import tarfile
import tempfile
import textwrap

import pack_file

TOP = os.path.dirname(os.path.dirname(os.path.abspath(__file__)))
MAINTAINER = "Bugshivel maintainers <maintainers@users.noreply.bugshivel.example>"
TOOLS = ("git", "make", "tar", "strip", "dpkg-deb")
# The program's crate, and the name that its pack has in the archive of the sources, where make looks for it.
CRATE, PACKED = "dapnorm_main", "dapnorm.proofs"
# Where Debian's zsh looks for completions of packages.
PLACES = ["PREFIX=/usr", "AS_ZSH=share/zsh/vendor-completions/_dapnorm"]
# Where the package has its README, and where `make install` puts the guides and examples that it leads to.
DOCUMENTS, SHARED = "usr/share/doc/dapnorm", "usr/share/dapnorm"
# Debian asks for programs without the names of their functions.
STRIP = ["strip", "--strip-unneeded", "--remove-section=.comment"]
COMMENT = """The program has code of the Rattle toolchain in it: of its standard library, of
its libraries {libraries}, and of those that these use. Their licences come with the toolchain."""
CONTROL = """\
Package: dapnorm
Version: {version}
Architecture: amd64
Maintainer: {maintainer}
Installed-Size: {size}
Depends: libc6 (>= {libc})
Suggests: python3-dapnorm
Section: devel
Priority: optional
Description: recorder and normaliser of Debug Adapter Protocol sessions
 dapnorm keeps golden tests of debug adapters stable. It records a session of
 a client and an adapter, checks it against a profile of the protocol, and
 renumbers sequence numbers, frame ids and variables references by first
 appearance. Two runs that differ in nothing but such numbers then give equal
 bytes.
"""
KIT_CONTROL = """\
Package: python3-dapnorm
Source: dapnorm
Version: {version}
Architecture: all
Maintainer: {maintainer}
Installed-Size: {size}
Depends: python3 (>= 3.9), dapnorm (= {version})
Suggests: python3-pytest
Section: python
Priority: optional
Description: golden tests of debug adapters in Python
 A client of the Debug Adapter Protocol that records its sessions, a plugin
 for pytest that compares them with golden files by means of dapnorm, and
 recorders for sessions of other clients over standard streams and TCP.
"""
# Python's byte code is made after the installation, and removed with the package.
KIT_SCRIPTS = {
    "postinst": """\
#!/bin/sh
set -e
if [ "$1" = configure ] && [ -z "$DPKG_ROOT" ] && command -v py3compile > /dev/null; then py3compile -p python3-dapnorm; fi
""",
    "prerm": """\
#!/bin/sh
set -e
if [ -z "$DPKG_ROOT" ] && command -v py3clean > /dev/null; then py3clean -p python3-dapnorm; fi
""",
}
COPYRIGHT = """\
Format: https://www.debian.org/doc/packaging-manuals/copyright-format/1.0/
Upstream-Name: dapnorm

Files: *
Copyright: {holder}
License: Expat or Apache-2.0
Comment:
{comment}

License: Expat
{terms}

License: Apache-2.0
 On Debian systems the text is in /usr/share/common-licenses/Apache-2.0.
"""


def git(*words):
    return subprocess.run(["git", *words], cwd=TOP, stdout=subprocess.PIPE, check=True).stdout


def read(*path):
    with open(os.path.join(*path), encoding="utf-8") as file:
        return file.read()


def write(text, *path):
    os.makedirs(os.path.dirname(os.path.join(*path)), exist_ok=True)
    with open(os.path.join(*path), "wb") as file:
        file.write(text)


def compressed(text):
    return gzip.compress(text.encode(), mtime=0)


def newest(tree):
    """The version, when it was released, and the changes, by the first heading of CHANGELOG.md."""
    first = re.split(r"^## ", read(tree, "CHANGELOG.md"), flags=re.MULTILINE)[1]
    found = re.match(r"(\d+\.\d+\.\d+), (.*)\n\n((?:- .*\n?)+)", first)
    if not found:
        sys.exit("CHANGELOG.md has no '## VERSION, DATE' and list of changes as its first heading")
    version, when, changes = found.groups()
    return version, when, [line.removeprefix("- ") for line in changes.splitlines()]


def filled(text, first=" ", further=" "):
    return textwrap.fill(text, 78, initial_indent=first, subsequent_indent=further)


def changelog(tree, date):
    """The newest changes in Debian's form; the older ones stand in CHANGELOG.md."""
    version, when, changes = newest(tree)
    suite = "UNRELEASED" if when == "not released yet" else "unstable"
    lines = [filled(it, "  * ", "    ") for it in changes]
    head = f"dapnorm ({version}) {suite}; urgency=medium\n"
    return "\n".join([head, *lines, f"\n -- {MAINTAINER}  {date}\n"])


def libraries(tree):
    """The libraries of the toolchain that the crates of the program use, by crates.txt."""
    lines = [line.split(":") for line in read(tree, "crates.txt").splitlines() if line[0] != "#"]
    used = {it for name, uses in lines if name.startswith("dap") for it in uses.split()}
    return sorted(used - {name for name, _ in lines})


def copyright_file(tree, with_program=True):
    form = r"Copyright \(c\) (.*)\n\n((?:.|\n)*)"
    holder, terms = re.search(form, read(tree, "LICENSE-MIT")).groups()
    terms = "\n".join(" " + (line or ".") for line in terms.strip().splitlines())
    comment = filled(COMMENT.format(libraries=", ".join(libraries(tree)))) if with_program else " This package has Python code only."
    return COPYRIGHT.format(holder=holder, comment=comment, terms=terms)


def oldest_libc(program):
    """The first version of the C library that has all that the program asks of it."""
    with open(program, "rb") as file:
        asked = re.findall(rb"\bGLIBC_(\d+)\.(\d+)", file.read())
    if not asked:
        sys.exit(f"{program} is no program that is linked to the C library")
    return "{}.{}".format(*max((int(major), int(minor)) for major, minor in asked))


def files(stage):
    """The files below a folder, in order."""
    found = [os.path.join(at, name) for at, _, names in os.walk(stage) for name in names]
    return sorted(os.path.relpath(path, stage) for path in found)


def packed_readme(tree, stage):
    """The README, whose links lead to the files in the package. A link to a file that is not there leaves its words."""
    def followed(link):
        words, target, rest = link.groups()
        there = os.path.join(SHARED, target)
        if not os.path.exists(os.path.join(stage, there)):
            return words
        return f"[{words}]({os.path.relpath(there, DOCUMENTS)}{rest})"

    return re.sub(r"\[([^\]]*)\]\((?!https?:|#)([^)#]+)([^)]*)\)", followed, read(tree, "README.md"))


def package(tree, program, date, stage):
    """Fills the folder to be packed: by `make install`, and with what Debian asks for beside it."""
    words = ["make", "-C", tree, "install", f"PROGRAM={program}", f"DESTDIR={stage}", *PLACES]
    asked = ("MAKEFLAGS", "MFLAGS", "MAKEOVERRIDES")
    kept = {name: value for name, value in os.environ.items() if name not in asked}
    subprocess.run(words, stdout=subprocess.DEVNULL, check=True, env=kept)
    subprocess.run([*STRIP, os.path.join(stage, "usr", "bin", "dapnorm")], check=True)
    manual = os.path.join(stage, "usr", "share", "man", "man1", "dapnorm.1")
    write(compressed(read(manual)), manual + ".gz")
    os.remove(manual)
    documents = os.path.join(stage, DOCUMENTS)
    write(packed_readme(tree, stage).encode(), documents, "README.md")
    write(copyright_file(tree).encode(), documents, "copyright")
    write(compressed(read(tree, "CHANGELOG.md")), documents, "changelog.gz")
    write(compressed(changelog(tree, date)), documents, "changelog.Debian.gz")


def kit_package(tree, date, stage, kit):
    """Moves the Python package out of the folder that `make install` filled into one of its own, with the documents of a package."""
    os.makedirs(os.path.join(kit, "usr"))
    os.rename(os.path.join(stage, "usr", "lib"), os.path.join(kit, "usr", "lib"))
    documents = os.path.join(kit, "usr", "share", "doc", "python3-dapnorm")
    write(copyright_file(tree, False).encode(), documents, "copyright")
    write(compressed(read(tree, "CHANGELOG.md")), documents, "changelog.gz")
    write(compressed(changelog(tree, date)), documents, "changelog.Debian.gz")


def control(form, tree, stage, **more):
    """What dpkg asks of the package, and the sums of its files."""
    sums, size = [], 0
    for name in files(stage):
        with open(os.path.join(stage, name), "rb") as file:
            text = file.read()
        sums.append(f"{hashlib.md5(text).hexdigest()}  {name}\n")
        size += (len(text) + 1023) // 1024
    said = {"version": newest(tree)[0], "maintainer": MAINTAINER, "size": size, **more}
    write(form.format(**said).encode(), stage, "DEBIAN", "control")
    write("".join(sums).encode(), stage, "DEBIAN", "md5sums")


def archive(sources, name, pack, seconds):
    """Writes the sources of the last commit and their pack, in one folder, to an archive."""
    tree = io.BytesIO(git("archive", "--format=tar", f"--prefix={name}/", "HEAD"))
    with tarfile.open(fileobj=tree, mode="a:") as files, open(pack, "rb") as file:
        entry = tarfile.TarInfo(f"{name}/{PACKED}")
        entry.size, entry.mode, entry.mtime = os.path.getsize(pack), 0o644, int(seconds)
        entry.uname = entry.gname = "root"
        files.addfile(entry, file)
    write(gzip.compress(tree.getvalue(), mtime=0), sources)


def make(program, pack, folder):
    """The four files, made in this folder; gives their paths."""
    libc = oldest_libc(program)
    seconds, date = git("log", "-1", "--format=%ct%n%cD").decode().splitlines()
    tree, stage, kit = (os.path.join(folder, it) for it in ("tree", "stage", "kit"))
    for it in (tree, stage, kit):
        os.mkdir(it)
    subprocess.run(["tar", "-x", "-C", tree], input=git("archive", "HEAD"), check=True)
    pack_file.refuse(pack_file.read(pack), tree, CRATE)
    name = f"dapnorm-{newest(tree)[0]}"
    sources, proofs = (os.path.join(folder, f"{name}.{end}") for end in ("tar.gz", "proofs"))
    debian = [(stage, f"dapnorm_{newest(tree)[0]}_amd64.deb"), (kit, f"python3-dapnorm_{newest(tree)[0]}_all.deb")]
    archive(sources, name, pack, seconds)
    shutil.copyfile(pack, proofs)
    package(tree, program, date, stage)
    kit_package(tree, date, stage, kit)
    control(CONTROL, tree, stage, libc=libc)
    control(KIT_CONTROL, tree, kit)
    for name, text in KIT_SCRIPTS.items():
        write(text.encode(), kit, "DEBIAN", name)
        os.chmod(os.path.join(kit, "DEBIAN", name), 0o755)
    environment = {**os.environ, "SOURCE_DATE_EPOCH": seconds}
    for at, file_name in debian:
        words = ["dpkg-deb", "--root-owner-group", "-Zxz", "--build", at, os.path.join(folder, file_name)]
        subprocess.run(words, stdout=subprocess.DEVNULL, check=True, env=environment)
    return sources, proofs, *(os.path.join(folder, file_name) for _, file_name in debian)


def main():
    if len(sys.argv) != 4:
        sys.exit(__doc__)
    for tool in TOOLS:
        if shutil.which(tool) is None:
            sys.exit(f"{tool} is not found: the packages are made by {', '.join(TOOLS)}")
    program, pack, target = map(os.path.abspath, sys.argv[1:])
    os.umask(0o022)
    try:
        with tempfile.TemporaryDirectory() as folder:
            made = make(program, pack, folder)
            os.makedirs(target, exist_ok=True)
            for path in made:
                print(shutil.copy(path, target))
    except pack_file.Refused as why:
        sys.exit(f"no package is made: the proof pack {pack} is refused: {why}")
    except (OSError, subprocess.CalledProcessError) as error:
        sys.exit(f"no package is made: {error}")


if __name__ == "__main__":
    main()
