"""Makes the packages of the last commit with the program that the gate built, and looks into them:
the sources with their proof pack, the Debian packages unpacked and installed below a folder, and what `make dist` says.
tests/tools/small_repository.py proves and packs a program; the packs here say of which sources they are, and hold no proofs."""
import gzip
import os
import re
import shutil
import subprocess
import sys
import tempfile

from tests.tools import small_repository
from tests.report import PROGRAM, TOP, Report

SCRIPT = os.path.join(TOP, "scripts", "make_package.py")
sys.path.append(os.path.dirname(SCRIPT))
import pack_file
from make_package import CRATE, PACKED, STRIP, TOOLS

# The scripts that the targets for programs and packages run.
MAKING = ["kit.py", "make_package.py", "pack_file.py", "proof_pack.py", "prove_all.py", "side_by_side.py"]
IDENTITY = ["-c", "user.name=somebody", "-c", "user.email=somebody@example.org"]
COMMIT = ["git", *IDENTITY, "commit", "-qam", "as it stands", "--allow-empty"]
DOCUMENTS = ["README.md", "changelog.Debian.gz", "changelog.gz", "copyright"]
# What the package has in another place, or in another form, than `make install`.
MOVED = {
    "usr/share/man/man1/dapnorm.1": "usr/share/man/man1/dapnorm.1.gz",
    "usr/share/zsh/site-functions/_dapnorm": "usr/share/zsh/vendor-completions/_dapnorm",
}


def ran(*words, **how):
    return subprocess.run(words, capture_output=True, text=True, timeout=120, **how)


def read(*path):
    with open(os.path.join(*path), "rb") as file:
        return file.read()


def below(folder):
    """The files below a folder, with their bytes and modes."""
    paths = [os.path.join(at, name) for at, _, names in os.walk(folder) for name in names]
    found = {os.path.relpath(path, folder): path for path in paths}
    return {name: (read(path), os.stat(path).st_mode & 0o777) for name, path in found.items()}


def cloned(folder):
    """A copy of the repository at its last commit, with the Makefile and the scripts of make as they are now."""
    copy = os.path.join(folder, "copy")
    subprocess.run(["git", "clone", "-q", TOP, copy], check=True)
    shutil.copy(os.path.join(TOP, "Makefile"), copy)
    for name in MAKING:
        shutil.copy(os.path.join(TOP, "scripts", name), os.path.join(copy, "scripts"))
    subprocess.run(["git", "add", "-A"], cwd=copy, check=True)
    subprocess.run(COMMIT, cwd=copy, check=True)
    return copy


def pack_of(tree, path, **other):
    """A pack without proofs, which says that it is of the sources of a tree, or what is said in their place."""
    with tempfile.TemporaryDirectory() as nothing:
        pack_file.write(path, {**pack_file.manifest(tree, CRATE, "a kit"), **other}, nothing)
    return path


def made(report, pack, folder):
    """The paths of the packages, which are made twice."""
    outputs = []
    for name in ("one", "other"):
        target = os.path.join(folder, name)
        answer = ran(sys.executable, SCRIPT, PROGRAM, pack, target)
        report.check("the packages are made", answer.returncode == 0, answer.stderr)
        outputs.append(below(target) if os.path.exists(target) else {})
    report.check("the same commit, program and pack give the same bytes", outputs[0] == outputs[1] != {})
    changes = subprocess.check_output(["git", "show", "HEAD:CHANGELOG.md"], cwd=TOP, text=True)
    version = re.search(r"^## (\S+),", changes, re.MULTILINE)[1]
    names = [f"dapnorm-{version}.proofs", f"dapnorm-{version}.tar.gz", f"dapnorm_{version}_amd64.deb", f"python3-dapnorm_{version}_all.deb"]
    there = sorted(outputs[0])
    report.check("their names have the version", there == names, repr(there))
    proofs, *others = (os.path.join(folder, "one", name) for name in names)
    report.check("the proof pack lies beside the sources", os.path.exists(proofs) and read(proofs) == read(pack))
    return others, version


def sources(report, path, pack, version, folder):
    """The files of the last commit, each with its bytes and mode, and the pack; gives their folder."""
    subprocess.run(["tar", "-xzf", path, "-C", folder], check=True)
    tree = os.path.join(folder, f"dapnorm-{version}")
    report.check("the sources are one folder", os.listdir(folder) == [f"dapnorm-{version}"])
    listed = subprocess.check_output(["git", "ls-tree", "-rz", "HEAD"], cwd=TOP, text=True)
    wanted = {}
    for line in listed.split("\0")[:-1]:
        mode, _, blob, name = re.split(r"[ \t]", line, maxsplit=3)
        wanted[name] = (blob, mode == "100755")
    there = below(tree)
    report.check("the sources have their pack", there.pop(PACKED, None) == (read(pack), 0o644))
    report.check("the sources have the files of git", sorted(there) == sorted(wanted))
    words = ["git", "hash-object", "--no-filters", "--stdin-paths"]
    paths = "".join(os.path.join(tree, name) + "\n" for name in there)
    blobs = subprocess.check_output(words, cwd=TOP, input=paths, text=True).split()
    found = {name: (blob, bool(there[name][1] & 0o100)) for name, blob in zip(there, blobs)}
    differing = [name for name in found if found[name] != wanted.get(name)]
    report.check("their bytes and modes are those of git", differing == [], repr(differing))
    return tree


def default_pack(report, tree):
    """By `make` the sources are built over the pack that lies there, and by `make PROOFS=` they are proved."""
    for words, script in (((), f'proof_pack.py build crates/{CRATE} "{PACKED}"'), (("PROOFS=",), f"prove_all.py crates/{CRATE}")):
        said = ran("make", "-n", "-C", tree, "-f", os.path.join(TOP, "Makefile"), *words).stdout
        found = re.findall(r"(?:prove_all|proof_pack)\.py .*", said)
        report.check(f"make {' '.join(words)} runs {script}", len(found) == 1 and found[0].startswith(script), said)


def program_runs(report, place, root):
    """The program of the package, on a recording with a stored golden file."""
    examples = os.path.join(TOP, "examples")
    recording = read(examples, "captures", "dlv-l-stopentry.5.rec")
    words = [os.path.join(root, "usr", "bin", "dapnorm"), "normalise"]
    answer = subprocess.run(words, input=recording, capture_output=True, timeout=120)
    good = (answer.returncode, answer.stdout) == (0, read(examples, "dlv-stopentry.golden"))
    report.check(f"the program {place} normalises", good, repr(answer.stderr))


def contents(report, root, tree, folder):
    """The files of the package are those that `make install` puts there, with the program stripped,
    and the documents."""
    stage = os.path.join(folder, "stage")
    words = ["make", "-C", tree, "install", f"PROGRAM={PROGRAM}", f"DESTDIR={stage}", "PREFIX=/usr"]
    answer = ran(*words)
    report.check("make install of the sources ends well", answer.returncode == 0, answer.stderr)
    subprocess.run([*STRIP, os.path.join(stage, "usr", "bin", "dapnorm")], check=True)
    packed = below(root)
    documents = {name for name in packed if name.startswith("usr/share/doc/")}
    wanted = {f"usr/share/doc/dapnorm/{name}" for name in DOCUMENTS}
    report.check("the package has the documents", documents == wanted, repr(documents))
    installed = {MOVED.get(name, name): it for name, it in below(stage).items() if not name.startswith("usr/lib/python3/")}
    there = {name: it for name, it in packed.items() if name not in documents}
    for name in there:
        if name.endswith(".gz"):
            there[name] = (gzip.decompress(there[name][0]), there[name][1])
    readme = packed["usr/share/doc/dapnorm/README.md"][0].decode()
    targets = re.findall(r"\]\((?!https?:|#)([^)#]+)", readme)
    for target in targets:
        led = os.path.normpath(os.path.join("usr/share/doc/dapnorm", target))
        report.check(f"the README of the package leads to {target}", os.path.exists(os.path.join(root, led)))
    report.check("it leads to the guide to errors", "../../dapnorm/docs/ERRORS.md" in targets)
    same = there == installed
    report.check("its other files are those of make install", same, repr(sorted(there)))
    log = gzip.decompress(packed["usr/share/doc/dapnorm/changelog.gz"][0])
    report.check("the changes are the last commit's", log == read(tree, "CHANGELOG.md"))


def kit(report, path, version, root, folder):
    """The package of the Python package: its files are those that `make install` puts there, and Python imports it."""
    unpacked(report, path, {"Package": "python3-dapnorm", "Version": version, "Architecture": "all"}, root)
    documents = {f"usr/share/doc/python3-dapnorm/{name}" for name in DOCUMENTS if name != "README.md"}
    installed = {name: it for name, it in below(os.path.join(folder, "stage")).items() if name.startswith("usr/lib/python3/")}
    packed = below(root)
    same = {name: it for name, it in packed.items() if name not in documents} == installed != {}
    report.check("the files of the Python package are those of make install", same, repr(sorted(packed)))
    report.check("it has the documents", documents <= set(packed))
    place = os.path.join(root, "usr", "lib", "python3", "dist-packages")
    answer = ran(sys.executable, "-c", "import dapnorm; print(dapnorm.__version__)", env={**os.environ, "PYTHONPATH": place, "PYTHONDONTWRITEBYTECODE": "1"})
    report.check("Python imports it", answer.stdout == f"{version}\n", answer.stdout + answer.stderr)


def unpacked(report, path, fields, root):
    for field, wanted in fields.items():
        told = ran("dpkg-deb", "-f", path, field).stdout.strip()
        report.check(f"the package says its {field}", told == wanted, told)
    answer = ran("dpkg-deb", "-x", path, root)
    report.check("the package is unpacked", answer.returncode == 0, answer.stderr)
    sound(report, path, root)


def package(report, path, version, root):
    """What dpkg-deb reads of the package, which it unpacks below root."""
    unpacked(report, path, {"Package": "dapnorm", "Version": version, "Architecture": "amd64"}, root)
    program_runs(report, "unpacked", root)


def sound(report, path, root):
    """The files of a package belong to root, and have its sums; lintian finds nothing wrong, if it is installed."""
    listed = ran("dpkg-deb", "-c", path).stdout.splitlines()
    report.check("root owns its files", all(line.split()[1] == "root/root" for line in listed))
    control = root + ".control"
    subprocess.run(["dpkg-deb", "-e", path, control], check=True)
    answer = ran("md5sum", "-c", "--strict", os.path.join(control, "md5sums"), cwd=root)
    good = answer.returncode == 0 and len(answer.stdout.splitlines()) == len(below(root))
    report.check("its sums are those of its files", good, answer.stdout + answer.stderr)
    if shutil.which("lintian"):
        answer = ran("lintian", "--fail-on", "error,warning", path)
        report.check("lintian finds nothing wrong", answer.returncode == 0, answer.stdout)
    else:
        print("lintian is not installed: it does not look at the package", flush=True)


def dpkg(root, *words):
    """dpkg on a system below root, which has no C library and whose user may be anyone."""
    forced = ["--force-not-root", "--force-depends", "--force-bad-path"]
    return ran("dpkg", f"--root={root}", f"--log={root}.log", *forced, *words)


def empty_system(root):
    """What dpkg asks of a system."""
    for name in ("info", "updates", "triggers"):
        os.makedirs(os.path.join(root, "var", "lib", "dpkg", name))
    with open(os.path.join(root, "var", "lib", "dpkg", "status"), "w", encoding="utf-8"):
        pass


def installs_elsewhere(folder):
    """Whether dpkg, as this user, installs some package below a folder."""
    control = os.path.join(folder, "package", "DEBIAN", "control")
    os.umask(0o022)
    os.makedirs(os.path.dirname(control))
    fields = ("Package: empty", "Version: 1", "Architecture: all", "Maintainer: a <a@b>")
    with open(control, "w", encoding="utf-8") as file:
        file.write("\n".join([*fields, "Description: nothing", ""]))
    path, root = os.path.join(folder, "empty.deb"), os.path.join(folder, "system")
    empty_system(root)
    ran("dpkg-deb", "--build", os.path.join(folder, "package"), path)
    return dpkg(root, "-i", path).returncode == 0


def install(report, path, kit_path, folder):
    """The packages installed below a folder and removed again."""
    if not installs_elsewhere(os.path.join(folder, "trial")):
        print("dpkg installs nothing below a folder here: that is not tried", flush=True)
        return
    root = os.path.join(folder, "installed")
    empty_system(root)
    answer = dpkg(root, "-i", path)
    report.check("dpkg installs the package", answer.returncode == 0, answer.stderr)
    program_runs(report, "installed", root)
    answer = dpkg(root, "--force-script-chrootless", "-i", kit_path)
    report.check("dpkg installs the Python package", answer.returncode == 0, answer.stderr)
    answer = dpkg(root, "--force-script-chrootless", "-r", "python3-dapnorm", "dapnorm")
    left = [name for name in below(root) if not name.startswith("var/lib/dpkg/")]
    gone = (answer.returncode, left) == (0, [])
    report.check("dpkg removes them", gone, repr((answer.stderr, left)))


def refused(report, copy, folder):
    """`make dist` takes no uncommitted change, and no other file."""
    pack, target = pack_of(copy, os.path.join(folder, "copy.proofs")), os.path.join(copy, "dist")
    words = ["make", "-C", copy, "dist"]
    answer = ran(*words, f"PROGRAM={PROGRAM}", f"PACK={pack}")
    good = answer.returncode == 0 and len(os.listdir(target)) == 4
    report.check("make dist makes four files", good, answer.stdout + answer.stderr)
    shutil.rmtree(target, ignore_errors=True)
    other = pack_of(copy, os.path.join(folder, "other.proofs"), sources={"crates/dap_device/src/lib.rt": "other"})
    for program, given, why in ((SCRIPT, pack, "is no program"), (PROGRAM, other, "other sources"), (PROGRAM, SCRIPT, "it is damaged")):
        answer = ran(*words, f"PROGRAM={program}", f"PACK={given}")
        good = answer.returncode != 0 and why in answer.stderr and "Traceback" not in answer.stderr
        report.check(f"make dist refuses what {why}", good, answer.stderr)
    for name in ("README.md", os.path.join("crates", "dap_device", "new.rt")):
        with open(os.path.join(copy, name), "a", encoding="utf-8") as file:
            file.write("\n")
        answer = ran(*words, f"PROGRAM={PROGRAM}", f"PACK={pack}")
        said = answer.returncode != 0 and "commit" in answer.stdout
        report.check(f"make dist refuses a change of {name}", said, answer.stdout + answer.stderr)
        subprocess.run(["git", *IDENTITY, "stash", "-qu"], cwd=copy, check=True)
    changes = read(copy, "CHANGELOG.md").replace(b"\n## ", b"\n## soon\n\n- more\n\n## ", 1)
    with open(os.path.join(copy, "CHANGELOG.md"), "wb") as file:
        file.write(changes)
    subprocess.run(COMMIT, cwd=copy, check=True)
    answer = ran(*words, f"PROGRAM={PROGRAM}", f"PACK={pack}")
    said = answer.returncode != 0 and "first heading" in answer.stderr
    report.check("make dist refuses changes without a version", said, answer.stderr)
    left = os.path.exists(target)
    report.check("a refused make dist leaves nothing", not left)


def pack_targets(report, copy):
    """`make proofs` makes bin/dapnorm.proofs after bin/dapnorm, and a program over a pack is built again by `make`."""
    said = ran("make", "-n", "-C", copy, "proofs", "PROOFS=").stdout
    found = re.findall(r"(?:prove_all|proof_pack)\.py \w+.*", said)
    wanted = [f"prove_all.py crates/{CRATE}", f"proof_pack.py make crates/{CRATE} bin/dapnorm.proofs bin/dapnorm"]
    report.check("make proofs proves and packs", found == wanted, said)
    os.makedirs(os.path.join(copy, "bin"))
    for name, goal, builds in (("dapnorm", "all", 0), ("over_pack", "all", 1), ("over_pack", "install", 0)):
        with open(os.path.join(copy, "bin", name), "w", encoding="utf-8"):
            pass
        said = ran("make", "-n", "-C", copy, goal).stdout
        report.check(f"make {goal} with bin/{name} proves {builds} programs", said.count("prove_all.py") == builds, said)
    shutil.rmtree(os.path.join(copy, "bin"))


def main():
    report = Report()
    if not report.check("the gate has built the program", os.access(PROGRAM, os.X_OK)):
        return report.close()
    small_repository.tried(report)
    missing = [tool for tool in (*TOOLS, "dpkg") if shutil.which(tool) is None]
    if missing or ran("git", "log", "-1", cwd=TOP).returncode != 0:
        want = ", ".join(missing) or "a commit"
        print(f"packages are not tried, for want of {want}", flush=True)
        return report.close()
    with tempfile.TemporaryDirectory() as folder:
        copy = cloned(folder)
        failed, pack = report.failed, pack_of(copy, os.path.join(folder, "pack"))
        (archive, debian, debian_kit), version = made(report, pack, folder)
        if report.failed == failed:
            unpacked, root = os.path.join(folder, "sources"), os.path.join(folder, "root")
            os.mkdir(unpacked)
            tree = sources(report, archive, pack, version, unpacked)
            default_pack(report, tree)
            package(report, debian, version, root)
            contents(report, root, tree, folder)
            kit(report, debian_kit, version, os.path.join(folder, "kit"), folder)
            install(report, debian, debian_kit, folder)
        pack_targets(report, copy)
        refused(report, copy, folder)
    return report.close()


if __name__ == "__main__":
    sys.exit(main())
