"""Runs `dapnorm golden --update` and `-o` on files that are hard to replace: links, permissions, temporary files, two failures in one run."""
import os
import pwd
import shutil
import stat
import subprocess
import sys
import tempfile

from tests.program.faulty import build_shim, side_by_side
from tests.program.golden import CONFIGURATION, NORMAL, OLD, Folder, golden_refusal, wrote
from tests.report import PROGRAM, Report
from tests.program.worked_runs import BEGUN, CONFIGURED, LAUNCH, OUTPUT, recording

# A process is run with rights of its own as this user.
OTHER_USER = "nobody"
MODES = [0o600, 0o640, 0o644, 0o755, 0o711, 0o500, 0o400]


def shown(mode):
    return f"mode {mode:04o}"


def shown_content(content):
    return "no file" if content is None else "a file"


def mode_of(path):
    return stat.S_IMODE(os.stat(path).st_mode)


def all_names(folder):
    """The paths of all files and links below a folder."""
    found = [os.path.join(place, name) for place, _, names in os.walk(folder.path) for name in names]
    return sorted(os.path.relpath(path, folder.path) for path in found)


def updated(report, name, links, named, target, old):
    """Updates a file through links, each with the path that it contains, and tests that only the last file is another one."""
    with Folder(session=CONFIGURATION) as folder:
        for path in ("one", "two", "one/deep"):
            os.mkdir(folder.at(path))
        for path, content in links.items():
            os.symlink(content, folder.at(path))
        if old is not None:
            folder.write(target, old)
        answer = folder.run("golden", "--update", named, "session")
        report.check(f"{name} over {shown_content(old)}: the run ends well", answer == wrote(CONFIGURED, named), repr(answer))
        report.check(f"{name} over {shown_content(old)}: the last file is replaced", folder.read(target) == NORMAL and not os.path.islink(folder.at(target)))
        left = {path: os.readlink(folder.at(path)) for path in links if os.path.islink(folder.at(path))}
        report.check(f"{name} over {shown_content(old)}: the links stay", left == links, repr(left))
        names, wanted = all_names(folder), {"session", *links, os.path.relpath(folder.at(target), folder.path)}
        report.check(f"{name} over {shown_content(old)}: there is no other file", set(names) == {it for it in wanted if not it.startswith("..")}, repr(names))


def links(report):
    """A link is followed from its own folder, and links may lead to links."""
    chain = {"first": "one/second", "one/second": "deep/third", "one/deep/third": "../../two/fourth", "two/fourth": "../one/g"}
    long_chain = {f"link{number}": f"link{number + 1}" for number in range(39)}
    for old in (None, OLD):
        updated(report, "a link in another folder", {"one/link": "g"}, "one/link", "one/g", old)
        updated(report, "a link to a file in another folder", {"one/link": "../two/g"}, "one/link", "two/g", old)
        updated(report, "a link with a folder inside its own", {"one/link": "deep/g"}, "one/link", "one/deep/g", old)
        updated(report, "a link to a link", {"link": "other", "other": "g"}, "link", "g", old)
        updated(report, "links through folders", chain, "first", "one/g", old)
        updated(report, "forty links", {**long_chain, "link39": "g"}, "link0", "g", old)
        with Folder() as other:
            updated(report, "a link with an absolute path", {"one/link": "../two/far", "two/far": other.at("g")}, "one/link", other.at("g"), old)


def modes(report):
    """A file that is replaced keeps its permissions."""
    for mode in MODES:
        for words in (["golden", "--update", "g", "session"], ["normalise", "session", "-o", "g"]):
            with Folder(session=CONFIGURATION, g=OLD) as folder:
                os.chmod(folder.at("g"), mode)
                status = folder.run(*words)[0]
                found = mode_of(folder.at("g"))
                report.check(f"{words[0]} over a file of {shown(mode)}", status == 0 and found == mode, repr((status, shown(found))))
                os.chmod(folder.at("g"), 0o600)
                report.check(f"{words[0]} over a file of {shown(mode)} replaces it", folder.read("g") == NORMAL)


def run_under(shim, folder, *words, **asked):
    """Runs the program under the shim, and returns its status, its output and its errors."""
    environment = {f"FAULT_INJECTION_{name.upper()}": str(value) for name, value in asked.items()}
    ran = subprocess.run(
        ["dapnorm", *words], executable=PROGRAM, capture_output=True, cwd=folder.path, timeout=120, env={"LD_PRELOAD": shim, **environment},
    )
    return ran.returncode, ran.stdout, ran.stderr


def temporary_files(report, shim):
    """The temporary file is in the folder of the file. Only the user may read it until it has the permissions of the old file."""
    for mode in (0o640, 0o755, 0o400):
        def killed_at(number, mode=mode):
            with Folder(session=CONFIGURATION) as folder:
                for name in ("one", "two"):
                    os.mkdir(folder.at(name))
                os.symlink("../two/g", folder.at("one/link"))
                folder.write("two/g", OLD)
                os.chmod(folder.at("two/g"), mode)
                run_under(shim, folder, "golden", "--update", "one/link", "session", killed_at=number)
                left = [name for name in all_names(folder) if name not in ("session", "one/link", "two/g")]
                return left, [mode_of(folder.at(name)) for name in left]

        runs = [run for run in side_by_side(killed_at, range(1, 40)) if run[0]]
        named = all(len(left) == 1 and left[0].startswith("two/.g.dapnorm-") for left, _ in runs)
        report.check(f"{shown(mode)}: a killed run leaves a temporary file in the folder of the file", len(runs) > 3 and named, repr(runs))
        found = [shown(modes[0]) for _, modes in runs]
        report.check(f"{shown(mode)}: the first temporary file is one that only the user may read", found[:1] == [shown(0o600)], repr(found))
        report.check(f"{shown(mode)}: then it has the permissions of the old file", set(found) == {shown(0o600), shown(mode)}, repr(found))


def new_files(report, shim):
    """A file that did not exist is whole, or does not exist, if the process is killed at each of its calls and what is not synced is lost."""
    def killed_at(number):
        with Folder(session=CONFIGURATION) as folder:
            os.mkdir(folder.at("one"))
            status, output, _ = run_under(shim, folder, "golden", "--update", "one/g", "session", killed_at=number, loses=1)
            return status, output, folder.read("one/g")

    runs = side_by_side(killed_at, range(1, 40))
    report.check("a last run makes the new file", runs[-1] == (0, wrote(CONFIGURED, "one/g")[1], NORMAL), repr(runs[-1]))
    for number, (status, output, content) in enumerate(runs, 1):
        is_right = content == NORMAL or content is None and status != 0
        report.check(f"a new file is whole, or there is none, in a run that is killed at call {number}", is_right, repr((status, output, content)))


def unreadable(report, shim):
    """A golden file that cannot be read is not one that does not exist."""
    for words in (["golden", "g", "session"], ["golden", "--update", "g", "session"]):
        def failed_at(number, words=words):
            with Folder(session=CONFIGURATION, g=OLD) as folder:
                return (*run_under(shim, folder, *words, fails_at=number), folder.read("g"))

        runs = side_by_side(failed_at, range(1, 30))
        report.check(f"{words}: a read of the golden file fails", sum(b"g: read fault" in errors for _, _, errors, _ in runs) > 1)
        for number, (status, output, errors, content) in enumerate(runs, 1):
            report.check(f"{words}: call {number} that fails hides no file", b"does not exist" not in errors, repr(errors))
            is_whole = content == OLD or "--update" in words and content == NORMAL
            report.check(f"{words}: call {number} that fails loses nothing", is_whole, repr((status, output, content)))
    by_another_user(report)


def by_another_user(report):
    """A user without the right to read the golden file, in a folder in which the user may make files."""
    try:
        user = pwd.getpwnam(OTHER_USER)
    except KeyError:
        user = None
    if os.geteuid() != 0 or user is None:
        print("a file that another user may not read is not tried: that needs root", flush=True)
        return

    def become():
        os.setgroups([])
        os.setgid(user.pw_gid)
        os.setuid(user.pw_uid)

    with Folder(session=CONFIGURATION, g=OLD) as folder:
        program = folder.at("program")
        shutil.copyfile(PROGRAM, program)
        for path, mode in ((folder.path, 0o777), (program, 0o755), (folder.at("session"), 0o644), (folder.at("g"), 0o600)):
            os.chmod(path, mode)
        for words in (["golden", "g", "session"], ["golden", "--update", "g", "session"]):
            ran = subprocess.run(["dapnorm", *words], executable=program, capture_output=True, cwd=folder.path, preexec_fn=become, timeout=120)
            first = ran.stderr.splitlines(keepends=True)[:1]
            report.check(f"{words} by another user", (ran.returncode, first) == (4, [golden_refusal("g: read fault")]), repr((ran.returncode, ran.stderr)))
            report.check(f"{words} by another user: the reason", b"  g: Permission denied" in ran.stderr, repr(ran.stderr))
            report.check(f"{words} by another user: nothing is lost", folder.read("g") == OLD and folder.names() == ["g", "program", "session"])
        ran = subprocess.run(
            ["dapnorm", "normalise", "session", "-o", "g"], executable=program, capture_output=True, cwd=folder.path, preexec_fn=become, timeout=120,
        )
        report.check("an output that cannot be read is replaced", ran.returncode == 0 and folder.read("g") == NORMAL, repr(ran.stderr))
        report.check("it keeps its permissions", mode_of(folder.at("g")) == 0o600, shown(mode_of(folder.at("g"))))


def two_failures(report, shim):
    """Two calls on files fail, such as a write and then the removal of the temporary file. The reason of the first is reported."""
    def failed_at(case):
        first, second = case
        with Folder(session=CONFIGURATION, g=OLD) as folder:
            answer = run_under(shim, folder, "golden", "--update", "g", "session", fails_at=first, fails_again_at=second)
            return (*answer, folder.read("g"), [name for name in folder.names() if name not in ("g", "session")])

    cases = [(first, first + more) for first in range(1, 30) for more in (1, 2, 3)]
    runs = side_by_side(failed_at, cases)
    for (first, second), (status, output, errors, content, left) in zip(cases, runs):
        told = f"calls {first} and {second} fail"
        report.check(f"{told}: the golden file is the old or the new one", content in (OLD, NORMAL), repr(content))
        report.check(f"{told}: the status says so", status == 4 or (status, content) == (0, NORMAL), repr((status, output, errors)))
        if left:
            report.check(f"{told}: a temporary file is left, and the run fails", status == 4 and content == OLD, repr((status, left)))
            is_first = b"Input/output error" in errors and b"Permission denied" not in errors
            report.check(f"{told}: the reason is that of the first failure", is_first, repr(errors))
            report.check(f"{told}: a line says that a file is left", b"  g: a temporary file is left in its folder\n" in errors, repr(errors))
    count = sum(bool(left) for *_, left in runs)
    report.check("a removal fails after a write, a look at the owner, a change of permissions, a sync and a rename that failed", count == 5, repr(count))


def owners(report, shim):
    """The owner or the group of a file cannot be set, or the process ends there: the group of the new file has permissions only if it is that of
    the old one."""
    if os.geteuid() != 0:
        print("owners that cannot be set are not tried: that needs root", flush=True)
        return

    def ended_at(asked):
        with Folder(session=CONFIGURATION, g=OLD) as folder:
            os.chown(folder.at("g"), 1234, 2345)
            os.chmod(folder.at("g"), 0o664)
            answer = run_under(shim, folder, "golden", "--update", "g", "session", **asked)
            found = os.stat(folder.at("g"))
            return (*answer, folder.read("g"), (found.st_uid, found.st_gid, stat.S_IMODE(found.st_mode)))

    cases = [{how: number} for how in ("killed_at", "fails_at") for number in range(1, 50)]
    cases += [{"fails_at": number, "fails_again_at": number + 1} for number in range(1, 50)]
    runs = side_by_side(ended_at, cases)
    for asked, (status, _, errors, content, attributes) in zip(cases, runs):
        kept = [(1234, 2345, 0o664)] if content == OLD else [(1234, 2345, 0o664), (0, 2345, 0o664), (0, 0, 0o604)]
        report.check(f"a file of another user, {asked}", content in (OLD, NORMAL) and attributes in kept, repr((status, errors, content, attributes)))
    written = {attributes for status, _, _, _, attributes in runs if status == 0}
    report.check("the owner or the group is not set in some runs that end well", len(written) == 3, repr(written))


def long_inputs(report):
    """An input that is read in several chunks is explained from its first byte on."""
    events = 3000
    given = recording([*BEGUN, *[OUTPUT] * events, LAUNCH % "0.5"])
    assert len(given) > 3 * 65536, len(given)
    place = f"record {len(BEGUN) + events + 1}"
    for words in (["check", "--explain"], ["normalise", "--explain"], ["golden", "--update", "g"]):
        for names, piped in ((["session"], b""), ([], given)):
            with Folder(session=given) as folder:
                ran = subprocess.run([PROGRAM, *words, *names], input=piped, capture_output=True, cwd=folder.path, timeout=120)
                lines = ran.stderr.decode().splitlines()
                told = f"{words} of {len(given)} bytes {'in a file' if names else 'in a pipe'}"
                report.check(f"{told}: the refusal", ran.returncode == 2 and lines[:1] and lines[0].endswith(f"{place}: Fraction"), repr(lines[:1]))
                report.check(f"{told}: its record is explained", f'  {place} is > request "launch"' in lines, repr(lines))


def main():
    report = Report()
    if not report.check("the gate has built the program", os.access(PROGRAM, os.X_OK)):
        return report.close()
    for test in (links, modes, long_inputs):
        test(report)
    with tempfile.TemporaryDirectory() as folder:
        shim = build_shim(folder)
        for test in (temporary_files, new_files, unreadable, two_failures, owners):
            test(report, shim)
    return report.close()


if __name__ == "__main__":
    sys.exit(main())
