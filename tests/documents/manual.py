"""Checks that the man page and the completions name each command, option and status, that the completions work in the shells that are
installed, and what `make install` and `make uninstall` do."""
import glob
import os
import pty
import re
import select
import shutil
import subprocess
import sys
import tempfile
import time

from tests.report import PROGRAM, TOP, Report, run

MANUAL = os.path.join(TOP, "docs", "dapnorm.1")
COMPLETIONS = {shell: os.path.join(TOP, "completions", name) for shell, name in (("bash", "dapnorm.bash"), ("zsh", "_dapnorm"), ("fish", "dapnorm.fish"))}
INSTALLED = {
    "bin/dapnorm": 0o755, "share/man/man1/dapnorm.1": 0o644, "share/bash-completion/completions/dapnorm": 0o644,
    "share/zsh/site-functions/_dapnorm": 0o644, "share/fish/vendor_completions.d/dapnorm.fish": 0o644,
    **{f"share/dapnorm/docs/{it}.md": 0o644 for it in ("COMMANDS", "ERRORS", "FORMATS", "GLOSSARY", "HOWTO", "IDS", "NORMAL-FORM", "PROFILE", "RULES", "TUTORIAL")},
    "share/dapnorm/docs/session.svg": 0o644,
    **{f"share/dapnorm/examples/{it}": 0o644 for it in ("README.md", "program.py", "session.rules", "golden_test.py")},
    **{f"share/dapnorm/examples/{it}.py": 0o644 for it in ("trace_tee", "trace_proxy", "from_debugpy_log", "from_lldb_log")},
    **{f"share/dapnorm/examples/{it}.sh": 0o755 for it in ("golden", "ci", "git_setup")},
    **{f"share/dapnorm/examples/rules/{it}.rules": 0o644 for it in ("debugpy", "delve", "lldb", "perl", "rdbg")},
    **{f"lib/python3/dist-packages/dapnorm/{os.path.basename(it)}": 0o644 for it in glob.glob(os.path.join(TOP, "python", "dapnorm", "*.py"))},
    "lib/python3/dist-packages/dapnorm/py.typed": 0o644,
    **{f"lib/python3/dist-packages/dapnorm-0.1.0.dist-info/{it}": 0o644 for it in ("METADATA", "entry_points.txt")},
}


def read(*path):
    with open(os.path.join(TOP, *path), encoding="utf-8") as file:
        return file.read()


def told_by_program():
    """The commands, with the long options of each, as the program's help has them, and the statuses, as the code has them. `help` is clap's own."""
    listed = run(["--help"])[1].decode().split("Options:")[0]
    commands = {name: [] for name in re.findall(r"^  (\w+)  ", listed, re.MULTILINE)}
    for name in commands.keys() - {"help"}:
        options = run([name, "--help"])[1].decode().split("Options:")[1]
        commands[name] = [option for option in re.findall(r"^ +(?:-\w, |)--([\w-]+)", options, re.MULTILINE) if option != "help"]
    statuses = re.findall(r"^pub\(crate\) const \w+: u8 = (\d+);", read("crates", "dapnorm", "src", "reporting.rt"), re.MULTILINE)
    return commands, statuses


def manual(report, commands, statuses):
    text = read("docs", "dapnorm.1")
    for command, options in commands.items():
        report.check(f"the synopsis has {command}", re.search(rf"^\.Nm\n\.Cm {command}$", text, re.MULTILINE))
        report.check(f"the man page explains {command}", re.search(rf"^\.It Cm {command}$", text, re.MULTILINE))
        for option in options:
            report.check(f"the man page explains --{option}", re.search(rf"^\.It Fl (?:\w , )?-{option}(?: Ar \S+)?$", text, re.MULTILINE))
    report.check("the man page explains --help", ".It Fl h , -help" in text)
    report.check("the man page explains --version", ".It Fl V , -version" in text)
    listed = re.findall(r"^\.It (\d+)$", text, re.MULTILINE)
    report.check("the man page has the statuses", sorted(listed) == sorted(statuses), repr((listed, statuses)))
    for tool, words in (("mandoc", ["mandoc", "-T", "lint", MANUAL]), ("man", ["man", "--warnings", "-l", MANUAL])):
        if shutil.which(tool):
            ran = subprocess.run(words, capture_output=True, text=True, env={**os.environ, "MANPAGER": "cat"})
            found = ran.stderr if tool == "man" else ran.stdout + ran.stderr
            report.check(f"{tool} finds nothing wrong", (ran.returncode, found) == (0, ""), found)


def complete_bash(words):
    script = 'source "$1"; shift; COMP_WORDS=("$@"); COMP_CWORD=$(($# - 1)); _dapnorm; printf "%s\\n" "${COMPREPLY[@]}"'
    ran = subprocess.run(["bash", "-c", script, "bash", COMPLETIONS["bash"], *words], capture_output=True, text=True, check=True)
    return ran.stdout.split()


def complete_fish(words):
    script = "source $argv[1]; complete -C $argv[2]"
    ran = subprocess.run(["fish", "--no-config", "-c", script, COMPLETIONS["fish"], " ".join(words)], capture_output=True, text=True, check=True)
    return [line.split("\t")[0] for line in ran.stdout.splitlines()]


def read_until(terminal, mark, seconds=30):
    """What a terminal shows up to a mark, or up to the time at which one stops waiting."""
    shown, end = b"", time.monotonic() + seconds
    while mark not in shown and time.monotonic() < end:
        if select.select([terminal], [], [], 0.2)[0]:
            shown += os.read(terminal, 65536)
    return shown.decode(errors="replace")


def complete_zsh(words):
    """The words that zsh adds, at a terminal, since its completion works nowhere else. Each is shown by `compadd -O` and its own mark."""
    setup = (
        f"PS1=; fpath=({os.path.dirname(COMPLETIONS['zsh'])} $fpath); autoload -Uz compinit; compinit -D -u; bindkey '^I' complete-word\n"
        "compadd() { local -a all; builtin compadd -O all \"$@\"; print -rn -- \"[${(j:][:)all}]\"; builtin compadd \"$@\" }\n"
        "finish() { print -n E\"\"ND }; zle -N finish; bindkey '^T' finish; print R\"\"EADY\n"
    )
    environment = {"PATH": os.environ["PATH"], "TERM": "dumb", "HOME": "/nonexistent", "ZDOTDIR": "/nonexistent"}
    child, terminal = pty.fork()
    if child == 0:
        os.chdir(TOP)
        os.execvpe("zsh", ["zsh", "-f", "-i"], environment)
    os.write(terminal, setup.encode())
    read_until(terminal, b"READY")
    os.write(terminal, (" ".join(words) + "\t\x14").encode())
    shown = read_until(terminal, b"END")
    os.close(terminal)
    os.waitpid(child, 0)
    return re.findall(r"\[([\w.-]+)(?=\])", shown)


COMPLETE = {"bash": complete_bash, "zsh": complete_zsh, "fish": complete_fish}


def completions(report, commands):
    names = sorted(commands)
    with_c = sorted(name for name in commands if name.startswith("c"))
    for shell, complete in COMPLETE.items():
        if not shutil.which(shell):
            print(f"{shell} is not installed: its completions are not tried", flush=True)
            continue
        offered = [it for it in complete(["dapnorm", ""]) if not it.startswith("-")]
        report.check(f"{shell} offers the commands", sorted(set(offered)) == names, repr(offered))
        if shell != "zsh":
            offered = {it for it in complete(["dapnorm", "--"]) if it.startswith("--")}
            report.check(f"{shell} offers the options of the program", offered == {"--help", "--version"}, repr(offered))
        offered = complete(["dapnorm", "c"])
        report.check(f"{shell} offers those that begin so", sorted(set(offered)) == with_c, repr(offered))
        for command, options in commands.items():
            if command == "help":
                continue
            offered = {it for it in complete(["dapnorm", command, "--"]) if it.startswith("--")}
            report.check(f"{shell} offers the options of {command}", offered == {"--help", *(f"--{it}" for it in options)}, repr(offered))
        offered = complete(["dapnorm", "compare", "READ"])
        report.check(f"{shell} offers files to compare", sorted(set(offered)) == ["README.md"], repr(offered))
        offered = complete(["dapnorm", "help", "c"])
        report.check(f"{shell} offers commands to help", sorted(set(offered)) == with_c, repr(offered))


def made(words):
    return subprocess.run(["make", "-C", TOP, "--no-print-directory", *words], capture_output=True, text=True)


def below(folder):
    """The files below a folder, with their modes."""
    return {os.path.relpath(os.path.join(at, name), folder): os.stat(os.path.join(at, name)).st_mode & 0o777 for at, _, names in os.walk(folder) for name in names}


def links(report, folder):
    """Each link of an installed document leads to an installed file."""
    for path in sorted(glob.glob(os.path.join(folder, "**", "*.md"), recursive=True)):
        for target in re.findall(r"\]\((?!https?:|#)([^)#]+)", read(path)):
            report.check(f"the installed {os.path.basename(path)} leads to {target}", os.path.exists(os.path.join(os.path.dirname(path), target)))


def installed_kit(report, prefix):
    """The installed Python package is found by Python and by pytest, and the installed recorder runs."""
    place = os.path.join(prefix, "lib", "python3", "dist-packages")
    environment = {**os.environ, "PYTHONPATH": place}
    code = "import dapnorm, importlib.metadata as m; print(dapnorm.__file__, m.version('dapnorm'), *(it.value for it in m.distribution('dapnorm').entry_points))"
    ran = subprocess.run([sys.executable, "-c", code], capture_output=True, text=True, env=environment)
    wanted = f"{os.path.join(place, 'dapnorm', '__init__.py')} 0.1.0 dapnorm.pytest_plugin\n"
    report.check("the installed Python package is found", ran.stdout == wanted, ran.stdout + ran.stderr)
    words = [sys.executable, os.path.join(prefix, "share", "dapnorm", "examples", "trace_tee.py"), os.devnull, "sh", "-c", "exit 5"]
    ran = subprocess.run(words, capture_output=True, text=True, stdin=subprocess.DEVNULL)
    report.check("the installed recorder runs", (ran.returncode, ran.stderr) == (5, ""), ran.stderr)


def hints(report, folder, program):
    """`make install` says how Python finds the package, if it does not look there."""
    prefix = os.path.join(folder, "home")
    ran = made(["install", f"PROGRAM={program}", f"PREFIX={prefix}", "DESTDIR="])
    place = os.path.join(prefix, "lib", "python3", "dist-packages")
    report.check("make install says how Python finds the package", f"export PYTHONPATH={place}" in ran.stdout, ran.stdout)
    ran = subprocess.run(["make", "-C", TOP, "install", f"PROGRAM={program}", f"PREFIX={prefix}", "DESTDIR="], capture_output=True, text=True, env={**os.environ, "PYTHONPATH": place})
    report.check("and does not, if it looks there", "PYTHONPATH" not in ran.stdout and ran.returncode == 0, ran.stdout)


def install(report):
    """Into a folder of its own, with a file in the place of the program, so that nothing is built."""
    with tempfile.TemporaryDirectory() as folder:
        program, staged = os.path.join(folder, "program"), os.path.join(folder, "a stage")
        with open(program, "w", encoding="utf-8") as file:
            file.write("#!/bin/sh\n")
        words = [f"PROGRAM={program}", f"DESTDIR={staged}", "PREFIX=/opt/dapnorm"]
        ran = made(["install", *words])
        prefix = os.path.join(staged, "opt", "dapnorm")
        report.check("make install ends well", ran.returncode == 0, ran.stderr)
        report.check("it installs the program and what belongs to it", below(staged) == {f"opt/dapnorm/{it}": mode for it, mode in INSTALLED.items()}, repr(below(staged)))
        links(report, os.path.join(prefix, "share", "dapnorm"))
        installed_kit(report, prefix)
        with open(os.path.join(prefix, "other"), "w", encoding="utf-8"):
            pass
        ran = made(["uninstall", *words])
        report.check("make uninstall ends well", ran.returncode == 0, ran.stderr)
        report.check("it removes these alone", list(below(staged)) == ["opt/dapnorm/other"], repr(below(staged)))
        report.check("it removes the folder of the guides and examples", not os.path.exists(os.path.join(prefix, "share", "dapnorm")))
        report.check("it removes the folder of the Python package", sorted(os.listdir(prefix + "/lib/python3/dist-packages")) == [])
        report.check("make uninstall again ends well", made(["uninstall", *words]).returncode == 0)
        hints(report, folder, program)


def main():
    os.chdir(TOP)
    report = Report()
    if not report.check("the gate has built the program", os.access(PROGRAM, os.X_OK)):
        return report.close()
    commands, statuses = told_by_program()
    report.check("there are commands and statuses", len(commands) > 5 and len(statuses) > 5, repr((commands, statuses)))
    manual(report, commands, statuses)
    completions(report, commands)
    install(report)
    return report.close()


if __name__ == "__main__":
    sys.exit(main())
