"""The script of `make mutants`: what it reads in sources and outputs, the flow of a run over recorded outputs, and one real round."""
import contextlib
import datetime
import io
import os
import re
import signal
import subprocess
import sys
import tempfile
import time

from tests.report import TOP, Report

sys.dont_write_bytecode = True
# before this folder, which has a mutants.py too
sys.path.insert(0, os.path.join(TOP, "scripts"))
import kit
import mutants
import mutation_record
import mutation_rounds
import mutation_scratch
import mutation_source

SOURCE = """\
#![tactic(auto)]
ghost use Rattle.std.specs.Prelude.{◌≡◌};

/// Returns its number.
pub fn first(a: u64) -> u64
    ensures same { result ≡ a }
{
    second(a)
}

/// Returns its number.
pub fn second(a: u64) -> u64
    ensures { result ≡ a }
{
    let copy = a;
    copy
}

/// Returns a number.
pub fn weak(a: u64) -> u64 {
    a / 2
}
"""
SHAPES = """\
use std::fmt;

impl<T: Fn(u8) -> u8> Pairs<T> {
    pub fn of(&self) -> u8 {
        self.list.iter().map(|it| { it + 1 }).sum()
    }
}

impl<'a, T> From<AllocError> for Pairs<T>
where
    T: Copy,
{
    fn from(_: AllocError) -> Self {
        Pairs { list: 1 }
    }
}

mod inner {
    pub trait Sized {
        fn size(&self) -> u8
            ensures { result ≡ 1 };

        fn twice(&self) -> u8 {
            2
        }
    }

    #[cycle(ring)]
    pub(crate) fn odd() -> bool {
        even()
    }

    #[cycle(ring)]
    fn even() -> bool {
        odd()
    }
}
"""
# the edits of a crate `tiny`, and those of them that a real prover tries
EDITS = {
    "must-fail/wrong_first": ("second(a)", "second(a) / 2"),
    "mutants/calls_first": ("second(a)", "second(a) + 0"),
    "mutants/gone": ("third(a)", "first(a)"),
    "mutants/unread_second": ("let copy = a;", "let copy = unread;"),
    "mutants/weak": ("a / 2", "a / 3"),
    "mutants/wrong_second": ("let copy = a;", "let copy = a / 5;"),
}
# the functions for which the checks of a whole run ask: `weak` is not found, an edit of `second` is not read, and a caller of a function
# that is refused is tried again without it
ASKED = [["first"], ["first"], ["first", "second"], ["first", "second", "weak"], ["second"], ["second", "weak"], ["weak"]]
REAL = ["must-fail/wrong_first", "mutants/wrong_second"]
LINES = """\
tiny/calls_first (mutants): refused, tried alone: note: src/lib.rt:1:1: a note
tiny/gone (mutants): FAILED: BAD EDIT: an 'old:' text is in src/lib.rt 0 times, and not once
tiny/unread_second (mutants): FAILED: BAD EDIT: the prover cannot read the edited text, so no contract was tried: \
src/lib.rt:15:5: error: no `unread`
tiny/weak (mutants): FAILED: NOT REFUSED: the crate is still proved with this edit
tiny/wrong_first (must-fail): refused by first: src/lib.rt:8:5: it is not proved that what the function ensures holds
tiny/wrong_second (mutants): refused by second: src/lib.rt:8:5: it is not proved that what the function ensures holds
""".splitlines()
OUTPUT = """\
./proofs/listed/Lists/swap/Answers.antt:9:5: error: `returns`: as printed, the two types first differ
./proofs/listed/named/Answers.antt:4:9: error: `returns`: record `Start` has no field `found`
struct low::listed::Lists: proved
note: src/listed.rt:88:5: it is not proved that what the function ensures holds when it returns (`returns`)
note: a goal may be false even if its line does not say so
fn low::listed::ListsOrdered::len: no proof: expected answers in ./proofs/x/Answers.antt; `search` did not prove `returns`; \
it calls `low::listed::named`, which is not proved
fn low::listed::above: no proof: it calls `low::listed::ListsOrdered::len`, which is not proved
fn low::listed::Lists::swap: not proved; it calls `low::a` and `low::b`, which are not proved
fn low::listed::named: not proved
fn low::listed::below: not proved; in `low::listed::ring`, of this cycle of calls: it calls `low::a`, which is not proved
fn low::listed::clean: proved
note: src/listed.rt:9:9: it is not proved that the sum fits (`add-requires`)
fn low::listed::fn::clean::map: no proof: expected answers in ./proofs/y/Answers.antt; `search` did not prove `add-requires`
impl low::listed::ListsOrdered: not proved; it waits for the proof of `len`
logic=not-proved
"""


def of_sources(report, rattle):
    """Functions of a file, by its tokens, and which of them an edit changes."""
    found = mutation_source.read_texts(rattle, {"src/shapes.rt": SHAPES})["src/shapes.rt"]
    names = [(it.module, it.owner, it.trait, it.arguments, it.name, it.cycle) for it, _ in found.bodies]
    wanted = [
        ("shapes", "Pairs", "", "", "of", ""),
        ("shapes", "Pairs", "From", "AllocError", "from", ""),
        ("shapes::inner", "Sized", "", "", "twice", ""),
        ("shapes::inner", "", "", "", "odd", "ring"),
        ("shapes::inner", "", "", "", "even", "ring"),
    ]
    report.check("functions of a file", names == wanted, repr(names))
    odd, even = [it for it, _ in found.bodies][3:]
    report.check("a cycle of calls is one", odd.unit() == even.unit() and odd != even)

    def changed(old, new):
        texts = {"src/shapes.rt": SHAPES}
        got = mutation_source.changed_functions(rattle, texts, {it: text.replace(old, new) for it, text in texts.items()})
        return got and [it.name for it in got]

    report.check("a body changed", changed("it + 1", "it + 2") == ["of"])
    report.check("two bodies changed", changed("list", "rest") == ["of", "from"])
    report.check("a comment changed", changed("use std::fmt;", "use std::fmt; // yes") == [])
    report.check("an import changed", changed("std::fmt", "std::io") is None)
    report.check("a contract changed", changed("result ≡ 1", "result ≡ 2") is None)
    report.check("a function added", changed("    fn even", "    fn more() {}\n    fn even") is None)
    report.check("a text that is not read", changed("it + 1", '"') is None)
    pairs = [it for it, _ in found.bodies][1]
    paths = ["low::shapes::PairsFromInvalid::from", "low::shapes::PairsFromAllocError::from", "low::shapes::Pairs::of"]
    report.check("the path of an impl's function", pairs.printed("low", paths) == paths[1], str(pairs.printed("low", paths)))
    of_type = [it for it, _ in found.bodies][0]
    report.check("the path of a method", of_type.printed("low", paths) == paths[2])
    fixed = ["low::shapes::Pairs+Table+u8::of"]
    report.check("the path of a method at a type", of_type.printed("low", fixed) == fixed[0])
    other = ["low::pairs::inner::Pairs::of", "low::pairs::MorePairs::of"]
    report.check("the path of a method whose type is elsewhere", of_type.printed("low", other) == other[0])
    report.check("two methods of a name", of_type.printed("low", paths + fixed) is None)
    report.check("no path", odd.printed("low", paths) is None)
    asked = [it.path() for it, _ in found.bodies]
    wanted = ["shapes::Pairs::of", "shapes::PairsFromAllocError::from"]
    wanted += ["shapes::inner::Sized::twice", "shapes::inner::odd", "shapes::inner::even"]
    report.check("the paths that a check is asked for", asked == wanted, repr(asked))


def of_outputs(report):
    """What a check printed: a reason of the function's own, or only one through another."""
    output = mutation_rounds.Output(OUTPUT)

    def reason(name, cycle=""):
        return output.own_reason(f"low::listed::{name}", cycle)

    own = reason("ListsOrdered::len")
    report.check("its own goal", own.startswith("src/listed.rt:88:5: it is not proved"), own)
    report.check("only through another", reason("above") == "")
    report.check("its own proof file", "Lists/swap/Answers.antt:9:5" in reason("Lists::swap"))
    report.check("a proof file that names", reason("named").startswith(f"({mutation_rounds.SAYS_LITTLE})"))
    report.check("through a cycle", reason("below", "ring") == "")
    report.check("its closure", "add-requires" in reason("clean"))
    report.check("a function that is not printed", reason("none") == "")
    named = [("Lists", "Ordered", "len"), ("Lists", "", "swap"), ("", "", "named"), ("", "", "clean")]
    changed = [mutation_source.Function("listed", owner, trait, "", name, "") for owner, trait, name in named]
    for count, strays in ((4, []), (3, ["low::listed::clean", "low::listed::fn::clean::map"])):
        edit = mutation_rounds.Edit("low", "mutants", "x.edit", {}, None, changed[:count])
        report.check("refused with no edit", output.strays([edit]) == strays, repr(output.strays([edit])))


def of_rounds(report):
    """At most one edit for each function in a round."""

    def edit(name, *functions):
        made = [mutation_source.Function("m", "", "", "", it, "") for it in functions]
        return mutation_rounds.Edit("low", "mutants", f"{name}.edit", {}, None, made)

    edits = [edit("a", "f"), edit("b", "f", "g"), edit("c", "g"), edit("d", "f"), edit("e", "h")]
    rounds = [[it.label()[4] for it in chosen] for chosen in mutation_rounds.in_rounds(edits)]
    report.check("rounds", rounds == [["a", "c", "e"], ["b"], ["d"]], repr(rounds))


def repository(folder, names):
    """Writes a repository of one crate with these edits."""
    files = {"crates.txt": "tiny:\n", "crates/tiny/src/lib.rt": SOURCE}
    for name in names:
        old, new = EDITS[name]
        files[f"crates/tiny/{name}.edit"] = f"file: src/lib.rt\nold: {old}\nnew: {new}\n"
    for path, text in files.items():
        os.makedirs(os.path.dirname(os.path.join(folder, path)), exist_ok=True)
        with open(os.path.join(folder, path), "w", encoding="utf-8") as file:
            file.write(text)


class Recorded(mutation_scratch.Scratch):
    """A scratch copy whose prover is a table: it refuses what the edits' names say. It does not find the function `weak` by its name."""

    asked: list = []

    def check(self, crate, texts, flags, kept):
        asked = [word for flag, word in zip(flags, flags[1:]) if flag == "--only"]
        Recorded.asked.append(sorted(asked))
        if "weak" in asked:
            return subprocess.CompletedProcess([], 2, "rattle: `--only weak` fits no function\n")
        text = texts.get("src/lib.rt", SOURCE)
        if "unread" in text:
            return subprocess.CompletedProcess([], 1, "src/lib.rt:15:5: error: no `unread`\nlogic=not-proved\n")
        said = {"first": "proved", "second": "proved", "weak": "proved"}
        if "second(a) + 0" in text:
            said["first"] = "no proof: it calls `tiny::second`, which is not proved"
        for name, mark in (("first", "second(a) / 2"), ("second", "a / 5")):
            if mark in text:
                said[name] = "no proof: expected answers in ./proofs/x/Answers.antt; `search` did not prove `returns`"
        lines = ["note: src/lib.rt:1:1: a note"] if "+ 0" in text else []
        for name, verdict in said.items():
            lines += ["note: src/lib.rt:8:5: it is not proved that what the function ensures holds"] * ("expected" in verdict)
            lines.append(f"fn tiny::{name}: {verdict}")
        is_proved = all(it == "proved" for it in said.values())
        last = f"only={len(asked)} proved={sum(said[it] == 'proved' for it in asked)}" if asked else "logic="
        lines.append(last if asked else last + ("proved functions=3" if is_proved else "not-proved"))
        return subprocess.CompletedProcess([], 0 if is_proved else 1, "\n".join(lines) + "\n")


def of_a_run(report):
    """A whole run over recorded verdicts: rounds, a round that cannot be read, and edits that are tried alone."""
    with tempfile.TemporaryDirectory() as folder:
        repository(folder, EDITS)
        printed = io.StringIO()
        real, mutants.Scratch = mutants.Scratch, Recorded
        try:
            with contextlib.redirect_stdout(printed):
                status = mutants.run(folder, [], 2)
        finally:
            mutants.Scratch = real
        lines = printed.getvalue().splitlines()
        report.check("status", status == 1)
        report.check("the last line", lines[-1] == "3 passed, 3 failed", lines[-1])
        verdicts = sorted(it for it in lines if it.startswith("tiny/"))
        for line, wanted in zip(verdicts, LINES):
            report.check("a verdict", line.startswith(wanted), f"{line!r} and not {wanted!r}")
        report.check("verdicts", len(verdicts) == len(LINES), str(len(verdicts)))
        report.check("no record of a crate that failed", mutation_record.read(folder) == {})
        rounds = sorted(it for it in Recorded.asked if it)
        report.check("the functions that are asked for", rounds == ASKED, repr(rounds))
        # the crate without edits, a check for each of the three rounds with `weak`, and four of edits alone
        report.check("checks of the whole crate", Recorded.asked.count([]) == 8, repr(Recorded.asked))


def of_a_real_run(report):
    """Two edits refused in one round by the prover, then the record and the table."""
    with tempfile.TemporaryDirectory() as folder:
        repository(folder, REAL)
        printed = io.StringIO()
        with contextlib.redirect_stdout(printed):
            status = mutants.run(folder, ["tiny"], 1)
        lines = printed.getvalue().splitlines()
        report.check("a real run", status == 0 and lines[-1] == "2 passed, 0 failed", repr(lines))
        for name in REAL:
            tier, _, edit = name.partition("/")
            wanted = f"tiny/{edit} ({tier}): refused by {edit[6:]}: "
            report.check("refused in a round", any(it.startswith(wanted) for it in lines), edit)
        report.check("the record", mutation_record.read(folder).get("tiny", {}).get("edits") == 2)
        today = datetime.datetime.now(datetime.timezone.utc).date().isoformat()
        wanted = f"{'tiny':26}{1:10}{1:10}  {today}, today"
        report.check("the table", mutation_record.table(folder)[1] == wanted, repr(mutation_record.table(folder)))
        with open(os.path.join(folder, "crates", "tiny", "src", "lib.rt"), "a", encoding="utf-8") as file:
            file.write("\n")
        report.check("changed since", mutation_record.table(folder)[1] == wanted + ", changed since")


def of_an_interrupt(report):
    """An interrupted run ends its provers, leaves no scratch folder and changes nothing."""
    with tempfile.TemporaryDirectory() as folder, tempfile.TemporaryDirectory() as scratch:
        repository(folder, REAL)
        program = f"import mutants; import sys; sys.exit(mutants.run({folder!r}, [], 1))"
        how = {"env": {**os.environ, "TMPDIR": scratch, "PYTHONPATH": os.path.join(TOP, "scripts")}, "text": True}
        process = subprocess.Popen([sys.executable, "-Bc", program], stdout=subprocess.PIPE, stderr=subprocess.PIPE, **how)
        begun = time.monotonic()
        while time.monotonic() - begun < 60 and not any("edit-" in it for _, folders, _ in os.walk(scratch) for it in folders):
            time.sleep(0.05)
        process.send_signal(signal.SIGINT)
        _, errors = process.communicate(timeout=60)
        report.check("an interrupted run", process.returncode == 130 and errors.startswith("interrupted: "), errors[-300:])
        report.check("no scratch folder", os.listdir(scratch) == [], repr(os.listdir(scratch)))
        files = sorted(os.path.join(path, it) for path, _, names in os.walk(folder) for it in names)
        report.check("no file more", len(files) == len(REAL) + 2, repr(files))


class Built:
    """A crate with a library that is built already."""

    def __init__(self, folder, name, below):
        self.name, self.low = name, below
        self.rlib = os.path.join(folder, "crates", name, "out", "rlib", f"{name}.rlib")

    def below(self):
        return self.low

    def is_built(self):
        return True


def of_libraries(report):
    """The libraries are those of rt, or those of `make` if rt lacks one."""
    with tempfile.TemporaryDirectory() as top:
        of_make = os.path.join(top, "crates", "top", "out", "rlib")
        texts = {os.path.join(of_make, "low.rlib.stamp"): "of make", os.path.join(of_make, "low.rlib", "format"): "made"}
        of_rt = os.path.join(top, "crates", "low", "out", "rlib")
        of_both = {**texts, os.path.join(of_rt, "stamp"): "of rt", os.path.join(of_rt, "low.rlib", "format"): "kept"}
        much = 100 * kit.MEMORY_OF_JOB
        rows = ((["of make", "made"], texts, 2 * kit.MEMORY_OF_JOB), (["of rt", "kept"], of_both, much))
        for wanted, files, need in rows:
            for path, text in files.items():
                os.makedirs(os.path.dirname(path), exist_ok=True)
                with open(path, "w", encoding="utf-8") as file:
                    file.write(text)
            with mutation_scratch.Scratch(top) as scratch:
                low = Built(scratch.folder, "low", [])
                scratch.crates = {"low": low, "top": Built(scratch.folder, "top", [low])}
                scratch.take_libraries(["top"])
                paths = [os.path.join(os.path.dirname(low.rlib), "stamp"), os.path.join(low.rlib, "format")]
                found = [open(path, encoding="utf-8").read() for path in paths]
                report.check(f"the library is that with the stamp {wanted[0]!r}", found == wanted, repr(found))
                scratch.rt.need = lambda crate: much
                report.check(f"the memory of a check over a library {wanted[0]}", scratch.need("top") == need, repr(scratch.need("top")))
                scratch.has_built = True
                report.check("the memory of a check over a library that is built here", scratch.need("top") == much, repr(scratch.need("top")))


def of_words(report):
    """The command line: a crate that is not there."""
    script = os.path.join(TOP, "scripts", "mutants.py")
    ran = subprocess.run([sys.executable, script, "no_such_crate"], capture_output=True, text=True)
    report.check("an unknown crate", ran.returncode == 2 and "crates.txt lists no crate no_such_crate" in ran.stderr, ran.stderr)
    ran = subprocess.run([sys.executable, script, "--table"], capture_output=True, text=True)
    report.check("the table of the repository", ran.returncode == 0 and re.search(r"(?m)^all +\d+ +\d+$", ran.stdout), ran.stdout)


def main():
    report = Report()
    rattle = kit.load().rtlib.RATTLE
    of_sources(report, rattle)
    of_outputs(report)
    of_rounds(report)
    of_a_run(report)
    of_a_real_run(report)
    of_an_interrupt(report)
    of_libraries(report)
    of_words(report)
    return report.close()


if __name__ == "__main__":
    sys.exit(main())
