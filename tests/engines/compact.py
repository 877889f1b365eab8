"""What `compact` answers and what has gone out if a device fails."""
import sys

from tests.engines.driver import Asked, Call, Input, Output, run_tests
from tests.engines.inputs import CANONICAL, LOOSE
from tests.program.worked_runs import frame


def compact(text, output=Output(), **how):
    return Call("compact", Input(text, **how), output=output)


def a_reader_that_fails(report):
    asked = Asked(report, "a reader that fails")
    for place in range(38):
        asked.ask(compact(LOOSE, Output(piece=5), piece=5, fails_at=place), "Err(ReadFault)", b"", flushes=0)
    asked.close()


def a_refusal_comes_before_a_reader_that_fails(report):
    asked = Asked(report, "a refusal before a reader that fails")
    asked.ask(compact(frame("1.5"), fails_at=24), "Err(Fraction(1))", b"")
    asked.close()


def a_writer_that_fails(report):
    asked = Asked(report, "a writer that fails")
    for place in range(35):
        for takes_nothing in (False, True):
            output = Output(piece=3, fails_at=place, takes_nothing=takes_nothing)
            asked.ask(compact(LOOSE, output), "Err(WriteFault)", CANONICAL[:place])
    asked.close()


def a_flush_that_fails(report):
    asked = Asked(report, "a flush that fails")
    asked.ask(compact(LOOSE, Output(fails_to_flush=True)), "Err(WriteFault)", CANONICAL)
    asked.close()


def a_cut_at_each_place(report):
    asked = Asked(report, "a cut at each place")
    report.check("the frames have 37 and 35 bytes", (len(LOOSE), len(CANONICAL)) == (37, 35))
    for place in range(1, 37):
        asked.ask(compact(LOOSE[:place]), "Err(Record(1, Cut))", b"")
    asked.close()


TESTS = [a_reader_that_fails, a_refusal_comes_before_a_reader_that_fails, a_writer_that_fails, a_flush_that_fails, a_cut_at_each_place]

if __name__ == "__main__":
    sys.exit(run_tests(TESTS))
