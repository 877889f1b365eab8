"""Runs golden tests without pytest: python3 -m dapnorm [--update] FILE..

Each function `test_*` of a file runs, with the fixture `dap_session` if it has that parameter. So does each such method of a class `Test*`,
with an object of its own, and each test of a `unittest.TestCase`. A test that needs more, such as other fixtures, is named, and fails.
The status is 0 if all tests pass, and 1 if one fails or if there is none.
"""
from __future__ import annotations

import importlib.util
import inspect
import os
import sys
import traceback
import unittest
from typing import Any, Callable, Iterator, List, Mapping, Optional, Sequence, Tuple, Type

from .errors import GoldenFailed, SessionError
from .golden import DapSession, must_update
from .report import user_frames

Test = Callable[..., Any]
# What pytest calls around the tests of a class.
AROUND = ("__init__", "setup_method", "teardown_method", "setup_class", "teardown_class")


def not_run(why: str) -> Test:
    """A test that fails, since this runner cannot run it."""
    def test() -> None:
        raise GoldenFailed(f"{why} needs pytest, so it was not run", 1)
    return test


def tests_of_class(kind: Type[Any]) -> Iterator[Tuple[str, Test]]:
    """The tests of a class, in their order: of `unittest`, or methods as pytest finds them."""
    is_unittest = issubclass(kind, unittest.TestCase)
    lacking = [] if is_unittest else [it for it in AROUND if getattr(kind, it, None) is not getattr(object, it, None)]
    for name in dict.fromkeys(name for base in reversed(kind.__mro__) for name in vars(base)):
        value = getattr(kind, name)
        if inspect.isclass(value) and name.startswith("Test"):
            yield name, not_run(f"a class in a class, {kind.__name__}.{name},")
        elif not callable(value) or not name.startswith("test" if is_unittest else "test_"):
            continue
        elif lacking:
            yield name, not_run(f"{kind.__name__}.{lacking[0]}")
        elif not is_unittest and inspect.iscoroutinefunction(value):
            yield name, not_run("an async test")
        elif is_unittest:
            yield name, unittest.TestSuite([kind(name)]).debug
        else:
            yield name, getattr(kind(), name)


def tests_in(names: Mapping[str, Any]) -> Iterator[Tuple[str, Test]]:
    """The tests of a module, in their order."""
    for name, value in list(names.items()):
        if inspect.isclass(value) and (name.startswith("Test") or issubclass(value, unittest.TestCase)):
            yield from ((f"{name}::{it}", test) for it, test in tests_of_class(value))
        elif name.startswith("test_") and inspect.iscoroutinefunction(value):
            yield name, not_run("an async test")
        elif name.startswith("test_") and inspect.isfunction(value):
            yield name, value


def tests_of(path: str) -> Iterator[Tuple[str, Test]]:
    """The tests of a file, in their order."""
    name = os.path.basename(path).removesuffix(".py")
    spec = importlib.util.spec_from_file_location(name, path)
    if spec is None or spec.loader is None:
        raise ImportError(f"{path} is not a Python file")
    module = importlib.util.module_from_spec(spec)
    sys.path.insert(0, os.path.dirname(os.path.abspath(path)))
    spec.loader.exec_module(module)
    yield from tests_in(vars(module))


def outcome(test: Test, folder: str, update: bool) -> Tuple[bool, str]:
    """Runs a test. Returns whether it passes, and its result or the reason of its failure."""
    sessions = DapSession(folder, update)
    parameters = set(inspect.signature(test).parameters)
    if parameters - {"dap_session"}:
        return False, f"the fixtures {', '.join(sorted(parameters - {'dap_session'}))} need pytest"
    try:
        test(**{it: sessions for it in parameters})
        sessions.finish()
    except GoldenFailed as error:
        return False, str(error)
    except SessionError as error:
        error.report = error.report or "\n".join(user_frames(error.__traceback__))
        return False, str(error)
    except Exception as error:
        lines = [f"{type(error).__name__}: {error}".rstrip(": ")]
        lines += [sessions.sessions[-1].report(error, error.__traceback__)] if sessions.sessions else user_frames(error.__traceback__)
        return False, "\n".join(lines)
    return True, sessions.sessions[-1].result if sessions.sessions else "passed"


def main(words: Optional[Sequence[str]] = None) -> int:
    """Runs the tests of files, prints a line for each, or what is wrong, and returns the status."""
    arguments = list(sys.argv[1:] if words is None else words)
    update = "--update" in arguments or must_update()
    paths = [it for it in arguments if it != "--update"]
    if not paths or any(it.startswith("-") for it in paths):
        is_help = bool(set(paths) & {"-h", "--help"})
        print(__doc__.rstrip(), file=sys.stdout if is_help else sys.stderr)
        return 0 if is_help else 2
    results: List[bool] = []
    for path in paths:
        try:
            tests = list(tests_of(path))
        except Exception:
            print(f"{path} cannot be read as a test\n{traceback.format_exc(limit=-3)}", file=sys.stderr)
            results.append(False)
            continue
        for name, test in tests:
            passed, text = outcome(test, os.path.dirname(os.path.abspath(path)), update)
            results.append(passed)
            title = f"{os.path.basename(path)}::{name}: " if len(paths) + len(tests) > 2 else ""
            print(f"{title}{text}", file=sys.stdout if passed else sys.stderr, flush=True)
    if not results:
        print(f"no test_ function and no test class in {', '.join(paths)}, so nothing was compared", file=sys.stderr)
    elif len(results) > 1:
        print(f"{results.count(True)} passed, {results.count(False)} failed", flush=True)
    return 0 if results and all(results) else 1
