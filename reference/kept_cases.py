"""The case files of the repository, and what the reference answers to their words and scripts."""

import dataclasses
import hashlib
import sys

from .command_line import TOO_MUCH
from .kept import TOP, Value
from .runs import first_difference, run_either_way

NOT_ANSWERED = {"--help", "-h", "--version", "-V"}
"""Words that ask about the program itself. The reference has no answer to them."""


def case_files():
    """The module that reads and writes case files."""
    folder = str(TOP / "tests")
    if folder not in sys.path:
        sys.path.insert(0, folder)
    import case_files as module
    return module


def problem_of(case, run):
    """What is wrong with a case, or None."""
    if run.status == TOO_MUCH:
        return run.err.decode().strip()
    if run.status != case.status:
        return "status: keeps %d, wanted %d" % (case.status, run.status)
    if not case.has_output(run.out):
        kept = b"" if case.output is None else case.output
        return "output: " + ("has another digest" if case.output is None else first_difference(kept, run.out))
    if case.fault is None and case.errors != run.err:
        return "errors: keeps %r, wanted %r" % (case.errors, run.err)
    return None


def remade(case, run):
    """The case with what the reference answers."""
    new = dataclasses.replace(case, status=run.status)
    if case.output is None:
        new = dataclasses.replace(new, output_digest=hashlib.sha256(run.out).hexdigest())
    else:
        new = dataclasses.replace(new, output=run.out)
    return new if case.fault is not None else dataclasses.replace(new, errors=run.err)


def case_value(module, path):
    """The value of one case file, or None where the reference has no answer."""
    name = str(path.relative_to(TOP))
    try:
        case = module.read_case(path)
    except module.BadCase as error:
        return Value(name, str(error), None)
    if NOT_ANSWERED & set(case.words):
        return None
    run = run_either_way(case.words, case.script)
    return Value(name, problem_of(case, run), lambda: module.write_case(path, remade(case, run)))


def cases():
    """The case files."""
    if not (TOP / "cases").exists():
        return [Value("cases", "is missing", None)]
    module = case_files()
    values = [case_value(module, path) for path in module.case_paths(TOP / "cases")]
    return [value for value in values if value is not None]
