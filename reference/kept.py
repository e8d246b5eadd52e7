"""Expected values that the repository keeps, and what the reference makes in their place."""

import json
import pathlib
import re
import shlex
import subprocess
from collections import namedtuple

from .noise import listed
from .runs import Run, differences, run_either_way, run_reference

TOP = pathlib.Path(__file__).resolve().parent.parent

Value = namedtuple("Value", "name problem write")
"""A kept value: a name for readers, None or what is wrong with it, and None or a function that writes it."""


def bytes_of(path):
    """The bytes of a file, or None where it cannot be read."""
    try:
        return path.read_bytes()
    except OSError:
        return None


def file_value(path, made):
    """The value of a whole file."""
    kept = bytes_of(path)
    problem = None
    if kept is None:
        problem = "is missing"
    elif kept != made:
        problem = differences(Run(0, kept, b""), Run(0, made, b""))[0]
    return Value(str(path.relative_to(TOP)), problem, lambda: path.write_bytes(made))


# The gallery: one script for each bug, with its command in a comment and its report beside it.

COMMAND = re.compile(r"^# ./crashmap (.*)$", re.M)


def number_after(word, report):
    """The number on the report's first line with this word."""
    match = re.search(r"^%s (\d+)$" % word, report, re.M)
    return match[1] if match else "?"


def gallery_values(script):
    """The report of a script of the gallery, and its row in the gallery's table."""
    commands = COMMAND.findall(script.read_text())
    name = str(script.relative_to(TOP))
    if len(commands) != 1 or shlex.split(commands[0])[0] != name:
        return [Value(name, "its comment has no single command that runs it", None)]
    run = run_reference(shlex.split(commands[0])[1:], script.read_bytes())
    whole = run_reference([*shlex.split(commands[0])[1:], "--whole-blocks"], script.read_bytes())
    counts = tuple(number_after(word, answer.out.decode()) for answer in (run, whole) for word in ("failing", "closed"))
    row = "(%s) " % script.name, " %s of %s | %s of %s |" % counts
    table = (script.parent / "README.md").read_text().split("\n")
    has_row = any(row[0] in line and row[1] in line for line in table)
    return [file_value(script.with_suffix(".report"), run.out),
            Value("gallery/README.md, " + script.stem,
                  None if has_row else "has no row with" + row[1][:-2], None)]


def gallery():
    """The gallery."""
    folder = TOP / "gallery"
    values = [value for script in sorted(folder.glob("*.script")) for value in gallery_values(script)]
    lonely = [path for path in sorted(folder.glob("*.report")) if not path.with_suffix(".script").exists()]
    return values + [Value(str(path.relative_to(TOP)), "has no script", None) for path in lonely]


# The page: the reports that its test shows, whose scripts are in a JavaScript file.

PRINT_CASES = "import { cases } from %s; console.log(JSON.stringify(cases));"


def page_cases(path):
    """The scripts and words of the page's reports, as node reads them."""
    command = ["node", "--input-type=module", "-e", PRINT_CASES % json.dumps(path.as_uri())]
    return json.loads(subprocess.run(command, capture_output=True, check=True, timeout=60).stdout)


def page():
    """The page's reports."""
    folder = TOP / "page" / "test"
    try:
        cases = page_cases(folder / "cases.mjs")
    except (OSError, subprocess.SubprocessError, ValueError) as error:
        return [Value("page/test/cases.mjs", "cannot be read: %s" % error, None)]
    values = []
    for name, case in cases.items():
        script = "".join(line + "\n" for line in case["script"]).encode()
        run = run_either_way(case["words"] + ["--json", "--explain"], script)
        values.append(file_value(folder / "reports" / (name + ".json"), run.out))
    lonely = [path for path in sorted((folder / "reports").glob("*.json")) if path.stem not in cases]
    return values + [Value(str(path.relative_to(TOP)), "has no script in cases.mjs", None) for path in lonely]


# The images that a file lists for a program crate and for the reference.


def noise_images():
    """The answers on listed images, which the program's `stdout` has."""
    folder = TOP / "crates" / "hostile_images"
    lines = listed.lines((folder / "stdin").read_text())
    return [file_value(folder / "stdout", "".join(line + "\n" for line in lines).encode())]
