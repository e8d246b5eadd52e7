"""Case files: whole runs of the program, one in each file.

`cases/README.md` says how a case file is written. `read_case` reads one and refuses any other text with a
`BadCase`, which names the file, the line and what is wrong with it. `write_case` writes one.
"""

import dataclasses
import hashlib
import pathlib
import re
import shlex

CASES = pathlib.Path(__file__).resolve().parent.parent / "cases"

# The fields in their order, and whether lines follow the field.
FIELDS = {"words": False, "status": False, "script": True, "script-file": False, "output": True,
          "output-file": False, "output-digest": False, "errors": True, "fault": False, "terminal": True}
INDENT = "    "
NAME = re.compile(r"[a-z0-9]+(-[a-z0-9]+)*")
FILE = re.compile(r"[a-z0-9][a-z0-9.-]*")


class BadCase(Exception):
    """A case file that cannot be read: where, and why."""


@dataclasses.dataclass(frozen=True)
class Case:
    """A run of the program and what it answers.

    `output` is None where the file keeps the SHA-256 digest of a long output, `output_digest`, in its place.
    `fault` is None, or the words that standard error names where the command line is refused; `errors` is then
    empty and says nothing. `terminal` is what standard error gets where it is a terminal, if the file says so.
    """
    name: str
    about: str = ""
    words: tuple = ()
    status: int = 0
    script: bytes = b""
    output: bytes | None = b""
    output_digest: str | None = None
    errors: bytes = b""
    fault: str | None = None
    terminal: bytes = b""

    def has_output(self, output):
        """Whether this is the output, byte for byte."""
        if self.output is None:
            return hashlib.sha256(output).hexdigest() == self.output_digest
        return output == self.output

    def has_errors(self, errors):
        """Whether this is what standard error gets."""
        if self.fault is None:
            return errors == self.errors
        return errors.startswith(b"error: ") and self.fault.encode() in errors


def case_paths(root=CASES):
    """The paths of all case files below the folder, in order."""
    return sorted(pathlib.Path(root).rglob("*.case"))


def stray_files(root=CASES):
    """The files below the folder that are no case files and that no case file beside them can name."""
    files = (path for path in pathlib.Path(root).rglob("*") if path.is_file() and path.name != "README.md")
    return sorted(path for path in files
                  if path.suffix not in (".case", ".script", ".output") or not path.with_suffix(".case").exists())


def double_names(paths):
    """The names that more than one of the paths has, in order."""
    names = [path.stem for path in paths]
    return sorted({name for name in names if names.count(name) > 1})


def read_case(path):
    """The case in this file. Any other file is refused with `BadCase`."""
    path = pathlib.Path(path)
    if not NAME.fullmatch(path.stem):
        raise BadCase(f"{path}: the name {path.stem!r} has other letters than a to z, 0 to 9 and -")
    fields = read_fields(path, bytes_of(path))
    check_fields(path, fields)
    digest = fields.get("output-digest")
    return Case(
        name=path.stem,
        about=fields["about"],
        words=words_of(path, fields),
        status=status_of(path, fields),
        script=content(path, fields, "script"),
        output=None if digest else content(path, fields, "output"),
        output_digest=digest,
        errors=fields.get("errors", b""),
        fault=fields.get("fault"),
        terminal=fields.get("terminal", b""))


def check_fields(path, fields):
    """Refuses fields that do not go together, and those that expect nothing."""
    for one, other in (("script", "script-file"), ("output", "output-file"), ("output", "output-digest"),
                       ("output-file", "output-digest"), ("errors", "fault")):
        if one in fields and other in fields:
            raise BadCase(f"{path}: both {one} and {other}")
    if not fields.keys() & {"output", "output-file", "output-digest", "errors", "fault"}:
        raise BadCase(f"{path}: no expected output")
    if not re.fullmatch("[0-9a-f]{64}", fields.get("output-digest", 64 * "0")):
        raise BadCase(f"{path}: output-digest is no SHA-256 digest")


def bytes_of(path):
    """The bytes of the file."""
    try:
        return path.read_bytes()
    except OSError as error:
        raise BadCase(f"{path}: cannot be read: {error.strerror}") from None


def read_fields(path, data):
    """The fields with their texts, or their bytes where lines follow them, and the first line's sentence, `about`."""
    lines = lines_of(path, data)
    at, fields = 0, {"about": ""}
    if lines[0].startswith("# "):
        at, fields["about"] = 1, lines[0][2:]
    last = -1
    while at < len(lines):
        field, text = field_of(path, at, lines[at])
        place = list(FIELDS).index(field)
        if place <= last:
            raise BadCase(f"{path}:{at + 1}: {field} stands twice or behind a later field")
        last, at = place, at + 1
        if FIELDS[field]:
            end = end_of_block(lines, at)
            text, at = b"".join(line[len(INDENT):].encode() + b"\n" for line in lines[at:end]), end
        fields[field] = text
    return fields


def lines_of(path, data):
    """The lines of a text whose last line has its line feed too."""
    try:
        text = data.decode()
    except UnicodeDecodeError:
        raise BadCase(f"{path}: not UTF-8") from None
    if not text.endswith("\n"):
        raise BadCase(f"{path}: no line feed at the end")
    return text[:-1].split("\n")


def field_of(path, at, line):
    """The name and the text of the field on this line."""
    field, colon, text = line.partition(":")
    if line.startswith(" ") or not colon:
        raise BadCase(f"{path}:{at + 1}: neither a field nor a line of a block: {line!r}")
    if field not in FIELDS:
        raise BadCase(f"{path}:{at + 1}: unknown field {field!r}")
    if FIELDS[field] and text:
        raise BadCase(f"{path}:{at + 1}: the lines of {field} stand below it")
    if not FIELDS[field] and (not text.startswith(" ") or not text.strip()):
        raise BadCase(f"{path}:{at + 1}: {field} has no text")
    return field, text[1:]


def end_of_block(lines, at):
    """Behind the last of the lines that are indented or empty."""
    while at < len(lines) and (lines[at].startswith(INDENT) or not lines[at]):
        at += 1
    return at


def words_of(path, fields):
    """The words of the command line, read as a shell reads them."""
    try:
        return tuple(shlex.split(fields.get("words", "")))
    except ValueError as error:
        raise BadCase(f"{path}: words: {error}") from None


def status_of(path, fields):
    """The exit status: 0, 1 or 2, which are all that the program has."""
    status = fields.get("status", "0")
    if status not in ("0", "1", "2"):
        raise BadCase(f"{path}: no status: {status!r}")
    return int(status)


def content(path, fields, field):
    """The bytes of a field, or of the file that is named in its place."""
    name = fields.get(field + "-file")
    if name is None:
        return fields.get(field, b"")
    if not FILE.fullmatch(name):
        raise BadCase(f"{path}: {field}-file is no name of a file beside it: {name!r}")
    return bytes_of(path.parent / name)


def is_block(data):
    """Whether these bytes can be the lines of a block: text, and a line feed at the end of each line."""
    try:
        text = data.decode()
    except UnicodeDecodeError:
        return False
    return text.endswith("\n") and all(letter.isprintable() for letter in text.replace("\n", ""))


def write_case(path, case):
    """Writes the case to this file. What is no plain text goes into a file beside it."""
    path = pathlib.Path(path)
    path.parent.mkdir(parents=True, exist_ok=True)
    lines = [f"# {case.about}"] if case.about else []
    if case.words:
        lines.append(f"words: {shlex.join(case.words)}")
    if case.status:
        lines.append(f"status: {case.status}")
    lines += block(path, "script", case.script)
    if case.output_digest is not None:
        lines.append(f"output-digest: {case.output_digest}")
    else:
        lines += block(path, "output", case.output)
    lines += block(path, "errors", case.errors)
    if case.fault is not None:
        lines.append(f"fault: {case.fault}")
    lines += block(path, "terminal", case.terminal)
    path.write_text("\n".join(lines) + "\n")


def block(path, field, data):
    """The lines of a field with these bytes, which are left out where there are none."""
    if not data:
        return []
    if is_block(data):
        return [f"{field}:"] + [INDENT + line if line else "" for line in data.decode()[:-1].split("\n")]
    name = f"{path.stem}.{field}"
    (path.parent / name).write_bytes(data)
    return [f"{field}-file: {name}"]
