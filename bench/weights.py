"""What each crate weighs: its lines and functions by the sources, and the seconds that `time_crates.py` measured.

A state of the repository is a file of bench/weights/. It has for each crate its lines, its functions, its wrong bodies,
whether it is on the path of `./crashmap --prove`, and what was measured of it.
"""

import json
import pathlib
import re
import subprocess

TOP = pathlib.Path(__file__).resolve().parent.parent
STATES = TOP / "bench" / "weights"
PAGE = TOP / "docs" / "WEIGHT.md"

KINDS = ("proof", "tests", "edits")
"""What the seconds of a crate go into."""

COUNTS = ("code", "contracts", "definitions", "proofs", "functions", "wrong bodies")
LEAST = 1
"""A crate whose proof, tests or wrong bodies took fewer seconds than this was not proved or tried in that run."""

PROGRAM = "crashmap"
CONTRACT = re.compile(r"(?:pub )?ghost\b|requires\b|ensures\b")
FUNCTION = re.compile(r"^\s*(?:pub(?:\(\w+\))? )?(?:unsafe )?(?:const )?fn \w", re.MULTILINE)


def kinds_of_lines(text):
    """Returns how many lines of a source are code and how many are contracts. Comments and empty lines are neither."""
    code = contracts = depth = 0
    for line in map(str.strip, text.splitlines()):
        if not line or line.startswith("//"):
            continue
        if depth or CONTRACT.match(line):
            contracts += 1
            depth = max(0, depth + sum(map(line.count, "{(")) - sum(map(line.count, "})")))
        else:
            code += 1
    return code, contracts


def lines_in(folder):
    """Returns how many lines of definitions or proofs the files of a folder have."""
    return sum(len(file.read_text().splitlines()) for file in folder.rglob("*.antt"))


def sources_of(crate):
    """Returns the texts of a crate's sources."""
    return [file.read_text() for file in (crate / "src").rglob("*.rt")]


def counts_of(crate):
    """Returns the lines, the functions and the wrong bodies of a crate's folder."""
    sources = sources_of(crate)
    kinds = [kinds_of_lines(text) for text in sources]
    return {"code": sum(kind[0] for kind in kinds), "contracts": sum(kind[1] for kind in kinds),
            "definitions": lines_in(crate / "specs"), "proofs": lines_in(crate / "proofs"),
            "functions": sum(len(FUNCTION.findall(text)) for text in sources),
            "wrong bodies": len(list((crate / "must-fail").glob("*.edit")))}


def has_tests(crate):
    """Returns whether a crate has tests, or is a program that is run."""
    return (crate / "src/main.rt").exists() or any("#[test]" in text for text in sources_of(crate))


def libraries_of(top):
    """Returns the crates of a checkout, each with the libraries that it uses."""
    rows = (line.partition(":") for line in (top / "crates.txt").read_text().splitlines() if line[:1] not in ("", "#"))
    return {head.split()[0]: rest.split() for head, _, rest in rows}


def below(crate, libraries):
    """Returns a crate and all that it stands on."""
    found, ahead = set(), [crate]
    while ahead:
        name = ahead.pop()
        if name in libraries and name not in found:
            found.add(name)
            ahead += libraries[name]
    return found


def commit_of(top):
    """Returns the commit of a checkout."""
    words = ["git", "-C", top, "rev-parse", "--short=8", "HEAD"]
    run = subprocess.run(words, capture_output=True, text=True, check=True)
    return run.stdout.strip()


def load(state):
    """Returns what is kept of a state."""
    path = STATES / f"{state}.json"
    return json.loads(path.read_text()) if path.exists() else {"crates": {}}


def keep(state, top, seconds):
    """Keeps the weight of the crates of a checkout, with the seconds of those that were proved or tried."""
    kept, libraries = load(state)["crates"], libraries_of(top)
    path, crates = below(PROGRAM, libraries), {}
    for crate in libraries:
        known = kept.get(crate, {}).get("seconds", {})
        new = {kind: round(it) for kind, it in seconds.get(crate, {}).items() if kind in KINDS and it >= LEAST}
        folder = top / "crates" / crate
        crates[crate] = {**counts_of(folder), "path": crate in path, "tests": has_tests(folder),
                         "seconds": {**known, **new}}
    STATES.mkdir(exist_ok=True)
    rows = ",\n".join(f"  {json.dumps(crate)}: {json.dumps(it)}" for crate, it in crates.items())
    text = f'{{"commit": "{commit_of(top)}", "crates": {{\n{rows}\n}}}}\n'
    (STATES / f"{state}.json").write_text(text)


# The page

def needed(crate):
    """Returns the kinds of seconds that a crate has to have been measured by."""
    is_there = {"proof": True, "tests": crate["tests"], "edits": crate["wrong bodies"]}
    return [kind for kind in KINDS if is_there[kind]]


def minutes(crates, kinds):
    """Returns the minutes that crates took for kinds of work, and how many of them were not measured."""
    lacking = sum(any(kind not in crate["seconds"] for kind in needed(crate) if kind in kinds) for crate in crates)
    return sum(crate["seconds"].get(kind, 0) for crate in crates for kind in kinds) / 60, lacking


def sums(state):
    """Returns the rows of a state's sums, each with its number and how many crates it lacks."""
    crates = list(state["crates"].values())
    path = [crate for crate in crates if crate["path"]]
    counts = {name: (sum(crate[name] for crate in crates), 0) for name in COUNTS}
    return {"crates": (len(crates), 0), "crates on the path of `--prove`": (len(path), 0),
            "functions on that path": (sum(crate["functions"] for crate in path), 0), **counts,
            "minutes of `--prove`": minutes(path, ("proof",)), "minutes of the gate": minutes(crates, KINDS)}


def cell(number, lacking):
    """Returns a sum as the page shows it."""
    text = f"{number:,.1f}" if isinstance(number, float) else f"{number:,}"
    return f"{text} (without {lacking} crates)" if lacking else text


def sum_rows(begin, end):
    """Returns the table of sums, at the beginning and at the end, with their ratios where both are whole."""
    yield f"| | {begin['commit']} | {end['commit']} | ratio |"
    yield "|---|---|---|---|"
    after = sums(end)
    for name, (number, lacking) in sums(begin).items():
        later, still = after[name]
        ratio = f"{later / number:.2f}" if number and not lacking and not still else ""
        yield f"| {name} | {cell(number, lacking)} | {cell(later, still)} | {ratio} |"


def crate_rows(state):
    """Returns the table of a state's crates."""
    yield f"| crate | {' | '.join(COUNTS)} | proof, s | tests, s | wrong bodies, s |"
    yield "|---|" + "---|" * (len(COUNTS) + len(KINDS))
    for name, crate in state["crates"].items():
        counts = " | ".join(f"{crate[count]:,}" for count in COUNTS)
        seconds = " | ".join(str(crate["seconds"].get(kind, "")) for kind in KINDS)
        star = "" if crate["path"] else " *"
        yield f"| {name}{star} | {counts} | {seconds} |"


HEAD = """# What each crate weighs

`python3 bench/time_crates.py --page` makes this page of what it kept of two states of the repository. Lines of code \
and of contracts are without comments and empty lines. Seconds are those of the processors: for a crate's proof; for \
its tests, with their own proof and all runs of programs; and for trying its wrong bodies. A crate with a star is not \
on the path of `./crashmap --prove`. An empty cell was not measured, or there is nothing to measure. The gate also \
runs the suite of `tests/`, which says itself what it takes."""


def page():
    """Returns the page."""
    begin, end = load("begin"), load("end")
    tables = [HEAD, "\n".join(sum_rows(begin, end))]
    for words, state in (("At the beginning", begin), ("At the end", end)):
        tables += [f"## {words}: {state['commit']}", "\n".join(crate_rows(state))]
    return "\n\n".join(tables) + "\n"


def write_page():
    """Writes the page."""
    PAGE.write_text(page())
