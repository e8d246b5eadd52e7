"""Which files of definitions one must read for a run, and how many lines of code they have.

Run as a program, this makes the lists, the tables and the numbers of `docs/DEFINITIONS.md` again;
`test_definitions.py` compares.
"""

import re

from program import ROOT

CRATES = ROOT / "crates"
PAGE = ROOT / "docs/DEFINITIONS.md"

# The files that define a plain run, in the order in which they are read, each whole.
PLAIN = {
    "sets and crashes": ["patch_sets/Sets", "patch_sets/Closed", "patch_sets/Machine", "patch_sets/Writes",
                         "patch_sets/Iter", "state_space/Counts"],
    "the disk": ["crash_model/" + name for name in ("Lists", "Disk", "Generations", "Layout", "Slots", "Plan")],
    "patches and their order": ["crash_model/" + name for name in
                                ("Patches", "Rules", "RuleTexts", "ChosenRules", "Refusals", "Emitted", "WholeBlocks",
                                 "Tracing", "Trace")],
    "what fails": ["crash_model/" + name for name in ("Replay", "Faults", "PromiseLines", "BrokenLines", "Checker")],
    "scripts and reports": ["crash_model/Names", "crash_model/PathTexts", "crash_model/Script",
                            "crash_model/ScriptRefusals", "crash_model/Texts"]
    + ["report/" + name for name in ("Texts", "Parts", "Faults", "Crashes", "Head", "Reports", "Made")],
    "the answer": ["question_model/ScriptGraph", "question_model/Refusals", "question_model/Reported",
                   "report/OnGraphs", "report/Answers"],
}

# What a plain run's files have for an option, or for a script that is refused: it is read and counted there.
INSIDE = {
    "`--generations`": ["crash_model/Generations"],
    "`--whole-blocks`": ["crash_model/WholeBlocks"],
    "`--without` and `--with`": ["crash_model/RuleTexts", "crash_model/ChosenRules"],
    "why a script is refused": ["crash_model/Refusals", "crash_model/ScriptRefusals", "question_model/Refusals"],
}

WAITS = "lines that wait and promise, with `--durable` and `--faults`"
DEVICES = "what `serve` and `answer_call` say of devices and of the exit status"

# What is also read for what is asked for.
ROWS = {
    WAITS: ["crash_model/" + name for name in
            ("Paths", "Waiting", "WaitSteps", "Targets", "Promises", "FaultKinds", "ShownTexts", "PatchTexts")]
    + ["report/Explaining", "report/Explained"],
    "`--json`, with `--numbers` or without": ["report/" + name for name in
                                              ("Fields", "FaultsJson", "CrashesJson", "HeadJson", "ReportsJson")],
    "`--strict`": ["crash_model/StepDisks", "crash_model/Strict"],
    "`--atomic`": ["crash_model/StepDisks", "crash_model/Atomic"],
    "`--explain`": ["crash_model/PatchTexts", "crash_model/Reasons", "report/Explaining", "report/Explained"],
    "`--decide`": ["crash_model/FaultOrder", "crash_model/FirstSets", "question_model/Decided", "report/Found",
                   "report/FirstCrashes", "report/Structs", "report/Decisions"],
    "`--enough`": ["crash_model/FaultOrder", "crash_model/FirstSets", "crash_model/OtherRules",
                   "question_model/Decided", "question_model/Enough", "report/Found", "report/FirstCrashes",
                   "report/Structs", "report/Choices", "report/OnChoices"],
    "`--enough` with `--syncs`": ["patch_sets/Ends", "crash_model/ChosenWaits", "question_model/EnoughLines",
                                  "question_model/LinesRefusal"],
    "`--search`": ["crash_model/FirstSets", "crash_model/FaultKinds", "crash_model/Refused"]
    + ["question_model/" + name for name in ("Sequences", "Workloads", "SearchCounts", "SearchRefusal")]
    + ["report/Found", "report/Searches", "report/OnPools"],
    "`--search` with `--enough`": ["question_model/MinimalRules", "question_model/EnoughFor"],
    DEVICES: ["byte_io/Counted", "command_line/Ranges", "crash_text/Served", "crash_text/Status"],
}

# Rows that add to other rows.
ADDS = {"`--enough` with `--syncs`": ["`--enough`", WAITS],
        "`--search` with `--enough`": ["`--search`", "`--enough`"]}

# What the files of a plain run cite outside them: in the case of a match or the field of a record that an option adds,
# behind a test whether it is asked for, or of each of some promises, where there are none.
ASKED_FOR = {
    "crash_model/Tracing": "Wait",
    "crash_model/Trace": "forced_by_sync forced_by_fsync is_same_path target_found when_found with_wait",
    "crash_model/BrokenLines": "Promise breaks_line",
    "crash_model/Checker": "strict_faults IsKept disks_of atomic_faults fault_number Promise promises_of",
    "crash_model/Script": "target_text IsTarget",
    "crash_model/ScriptRefusals": "IsTargetWord",
    "report/Faults": "shows_if",
    "report/Crashes": "replayed_text",
    "report/Reports": "Promise ExplainedPatch Wait patch_text wait_text promise_text",
    "report/Made": "replay_of shows_of",
    "report/OnGraphs": "blocks_of explained_patches sets_json",
    "report/Answers": "IsDecision IsEnoughReport IsLinesReport IsLinesRefusal IsSearchReport IsSearchRefusal "
                              "IsSearchRulesReport IsReportedOfPool",
}

# The head of the table that says what each definition is.
LAST_TABLE = "| definition | says | file |"

IMPORT = re.compile(r"\s*(pub )?use ")
NAMES = re.compile(r"(?:pub )?use Rattle\.(\w+)\.specs\.(\w+)\.\{(.*)\}")
CONSTANTS = re.compile(r"use Rattle\.(\w+)\.specs\.declared\.(\w+)\.TheConstants\.\{(.*)\}")


def text_of(name):
    crate, _, stem = name.partition("/")
    return (CRATES / crate / "specs" / f"{stem}.antt").read_text().splitlines()


def code_of(name):
    """The lines that are neither import, comment nor blank."""
    return [line for line in text_of(name)
            if line.strip() and not line.strip().startswith("--") and not IMPORT.match(line)]


def plain_run():
    return [name for part in PLAIN.values() for name in part]


def run_files():
    """The files that say what `run` answers."""
    return list(dict.fromkeys([*plain_run(), *(name for asked, row in ROWS.items() if asked != DEVICES
                                               for name in row)]))


def files():
    """The files that say what `run` answers, and those that say more of `serve` and `answer_call`."""
    return [*run_files(), *ROWS[DEVICES]]


def lines_of(names):
    return sum(len(code_of(name)) for name in names)


def imports_of(name):
    """The definitions that a file imports, as pairs of the file that it names and the definition."""
    found = [NAMES.match(line) for line in text_of(name)]
    return [(f"{it.group(1)}/{it.group(2)}", item.split(" as ")[0])
            for it in found if it for item in it.group(3).split(", ")]


def constants():
    """The constants that the files cite, by the file of the code that has them."""
    found = {}
    for name in files():
        for it in filter(None, map(CONSTANTS.match, text_of(name))):
            found.setdefault(f"{it.group(1)}/src/{it.group(2)}.rt", set()).update(it.group(3).split(", "))
    return found


def listed(names):
    """The files, by the folder that they are in."""
    folders = {}
    for name in names:
        crate, _, stem = name.partition("/")
        folders.setdefault(crate, []).append(f"`{stem}`")
    return "; ".join(f"`{crate}/specs/` {', '.join(stems)}" for crate, stems in folders.items())


def row(name):
    others = ["lines that wait" if it == WAITS else it for it in ADDS.get(name, [])]
    first = f"what the rows of {' and of '.join(others)} name, and " if others else ""
    more = " more" if name in ADDS else ""
    return f"| {name} | {first}{listed(ROWS[name])} | {lines_of(ROWS[name])}{more} |"


def parts():
    """The lists, the table and the constants of the page, as lines."""
    groups = list(PLAIN.items())
    lists = [f"{k}. {title}: {listed(names)}{'.' if k == len(groups) else ';'}"
             for k, (title, names) in enumerate(groups, 1)]
    inside = [f"- {title}: {listed(names)}, {lines_of(names)} lines" for title, names in INSIDE.items()]
    table = ["| what you ask for | what you also read | lines of code |", "|---|---|---|", *map(row, ROWS)]
    numbers = [f"- `{file}`: {', '.join(f'`{name}`' for name in sorted(names))}"
               for file, names in sorted(constants().items())]
    return [lists, inside, table, numbers]


def numbers():
    """The numbers of the page's sentences, each with the words before and behind it."""
    return [("is built from ", len(run_files()), " files"),
            ("The files have ", sum(len(text_of(name)) for name in run_files()), " lines"),
            ("Of these ", lines_of(run_files()), " are neither"),
            ("and of the exit status takes ", len(ROWS[DEVICES]), " files more"),
            ("For it you read ", len(plain_run()), " files whole"),
            ("They have ", lines_of(plain_run()), " lines of code")]


def path_of(name):
    """A file of definitions as the last table names it."""
    crate, _, stem = name.partition("/")
    return f"{crate}/specs/{stem}.antt"


def paths_in(cell):
    """The files and folders that a cell of the last table names. A name without a folder is in the folder of the one
    before it."""
    folder, paths = "", []
    for name in re.findall(r"`([^`]+)`", cell):
        folder = name.rpartition("/")[0] if "/" in name else folder
        paths.append(name if "/" in name else f"{folder}/{name}")
    return paths


def cell_of(paths):
    """The cell that names these files."""
    names = [path if path.rpartition("/")[0] != before.rpartition("/")[0] else path.rpartition("/")[2]
             for before, path in zip(["", *paths], paths)]
    return ", ".join(f"`{name}`" for name in names)


def first_words(name):
    """What a file says of itself: the first sentence of the comment that it begins with."""
    lines = text_of(name)
    words = " ".join(line.removeprefix("--").strip() for line in lines[:next(
        k for k, line in enumerate(lines) if not line.startswith("--"))])
    sentence = re.split(r"\.(?: |$)", words)[0]
    return sentence[:1].lower() + sentence[1:]


def definition_rows(page):
    """The rows of the last table: those of the page, without files that are not there any more, and then one for each
    file that none of them names."""
    rows, named = [], set()
    for about, says, cell in re.findall(r"^\| ([^|]*) \| ([^|]*) \| ([^|]*`) \|$", page[page.index(LAST_TABLE):], re.M):
        paths = [path for path in paths_in(cell) if (CRATES / path).exists()]
        named.update(paths)
        if paths:
            rows.append(f"| {about} | {says} | {cell_of(paths)} |")
    folders = tuple(path for path in named if path.endswith("/"))
    for name in files():
        if path_of(name) not in named and not path_of(name).startswith(folders):
            about = re.sub(r"(?<!^)(?=[A-Z])", " ", name.partition("/")[2]).lower()
            rows.append(f"| {about} | {first_words(name)} | `{path_of(name)}` |")
    return rows


def page_made(page):
    """The page with its lists, tables and numbers made again."""
    for part in parts():
        first = re.escape(re.match(r"[^:]+(: `\w+/)?|.*", part[0]).group())
        page, count = re.subn(rf"\n{first}[^\n]*(\n[^\n]+)*", lambda _: "\n" + "\n".join(part), page, count=1)
        assert count, part[0]
    for before, number, behind in numbers():
        page, count = re.subn(rf"{before}[\d,]+{behind}", f"{before}{number:,}{behind}", page)
        assert count == 1, before
    rows = "\n".join([LAST_TABLE, "|---|---|---|", *definition_rows(page)])
    return re.sub(rf"{re.escape(LAST_TABLE)}\n(.+\n)+", lambda _: f"{rows}\n", page)


if __name__ == "__main__":
    PAGE.write_text(page_made(PAGE.read_text()))
