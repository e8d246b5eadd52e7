"""Command lines that are at fault."""

from ..rules import JOURNAL_RULES, rules_of
from .options import FIRST_PARTS

PLAIN_FAULTS = [
    ["--limit", "0"], ["--limit", "32769"], ["--summary"], ["--needs"], ["--explorer", "board"],
    ["--journal", "123"], ["--workers", "0"],
    ["--workers", "17"], ["--blocks", "15"], ["--blocks", "129"], ["--blocks", "x"],
    ["--module", "hard"], ["--module", "Soft"], ["--nothing"], ["one", "two"], ["--limit"],
    ["--module", ""], ["--limit", "99999999999999999999"], ["--json=1"], ["--module"],
    ["--blocks", "16", "--blocks", "17"],
]

NO_RULES = ("Ptr", "Ptr:", ":Ptr", "Ptr:Nothing", "ptr:Ptr", "Data:Copy", "Ptr:Ptr:Ptr", "Ptr :Ptr",
            "Ptr:previous-", "previous-Ptr:Ptr", "Ptr:Previous-Ptr", "Ptr:previous-previous-Ptr",
            "Ptr:next-Ptr", "Ptr:same-Ptr", "InPlace", "Ptr:Ptr ", "EntrySet:Inodeinit", "1:2", "")

NO_BEFORE_RULES = ("Ptr:before-", "before-Ptr:Ptr", "Ptr:Before-Ptr", "Ptr:before-before-Ptr",
                   "Ptr:before-previous-Ptr", "Ptr:before", "Ptr:before_Ptr", "Ptr:after-Ptr")

NO_NUMBERS = ("0", "9", "two", "-1", "", "1.0", "99999999999999999999", "+1x")

QUESTIONS = [["--decide"], ["--enough"], ["--search", "1"], ["--search=8", "--enough"]]


def seventeen_rules():
    """A rule more than may be put in."""
    return [word for one in range(17)
            for word in ("--with", "Ptr:" + ("previous-" if one > 14 else "") + FIRST_PARTS[one % 15])]


def extended_fault(chance, module):
    """A fault in rules, or in `--explain`."""
    own = rules_of(module)
    absent = chance.choice([rule for rule in rules_of("soft") + JOURNAL_RULES + ("Ptr:Ptr",) if rule not in own])
    rule = chance.choice(own or ("Ptr:Ptr",))
    kinds = [["--without", absent], ["--with", absent, "--with", absent], ["--with"], ["--without"],
             ["--with", absent, "--without", absent], ["--with", rule, "--with", rule],
             ["--with="], ["--explain=1"], ["--explain", "--json", "--explain"], ["--explain", "yes", "no"]]
    kinds += [["--with", word] for word in NO_RULES] + [seventeen_rules()]
    if own:
        kinds += [["--without", rule, "--without", rule], ["--without", rule, "--with", rule],
                  ["--without", rule.lower()], ["--without", rule, "--without", absent]]
    return ["--module", module] + chance.choice(kinds)


def decide_fault(chance, module):
    """A fault in `--decide`."""
    words = chance.choice([["--decide", "--limit", "4096"], ["--decide", "--decide"], ["--limit=1", "--decide"],
                           ["--decide=yes"]])
    return ["--module", module] + words if chance.random() < 0.5 else words + ["--module", module]


def choosing_fault(chance, module):
    """A fault in `--decide`, or in `--enough`."""
    if chance.random() < 0.5:
        return decide_fault(chance, module)
    kinds = [["--enough"] + more for more in (["--decide"], ["--limit", "4096"], ["--enough"])]
    words = chance.choice(kinds + [["--decide", "--enough"], ["--limit=1", "--enough"], ["--enough=yes"]])
    return ["--module", module] + words if chance.random() < 0.5 else words + ["--module", module]


def searching_fault(chance, module):
    """A fault in `--decide`, in `--enough`, or in `--search`."""
    if chance.random() < 0.5:
        return choosing_fault(chance, module)
    kinds = [["--search", "2"] + more for more in (["--decide"], ["--limit", "4096"], ["--search", "2"])]
    words = chance.choice(kinds + [["--search"]] + [["--search", word] for word in NO_NUMBERS])
    return ["--module", module] + words


def reaching_fault(chance, module):
    """A fault in a question about all sets, in `--whole-blocks`, or in a rule for all operations before."""
    if chance.random() < 0.5:
        return searching_fault(chance, module)
    kinds = [["--whole-blocks=yes"], ["--whole-blocks", "--whole-blocks"]]
    kinds += [["--search=8", "--enough"] + more for more in (["--decide"], ["--limit", "4096"], ["--enough"])]
    kinds += [["--with", word] for word in NO_BEFORE_RULES]
    kinds += [["--with", "Ptr:before-Ptr", "--with", "Ptr:before-Ptr"], ["--without", "Ptr:before-Ptr"]]
    return ["--module", module] + chance.choice(kinds)


def deciding_fault(chance, module):
    """A fault in a question about all sets, or in a rule for all operations before."""
    question = chance.choice(QUESTIONS)
    kinds = [question + more for more in (["--limit", "4096"], ["--limit=1"])]
    kinds += [["--decide", "--enough"], ["--decide", "--search", "2"], ["--search", "2", "--enough", "--decide"],
              ["--search"], ["--atomic=1"], ["--decide=yes"], ["--search", "1", "--search", "1"]]
    kinds += [["--search", word] for word in NO_NUMBERS] + [["--with", word] for word in NO_BEFORE_RULES]
    kinds += [["--with", "Ptr:before-Ptr", "--with", "Ptr:before-Ptr"], ["--without", "Ptr:before-Ptr"]]
    words = ["--module", module] + chance.choice(kinds)
    return words if words.count("--search") else chance.choice([words, words[2:]])
