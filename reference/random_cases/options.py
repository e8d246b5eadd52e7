"""Options of random cases: rules, ways to read a report, strict checkers, and whole questions."""

from ..rules import JOURNAL_RULES, LATE_ROLES, PARTS, rules_of
from .groups import encoded, with_comments
from .shapes import pick_shape
from .world import World

NEAR_RULES = ["InPlace:InPlace", "InPlace:previous-InPlace", "EntrySet:previous-EntryClear",
              "MapSet:previous-MapClear", "InitFile:previous-MapClear", "EntrySet:previous-EntrySet",
              "Ptr:previous-Ptr", "LinkUp:previous-LinkDown", "InodeInit:previous-InodeFree",
              "InPlace:previous-MapClear", "InodeFree:previous-EntrySet", "LinkDown:EntrySet"]
NEAR_JOURNAL_RULES = ["FileData:previous-Done", "Commit:previous-Done", "Copy:previous-Done",
                      "InPlace:previous-Done", "Copy:FileData", "Copy:Copy", "InPlace:FileData",
                      "Copy:previous-Commit", "InPlace:previous-InPlace", "Done:Commit",
                      "Commit:previous-InPlace", "FileData:previous-InPlace", "Done:EntrySet"]
BEFORE_RULES = ["EntryClear:before-EntrySet", "InPlace:before-InPlace", "Done:before-Done",
                "Commit:before-Commit", "FileData:before-Done", "InPlace:before-Commit", "Copy:before-Done",
                "EntrySet:before-EntrySet", "MapSet:before-MapClear", "EntryClear:before-LinkUp",
                "InodeFree:before-EntrySet", "Commit:before-InPlace", "FileData:before-Commit"]

POOL_LINES = ["create /a", "write /a", "unlink /a", "mkdir /d", "rmdir /d", "link /a /b", "rename /a /b",
              "create /d/a", "rename /a /d/a", "write /q", "create /q/r", "link /d /e", "rmdir /a"]

QUESTIONS = ["decide", "decide", "enough", "enough", "search", "search", "search enough", "none"]


FIRST_PARTS = tuple(part for part in PARTS if part not in LATE_ROLES)
"""The parts that rules may name at every level."""


def random_rule(chance, module):
    """A rule, most often one that puts something in order."""
    roll = chance.random()
    if roll < 0.5:
        return chance.choice(NEAR_JOURNAL_RULES if module in ("meta", "full") else NEAR_RULES)
    if roll < 0.75:
        return chance.choice(rules_of("soft") + JOURNAL_RULES)
    return "%s:%s%s" % (chance.choice(FIRST_PARTS), chance.choice(["", "previous-"]), chance.choice(FIRST_PARTS))


def extend(case, chance):
    """Gives a case rules and ways to read its report."""
    case.json = chance.random() < 0.4
    case.explain = chance.random() < 0.5
    own = rules_of(case.module)
    if own and chance.random() < 0.6:
        count = chance.choice([1, 1, 1, 1, 2, 2, 3, len(own)])
        case.without = chance.sample(own, min(count, len(own)))
    if chance.random() < 0.4:
        add_rules(case, chance)
    if case.module == "async" and chance.random() < 0.15:
        case.added = list(rules_of("soft"))
    if case.wish != "30" and chance.random() >= 0.15:
        bring_rules_back(case, chance)


def add_rules(case, chance):
    """Puts rules in."""
    for _ in range(chance.choice([1, 1, 1, 2, 3, 16])):
        rule = random_rule(chance, case.module)
        if rule not in case.added and rule not in case.without:
            case.added.append(rule)


def bring_rules_back(case, chance):
    """Takes fewer rules out, until the closed sets keep a limit."""
    cap = chance.choice([600, 2000, 4096])
    if case.limit is not None:
        cap = min(cap, case.limit)
    while case.without and case.has_too_many(cap, case.rules()):
        case.without.pop()


def pool_script(chance, case):
    """A script for `--search`: one to five lines after `start`, some that are never accepted."""
    world = World(chance, case.blocks, case.journal)
    cut = pick_shape(chance)(world, chance.choice([1, 2, 2, 3, 3]))
    lines = world.script_lines()
    base, pool = lines[:cut], lines[cut:][:4]
    while chance.random() < 0.5:
        pool.insert(chance.randrange(len(pool) + 1), chance.choice(POOL_LINES + pool))
    roll = chance.random()
    if roll < 0.05:
        pool.insert(chance.randrange(len(pool) + 1), chance.choice(["group A", "end", "depend A B"]))
    if roll < 0.03:
        base.append("unlink /never")
    lines = base + ["start"] + pool[:5]
    return encoded(chance, with_comments(chance, lines) if chance.random() < 0.2 else lines)


def add_before_rules(case, chance):
    """Puts in rules for all operations before."""
    for rule in chance.sample(BEFORE_RULES, chance.choice([1, 1, 2, 3])):
        if len(case.added) < 16:
            case.added.append(rule)


def deciding(case, chance):
    """Gives a case whole operations, whole blocks, rules for all operations before, and a question about all its
    sets."""
    case.atomic = chance.random() < 0.4
    change_blocks_and_reach(case, chance)
    ask_one_of(case, chance, QUESTIONS)


def reach(case, chance):
    """Gives a case whole blocks, rules for all operations before, and a question about all its sets."""
    change_blocks_and_reach(case, chance)
    ask_one_of(case, chance, QUESTIONS)


def change_blocks_and_reach(case, chance):
    """Gives some cases whole blocks, and some rules for all operations before. Whole blocks are asked of small scripts,
    because the reference enumerates the sets."""
    case.whole_blocks = case.wish == "accepted" and chance.random() < 0.25
    if chance.random() < 0.35:
        add_before_rules(case, chance)


def choose(case, chance):
    """Asks for a decision, or for the rules that are enough, in two thirds of the cases."""
    ask_one_of(case, chance, ["decide", "enough", "none"])


def search(case, chance):
    """Asks for a decision, for the rules that are enough, or for a search, in three quarters of the cases."""
    ask_one_of(case, chance, ["decide", "enough", "search", "none"])


def ask_one_of(case, chance, questions):
    """Asks one of the questions, of which `none` leaves the case as it is."""
    question = chance.choice(questions)
    if question == "none":
        return
    prepare(case, chance, question)
    ask(case, chance, question)
    drop_limit(case)
    while case.enough and len(case.added) > 3 and case.added != list(rules_of("soft")):
        case.added.pop()


def decide(case, chance):
    """Asks for a decision in a third of the cases."""
    if chance.random() < 0.33:
        ask(case, chance, "decide")
        drop_limit(case)


def drop_limit(case):
    """Leaves out the limit, which does not go with a question about all sets."""
    if case.decide or case.enough or case.search:
        case.limit = None


def prepare(case, chance, question):
    """Makes it likely that the answer is no empty one."""
    if "enough" in question and chance.random() < 0.7:
        case.without = []
        case.added = list(rules_of("soft")) if case.module == "async" else case.added[:2]
        case.atomic = case.atomic and case.module == "full"
    elif "search" in question and case.module == "soft" and chance.random() < 0.6:
        case.without = [chance.choice(rules_of("soft"))] if chance.random() < 0.7 else []
        case.added = [rule for rule in case.added if rule not in case.without]
        case.atomic = False
    fits = case.journal <= case.blocks - 6
    if "search" in question and fits and (case.wish in ("accepted", "limit") or chance.random() < 0.5):
        case.script = pool_script(chance, case)
        case.wish = "accepted"


def ask(case, chance, question):
    """Asks the question, where the script is small enough."""
    if question == "decide" and not case.has_too_many(2500, case.rules()):
        case.decide = True
    if question == "enough" and not case.has_too_many(3000, []):
        case.enough = True
    if "search" in question:
        lines = case.script.split(b"\nstart\n")[-1].count(b"\n")
        case.search = chance.choice([1, 1, 2, 2, 2]) if lines <= 6 else 1
        case.enough = question == "search enough"
        if case.module in ("meta", "full") and (case.enough or lines > 4):
            case.search = 1
