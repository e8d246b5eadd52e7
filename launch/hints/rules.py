"""Rules that were put in and order no two patches, and rules that would exclude a crash."""

import texts
from steps import steps_of

EACH_OPERATION = """\
create /e\nwrite /e\nwrite /e\ncreate /f\ncreate /g\ncreate /h\nlink /h /i
start
create /a\nwrite /a\nwrite /a\nlink /a /b\nunlink /b\nrename /a /c\nunlink /c\nmkdir /d\nrmdir /d
overwrite /e\nreplace /f /e\nwrite /e\ntruncate /e\nreplace /g /h
"""
"""Each operation in each of its forms, and two blocks that become free at once."""

LARGE = ("--blocks=128", "--journal=96")
"""A disk on which each operation fits."""

SCOPES = ("previous-", "before-")


def known_to(call):
    """Returns the module's rules, and the parts that a rule names."""
    page = call.ask(["--rules", *call.options.of("--module")]).stdout
    names = [line.split()[0] for line in page.splitlines() if line.startswith("  ")]
    return [it for it in names if ":" in it], [it for it in names if ":" not in it]


def parts_of(rule):
    """Returns the later part of a rule, its scope and its earlier part."""
    later, _, rest = rule.partition(":")
    scope = next((it for it in SCOPES if rest.startswith(it)), "")
    return later, scope, rest.removeprefix(scope)


def orders(rule, explained):
    """Returns whether a rule orders any two of these patches."""
    return any(rule in other["why"] for patch in explained["trace"] for other in patch["after"])


def idle_rules(call):
    """Yields what is said of each rule that was put in and orders no two patches of the script. A rule that the module
    has already is not put in."""
    idle = [rule for rule in call.options.values("--with") if not orders(rule, call.explained)]
    known = known_to(call)[0] if idle else []
    for rule in idle:
        if rule not in known:
            yield idle_rule(call, rule)


def idle_rule(call, rule):
    """Returns that a rule orders no two patches, and why it never can, if it never can. Any operation can follow any
    other, so only the order within one operation forbids a rule whose parts are there."""
    later, scope, earlier = parts_of(rule)
    module = call.options.of("--module")
    explained = call.explain(EACH_OPERATION, *module, *LARGE, f"--with={rule}")
    known = {"InPlace", *(patch["part"] for patch in explained["trace"])}
    lacking = next((part for part in (later, earlier) if part not in known), None)
    if lacking:
        text = texts.LACKING_RULE
    elif not scope and not orders(rule, explained):
        text, lacking = texts.REVERSED_RULE, earlier
    else:
        text = texts.IDLE_RULE
    return text.format(rule=rule, module=call.options.value("--module"), part=lacking, later=later)


def excluding_rules(call, ids):
    """Returns the rules that make a patch of the set wait for one outside it, each with the nearest scope."""
    trace, found = call.explained["trace"], {}
    operations = [step.line for step in steps_of(call.lines)[1] if step.is_operation]
    for later in ids:
        for earlier in range(later):
            if earlier not in ids:
                between = operations.index(trace[later]["line"]) - operations.index(trace[earlier]["line"])
                scope = ("", *SCOPES)[min(between, 2)]
                found[f"{trace[later]['part']}:{scope}{trace[earlier]['part']}"] = None
    return list(found)
