"""What helps where the command line is refused: the word that was meant, or the rules that the module has."""

import re

import texts
from rules import known_to, parts_of
from verbs import nearest

LAUNCHER_WORDS = ("--hints", "--prove", "--proved")
NO_RULE = re.compile(r"error: invalid value '([^']*:[^']*)' for '--with(?:out)? <RULE>': it is no rule")
OTHER_RULE = re.compile(r"error: invalid value '[^']*' for '--without <RULE>': the module has no such rule")
UNKNOWN_WORD = re.compile(r"error: unexpected argument '(--[^']+)' found")


def hint_on_words(call):
    """Returns what helps, or None if nothing does. Of the program's options and their values it says that itself."""
    if found := NO_RULE.match(call.said):
        return meant(texts.MEANT, likely_part(found[1], known_to(call)[1]))
    if OTHER_RULE.match(call.said):
        return rules_it_has(call)
    if found := UNKNOWN_WORD.match(call.said):
        return meant(texts.LAUNCHER_WORD, nearest(found[1], LAUNCHER_WORDS))
    return None


def meant(text, likely):
    """Returns the text with the word that was probably meant, or None if none resembles the one that is refused."""
    return likely and text.format(likely=likely)


def likely_part(rule, parts):
    """Returns the part that was probably meant by the first part of the rule that is none of these, or None."""
    later, _, earlier = parts_of(rule)
    unknown = next((it for it in (later, earlier) if it not in parts), None)
    return unknown and nearest(unknown, parts)


def rules_it_has(call):
    """Returns which rules the module has."""
    rules = known_to(call)[0]
    text = texts.RULES_OF if rules else texts.NO_RULES
    return text.format(module=call.options.value("--module"), rules=" ".join(rules))
