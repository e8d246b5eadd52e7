"""The words that a line begins with, and those that people write for them."""

import dataclasses
import difflib

NOTHING, ONE, TWO = "nothing follows", "one word follows", "two words follow"


@dataclasses.dataclass(frozen=True)
class Form:
    """How a line is written, how many words follow its first one, and what people write for that."""

    text: str
    follow: str
    others: tuple = ()


FORMS = {
    "create": Form("create PATH", ONE, ("touch", "open", "new", "add")),
    "write": Form("write PATH", ONE, ("append", "echo", "put")),
    "overwrite": Form("overwrite PATH` or `overwrite PATH SLOT", "one or two words follow", ("pwrite", "rewrite")),
    "truncate": Form("truncate PATH", ONE, ("trunc",)),
    "link": Form("link OLD NEW", TWO, ("ln", "cp", "hardlink")),
    "unlink": Form("unlink PATH", ONE, ("rm", "remove", "delete", "del")),
    "rename": Form("rename OLD NEW", TWO, ("mv", "move")),
    "replace": Form("replace OLD NEW", TWO),
    "mkdir": Form("mkdir PATH", ONE, ("md", "dir")),
    "rmdir": Form("rmdir PATH", ONE, ("rd",)),
    "group": Form("group NAME", ONE),
    "end": Form("end", NOTHING),
    "depend": Form("depend LATER EARLIER", TWO, ("after",)),
    "sync": Form("sync", NOTHING, ("syncfs", "flush", "barrier")),
    "fsync": Form("fsync PATH", ONE, ("fdatasync", "Fsync")),
    "keep": Form("keep PATH` or, for up to four paths together, `keep PATH PATH PATH PATH", "one to four words follow",
                 ("promise", "expect")),
    "hold": Form("hold PATH", ONE),
    "spare": Form("spare PATH OTHER", TWO, ("backup",)),
    "start": Form("start", NOTHING, ("begin", "go", "run")),
}

LIST = ", ".join(FORMS) + " or #"
"""All words that a line begins with."""


LIKENESS = 0.7
"""How much of two words is alike, of 1 for equal words, if one resembles the other."""


def nearest(word, words):
    """Returns the word that is most like this one, or None if none resembles it."""
    return next(iter(difflib.get_close_matches(word, words, n=1, cutoff=LIKENESS)), None)


def likely_verb(word):
    """Returns the verb that was probably meant by a word that begins no line, or None."""
    for verb, form in FORMS.items():
        if word in form.others:
            return verb
    return nearest(word, FORMS)
