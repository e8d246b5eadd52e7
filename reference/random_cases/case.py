"""A random case: a script with a command line."""


from ..closed_sets import closed_sets
from ..explore import start
from ..refusals import Refusal
from ..rules import ordering
from ..settings import MOST_PATCHES, Settings
from ..trace import trace

FLAGS = ("explain", "strict", "atomic", "whole_blocks", "decide", "enough", "generations", "durable", "syncs",
         "numbers")


class Case:
    """A script and its options. `words` is the whole command line where that is at fault, else None. `missing` says
    that the command line names a file that is not there. `is_big` says that the script has too many closed sets to
    enumerate. `wish` says what the case was made for."""

    def __init__(self, module, blocks=16, journal=0):
        self.module, self.blocks, self.journal = module, blocks, journal
        self.limit, self.json = None, False
        self.script = b""
        self.wish = ""
        self.words = None
        self.missing = self.is_big = False
        self.without, self.added = [], []
        self.explain = self.strict = False
        self.atomic = self.whole_blocks = self.decide = self.enough = False
        self.search = None
        self.generations = self.durable = self.syncs = self.numbers = False
        self.counted = None

    def is_plain(self):
        """Whether there is a script, and a command line that is not at fault."""
        return self.words is None and not self.missing

    def settings(self):
        """What is asked of the script."""
        flags = {name: getattr(self, name) for name in FLAGS}
        return Settings(self.module, self.blocks, self.journal, 4096 if self.limit is None else self.limit,
                        self.json, MOST_PATCHES, tuple(self.without), tuple(self.added), search=self.search,
                        counted=self.counted, **flags)

    def rules(self):
        """The rules that the options leave and put in."""
        return ordering(self.module, self.without, self.added)

    def closed_count(self, cap, rules, waiting=None):
        """The number of closed sets of the script under these rules, where the lines of `waiting` wait, or all without
        it; `Refusal` 30 where there are more than the cap, and other refusals of the script."""
        base, steps, _ = start(self.script, self.settings())
        return len(closed_sets(trace(base, steps, Settings(self.module), rules, waiting), cap))

    def has_too_many(self, cap, rules):
        """Whether there are more closed sets than the cap. A script that is refused has not."""
        try:
            self.closed_count(cap, rules)
        except Refusal as refusal:
            return refusal.number == 30
        return False

    def basic_words(self, chance):
        """The words of the options that every case has."""
        if self.words is not None:
            return self.words
        pairs = [("module", self.module, self.module != "soft" or chance.random() < 0.7),
                 ("blocks", self.blocks, self.blocks != 16 or chance.random() < 0.2),
                 ("journal", self.journal, self.journal != 0 or chance.random() < 0.2),
                 ("limit", self.limit, self.limit is not None)]
        options = [("--" + name, str(value)) for name, value, is_told in pairs if is_told]
        if chance.random() < 0.5:
            options.append(("--workers", str(chance.choice([1, 2, 3, 4, 8, 16]))))
        chance.shuffle(options)
        words = sum((joined(chance, name, value) for name, value in options), [])
        if self.json:
            words.insert(0 if chance.random() < 0.5 else len(words), "--json")
        return words


def joined(chance, name, value):
    """An option with its value: two words, or now and then one."""
    return [name + "=" + value] if chance.random() < 0.15 else [name, value]
