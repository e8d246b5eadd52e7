"""Bytes of the replayed images of a whole family of closed sets."""

from ..disk import DIRECTORY, DIRECTORY_MARK, ENTRIES, INODES, JOURNAL_START
from ..replay import COMMITTED, DONE
from .order import Order

MOST_COPIES = 8
"""The most blocks that a header names."""


class Undecided(Exception):
    """The sets of a family do not answer alike. The patch tells them apart."""

    def __init__(self, patch):
        super().__init__(patch)
        self.patch = patch


class Problem:
    """The base and the patches of a script, its promises, what counts as a fault, the kept inodes under `--strict`, the
    disks between operations under `--atomic`, and the patches that write each byte, ascending."""

    def __init__(self, base, patches, judge, promises):
        self.base, self.patches, self.kept, self.disks = base, patches, judge.kept, judge.disks
        self.counts, self.promises = judge.counts, promises
        self.order = Order(patches)
        self.writers = {}
        for p, patch in enumerate(patches):
            self.add_writers(p, patch)
        self.copies = self.places_of_copies()
        self.values, self.names = {}, {}

    def add_writers(self, p, patch):
        """Takes in what a patch writes."""
        for k, byte in enumerate(patch.new):
            self.writers.setdefault((patch.block, patch.offset + k), []).append((p, byte))

    def written(self, block, offset):
        """All that a byte can be before replay."""
        return {self.base.byte(block, offset)} | {byte for _, byte in self.writers.get((block, offset), ())}

    def places_of_copies(self):
        """The blocks of the journal that can be a copy of each block."""
        found = {}
        for header in range(JOURNAL_START, JOURNAL_START + self.base.journal):
            for m in range(MOST_COPIES):
                for block in self.written(header, 3 + m):
                    found.setdefault(block, set()).add(header + 1 + m)
        return found

    def possible(self, block, offset):
        """All that a byte can be after replay, and maybe more."""
        if (block, offset) not in self.values:
            places = {place for place in self.copies.get(block, ()) if place < self.base.blocks}
            self.values[block, offset] = set().union(*(self.written(one, offset) for one in places | {block}))
        return self.values[block, offset]

    def possible_of(self, inode, k):
        """All that byte k of an inode can be."""
        return self.possible(*place_of(inode, k))

    def places(self, inode):
        """The entries that can name an inode, as blocks with numbers of entries."""
        if inode not in self.names:
            self.names[inode] = [(block, k) for block in range(self.base.root_block(), self.base.blocks)
                                 for k in range(ENTRIES) if inode + 1 in self.possible(block, entry_offset(k))]
        return self.names[inode]

    def directories(self):
        """The inodes that can be directories."""
        return {inode for inode in range(INODES) if DIRECTORY in self.possible_of(inode, 0)}

    def blocks_of(self, directory):
        """The blocks that a directory can have."""
        return sorted(filter(self.base.in_data_area, self.possible_of(directory, 4)))


def place_of(inode, k):
    """The block and the offset of byte k of an inode."""
    return 2 + inode // 8, 16 * (inode % 8) + k


def entry_offset(k):
    """The offset of entry k in the block of a directory."""
    return 8 + 12 * k


def itself(byte):
    """The question for the byte itself."""
    return byte


def equals(wanted):
    """The question whether a byte is this one."""
    return lambda byte: byte == wanted


def tried(ask):
    """The answer, or how the sets of the family are told apart."""
    try:
        return ask()
    except Undecided as split:
        return split


def all_of(*asks):
    """Whether every answer is yes. One that is surely no settles it, whatever is undecided."""
    split = None
    for ask in asks:
        answer = tried(ask)
        if answer is False:
            return False
        split = split or answer if isinstance(answer, Undecided) else split
    if split is not None:
        raise split
    return True


def between(asks, low, high):
    """Whether the number of answers that are yes is from `low` to `high`."""
    answers = [tried(ask) for ask in asks]
    yes = answers.count(True)
    splits = [answer for answer in answers if isinstance(answer, Undecided)]
    if yes > high or yes + len(splits) < low:
        return False
    if yes < low or yes + len(splits) > high:
        raise splits[0]
    return True


class Reader:
    """Answers questions on bytes, the same for all sets of a family, or raises `Undecided`."""

    def __init__(self, problem, inside, outside):
        self.problem, self.inside, self.outside = problem, inside, outside
        self.found = None

    def raw(self, block, offset, question):
        """The answer on a byte before replay."""
        current = self.problem.base.byte(block, offset)
        open_writers = []
        for p, byte in self.problem.writers.get((block, offset), ()):
            if self.inside >> p & 1:
                current = byte
            elif not self.outside >> p & 1:
                open_writers.append((p, byte))
        answer = question(current)
        changing = [p for p, byte in open_writers if question(byte) != answer]
        if changing:
            raise Undecided(changing[0])
        return answer

    def header(self, block, transaction):
        """The blocks that the header of a transaction in this block names, or None."""
        base = self.problem.base
        if not self.raw(block, 0, lambda byte: byte in (COMMITTED, DONE)):
            return None
        if not self.raw(block, 1, equals(transaction)):
            return None
        count = self.raw(block, 2, itself)
        if not 1 <= count <= MOST_COPIES or block + count > 3 + base.journal:
            return None
        targets = [self.raw(block, 3 + m, itself) for m in range(count)]
        if any(one >= other for one, other in zip(targets, targets[1:])):
            return None
        if not all(target in (1, 2, 3) or base.in_data_area(target) for target in targets):
            return None
        return targets

    def headers(self):
        """The headers of the journal up to the first that is none."""
        if self.found is None:
            self.found = self.read_headers()
        return self.found

    def read_headers(self):
        """As `headers`, read again."""
        found = []
        block, transaction = JOURNAL_START, 1
        while block < JOURNAL_START + self.problem.base.journal:
            targets = self.header(block, transaction)
            if targets is None:
                break
            found.append((block, targets))
            block, transaction = block + 1 + len(targets), transaction + 1
        return found

    def ask(self, block, offset, question):
        """The answer on a byte after replay. The last transaction that is not done and has a copy of the block
        decides, where that matters at all."""
        answers = set(map(question, self.problem.possible(block, offset)))
        if len(answers) == 1:
            return answers.pop()
        for header, targets in reversed(self.headers()):
            if block in targets and self.raw(header, 0, equals(COMMITTED)):
                return self.raw(header + 1 + targets.index(block), offset, question)
        return self.raw(block, offset, question)

    def inode(self, inode, k, question):
        """The answer on byte k of an inode."""
        return self.ask(*place_of(inode, k), question)

    def live(self, inode):
        """Whether an inode is not free."""
        return self.inode(inode, 0, lambda byte: byte != 0)

    def counts(self, directory, block):
        """Whether a directory counts, with this block."""
        return all_of(lambda: self.inode(directory, 4, equals(block)),
                      lambda: self.inode(directory, 0, equals(DIRECTORY)),
                      lambda: self.has_mark(block, DIRECTORY_MARK, directory))

    def has_mark(self, block, mark, inode):
        """Whether the block says that it belongs to this inode, and of which kind it is."""
        return all_of(lambda: self.ask(block, 0, equals(mark)), lambda: self.ask(block, 1, equals(inode)),
                      lambda: not self.problem.base.generations
                      or self.ask(block, 2, equals(self.inode(inode, 2, itself))))

    def has_entry(self, directory, block, k, inode):
        """Whether an inode is named by entry k of a directory that counts, with this block."""
        return all_of(lambda: self.ask(block, entry_offset(k), equals(inode + 1)),
                      lambda: self.counts(directory, block))

    def entries(self, directory, inode):
        """The questions whether each entry of a directory names an inode."""
        blocks = self.problem.blocks_of(directory)
        return [lambda block=block, k=k: self.has_entry(directory, block, k, inode)
                for block, k in self.problem.places(inode) if block in blocks]

    def all_entries(self, inode):
        """The questions whether each entry of any directory names an inode."""
        return [ask for directory in range(INODES) for ask in self.entries(directory, inode)]

    def known_names(self, directory, inode):
        """Whether a directory names an inode, or how the sets of the family are told apart."""
        return tried(lambda: between(self.entries(directory, inode), 1, INODES * ENTRIES))

    def reached(self, inode):
        """Whether a path leads to an inode."""
        if not all_of(lambda: self.inode(0, 0, equals(DIRECTORY)), lambda: self.live(inode)):
            return False
        on_the_way = self.problem.directories() | {inode}
        surely, _ = self.reached_from_root(on_the_way, False)
        if inode in surely:
            return True
        maybe, splits = self.reached_from_root(on_the_way, True)
        if inode not in maybe:
            return False
        raise splits[0]

    def reached_from_root(self, on_the_way, with_maybe):
        """Those of some inodes that entries lead to, and that may be there as well where that is asked for, and how the
        sets of the family are told apart."""
        known, splits, fresh = {0}, [], [0]
        while fresh:
            directory = fresh.pop()
            for other in sorted(on_the_way - known):
                answer = self.known_names(directory, other)
                if isinstance(answer, Undecided):
                    splits.append(answer)
                if answer is True or with_maybe and answer is not False:
                    known.add(other)
                    fresh.append(other)
        return known, splits
