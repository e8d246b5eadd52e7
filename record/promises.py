"""Which promises a script makes, and what stands in for what: the lines `hold`, `keep` and `spare`."""

import collections
import dataclasses

from record import Stop
from record.trace import printable

TOGETHER = 4  # The most files of one line `keep`.


@dataclasses.dataclass
class Chosen:
    """`held` are the files that a promise is made of, and `moved` those with another name in the end, each with that
    name. `left_out` says of which files no promise is made, and why."""
    held: list
    moved: list
    left_out: list


def choose(world, first, options):
    """The promises that are asked for, or else of the files that the command changes, makes or moves."""
    now, others = world.nodes, {other for _, other in options.spare}
    touched = {it.node for it in world.events if it.kind in ("block", "truncate")}

    def files(tree):
        """The files that can have a promise."""
        return [path for path, node in sorted(tree.items()) if node.kind == "file" and path not in others
                and not world.pattern_of(path)]

    changed = [path for path in files(first) if first[path] in touched or now.get(path) is not first[path]]
    new = [path for path in files(now) if path not in first]
    asked = options.keep if options.keep or options.in_order else None
    stood_for = {path for path, _ in options.spare}
    gone = [path for path in (changed if asked is None else asked) if path in first and path not in now]
    moved = [(path, to[0]) for path in gone if path not in stood_for
             for to in [[it for it in first[path].names if first.get(it) is not first[path]]] if to]
    if asked is not None:
        return Chosen(asked, moved, [])
    deleted = [path for path in gone if path not in stood_for and path not in dict(moved)]
    left_out = [f"{printable(it)}, which is deleted (--spare names what stands in for it)" for it in deleted]
    if len(new) > options.most_new:
        left_out.append(f"the {len(new)} files that are new, since they are more than --most-new {options.most_new}")
        new = [it for it in new if it in stood_for]
    return Chosen([it for it in changed if it not in deleted] + new, moved, left_out)


class Promises:
    """Adds the lines of the promises to a script while it is written.

    `pending` has what shall stand in for what as soon as it is written, `told` what stands in for each file since the
    last promise of it, and `since` what the file held there. `acknowledged` has the version of each file that a close
    or an fsync told the command of, and `why` what the pairs lack that never came to count.
    """

    def __init__(self, script, chosen, options):
        self.script, self.chosen, self.options = script, chosen, options
        self.each = options.each_close or options.each_fsync
        self.pending, self.told, self.since = {}, collections.defaultdict(set), {}
        self.acknowledged = {node: 0 for node in script.first.values()}
        self.why = dict.fromkeys(options.spare, "the command does not change {0}")

    def begin(self):
        """The lines in front of the operations."""
        add, held = self.script.add, self.chosen.held
        for pair in self.options.in_order:
            add("keep", *pair, promise="in-order")
        if self.options.together:
            if len(held) > TOGETHER:
                raise Stop(f"--together makes a promise of up to {TOGETHER} files, and here are {len(held)}")
            add("keep", *held, promise="together")
            self.script.add("group SAVE")
        else:
            for path in held:
                self.hold(path, "hold")

    def hold(self, path, kind):
        """A promise of what the file holds here. What stood in for it until now is none of this promise."""
        self.script.add("hold", path, promise=kind)
        self.since[path] = self.script.state(path)
        self.told[path] = {(path, self.since[path])}

    # What stands in.

    def before(self, event):
        """A backup or a journal counts with what it holds when the file is about to be changed."""
        contents = self.script.names_of(event.node) if event.kind in ("block", "truncate") else ()
        changed = event.paths[1:] if event.kind == "link" else event.paths
        for path, other in self.options.spare if event.kind not in ("fsync", "sync") else ():
            if path in contents or path in changed:
                why = self.unfit(path, other, path in contents)
                if not why:
                    self.stand_in(path, other)
                elif (path, other) in self.why:
                    self.why[path, other] = why
        self.write_down()

    def unfit(self, path, other, is_content):
        """Why a file cannot stand in for one that is about to be changed, or an empty text."""
        script = self.script
        state, was = script.state(other), script.first.get(path)
        if state is None:
            return "there is no {1} when {0} is changed"
        node, _ = state
        if is_content and node is script.at.get(path):
            return "{0} and {1} are one file"
        if state == (script.first.get(other), 0) and node is not was:
            return "the command does not change {1} before {0}"
        is_empty = not script.blocks(node) and not script.waiting[node]
        return "{1} is empty when {0} is changed" if is_empty and (was is None or was.first_size > 0) else ""

    def stand_in(self, path, other):
        """It counts, though with delayed blocks it may never be on the disk."""
        self.why.pop((path, other), None)
        self.pending[path, other] = self.script.state(other)

    def behind(self, event):
        """A rename or a link gives a file another name, and a close or an fsync acknowledges what it holds."""
        if event.kind in ("rename", "replace", "link"):
            names_before = {event.paths[0], *self.script.names_of(event.node)} - {event.paths[1]}
            for path, other in self.options.spare + self.chosen.moved:
                if path in names_before and other == event.paths[1]:
                    self.stand_in(path, other)
        if self.each:
            self.acknowledge(event)
        self.write_down()
        if self.each and event.kind in ("fsync", "sync"):
            self.hold_again(event)

    def acknowledge(self, event):
        """What was acknowledged may be there, too. Of a log that is new the first fsync is the first word."""
        script = self.script
        if event.kind == "fsync" or (event.kind == "closed" and self.options.each_close
                                     and not script.writers[event.node]):
            self.acknowledged[event.node] = script.versions[event.node]
        elif event.kind == "sync":
            self.acknowledged |= {node: script.versions[node] for node in script.at.values()}
        for path in self.chosen.held:
            is_begun = event.kind == "create" and event.paths[0] == path and not self.options.each_close
            if self.is_acknowledged(path) or (is_begun and path not in script.first):
                self.pending[path, path] = script.state(path)

    def is_acknowledged(self, path):
        """Whether a close or an fsync told the command of what the path holds."""
        return self.script.state(path) in self.acknowledged.items()

    def hold_again(self, event):
        """After an fsync of a file, or of the directory that has its name, it holds nothing older."""
        for path in self.chosen.held:
            is_forced = event.kind == "sync" or event.node in (
                self.script.at.get(path), self.script.at.get(path.rpartition("/")[0]))
            if is_forced and self.is_acknowledged(path) and self.since[path] != self.script.state(path):
                self.hold(path, "fsync")

    def write_down(self):
        """The lines of what stands in, where it is as it was when it began to count, and all of it is written."""
        for pair, state in list(self.pending.items()):
            if self.script.state(pair[1]) != state:
                del self.pending[pair]
            elif not self.script.waiting[state[0]]:
                del self.pending[pair]
                if (pair[1], state) not in self.told[pair[0]]:
                    self.told[pair[0]].add((pair[1], state))
                    self.script.add("spare", *pair)

    # The end.

    def finish(self):
        """What the files hold in the end is allowed."""
        script = self.script
        for pair in self.chosen.moved + [(it, it) for it in self.chosen.held if not self.options.together]:
            if script.state(pair[1]) is not None:
                self.pending[pair] = script.state(pair[1])
        self.write_down()
        if self.options.together:
            script.add("end")
        for path in self.chosen.held if self.options.lasting else ():
            script.add("keep", path, promise="lasting")

    def check(self):
        """Refuses what was to stand in, and never did."""
        for path, other in self.options.spare:
            why = self.why.get((path, other))
            if path not in self.chosen.held:
                why = "no promise is made of {0}" if self.options.keep or self.options.in_order else (
                    "the command does not change {0}")
            elif self.options.together and len(self.chosen.held) > 1:
                why = "with --together nothing stands in for one of several files"
            if why:
                names = printable(path), printable(other)
                raise Stop(f"--spare {names[0]} {names[1]} never counts: {why.format(*names)}")
