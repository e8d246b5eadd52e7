"""Recordings for other programs: a command is observed once, and gives as many scripts as are asked for.

    options = record.command.parse(["--spare", "f", "f~", "--", "vim", "f"])
    observed = observe(options)                           # runs the command
    recording = observed.recording()                      # the script, and the call that each line comes from
    delayed = observed.recording(delay=True, merge=True)  # another script of the same run
    script, added = candidates.with_candidates(recording) # the script with fsyncs that could be added, and these

`observe` and `recording` raise `Stop` where there is no script, and `NothingPromised` where it would have no promise.
All paths of files are relative to the directory, and all lines are counted from 1.
"""

import argparse
import collections
import dataclasses
import os
import shlex
import shutil
import tempfile

from record import NothingPromised, Stop, trace
from record.calls import Calls
from record.merging import merged
from record.promises import Promises, choose
from record.script import AS_EXT4, SIZES, Script
from record.trace import printable
from record.tree import difference, snapshot
from record.world import Event


@dataclasses.dataclass(frozen=True)
class Spare:
    """What stands in for a file from a line on: what `other` holds there. `other` is the file itself where a line
    allows what the file holds."""
    line: int
    other: str


@dataclasses.dataclass(frozen=True)
class Promise:
    """A line that promises. `kind` is one of these:

    `hold`: the old contents, or what `spares` say. A file that was not there before is absent or whole.
    `fsync`: the same from an fsync on. `together`: all old or all new. `in-order`: the second file's new contents are
    never there with the first one's old ones. `lasting`: what is there when the command has ended.
    """
    line: int
    kind: str
    paths: tuple
    was_there: bool
    spares: tuple = ()


@dataclasses.dataclass(frozen=True)
class Recording:
    """A script, and the calls that its lines come from.

    `promises` are in the order of their lines, and `lines` has those that change a file or wait by their numbers.
    `names` has the real path for each path of the script.
    """
    script: str
    promises: tuple
    lines: dict
    names: dict


def below(top, path):
    """A path that the user names, as one below the directory."""
    directory, name = os.path.split(os.path.join(top, path))
    found = os.path.relpath(os.path.join(os.path.realpath(directory), name), top)
    if found.split("/")[0] in ("..", "."):
        raise Stop(f"{printable(path) or 'an empty path'} is not below the current directory")
    return found


def ended(status):
    """The words for a command's exit status, which is negative where a signal ended it."""
    return f"the command ended with status {status}" if status > 0 else f"signal {-status} ended the command"


def observe(options: argparse.Namespace) -> "Observed":
    """Runs the command of these options under strace, and follows what it does to the files of the directory.

    The trace is kept at the end, where `--trace` asks for it, since it can be in the directory.
    """
    top = os.path.realpath("/proc/self/cwd")
    options.keep = [below(top, it) for it in options.keep]
    options.spare, options.in_order = ([(below(top, one), below(top, other)) for one, other in pairs]
                                       for pairs in (options.spare, options.in_order))
    if shutil.which(options.command[0]) is None:
        raise Stop(f"there is no command {printable(options.command[0])}")
    world = Calls(top, snapshot(top, options.block), options)
    with tempfile.NamedTemporaryFile("r", prefix="crashmap-record-", encoding="latin-1") as written:
        status = trace.run(options.command, Calls.HANDLERS, written.name, options.output is not None)
        lines = written.readlines()
    if not lines:
        raise Stop("strace could not trace the command")
    try:
        return Observed(world, options, status, lines)
    finally:
        with open(options.trace or os.devnull, "w", encoding="latin-1") as kept:
            kept.writelines(lines)


class Observed:
    """What a command did. It is followed once, and can be written down in several ways. `wrong` says why it cannot.

    `warnings` is for standard error, and `status` is the command's exit status, negative where a signal ended it.
    """

    def __init__(self, world, options, status, lines):
        self.world, self.options, self.status = world, options, status
        self.first = dict(world.nodes)
        world.follow(list(trace.read(lines)), options.command)
        self.warnings = (ended(status),) if status else ()
        self.warnings += tuple(f"{printable(it)} is outside the directory, and is changed or renamed: the script does "
                               "not have it" for it in world.outside.changed)
        wrong = "\n".join(world.faults) or difference(world.top, options.block, world.nodes)
        self.wrong = wrong or "\n".join(
            f"{option} {printable(path)}: there is no such file, before the command and behind it"
            for option, paths in (("--keep", options.keep), ("--in-order", sum(options.in_order, ())))
            for path in paths if not any(path in it and it[path].kind == "file" for it in (self.first, world.nodes)))

    def recording(self, **changed) -> Recording:
        """The recording with the options of the command line, but for those named here: `delay`, `merge` and what is
        promised. `fsyncs` are added: pairs of the number of a call and the path that is forced behind it."""
        options = argparse.Namespace(**{"fsyncs": (), **vars(self.options), **changed})
        if self.wrong:
            raise Stop(self.wrong)
        chosen = choose(self.world, self.first, options)
        events, more = merged(self.world.events) if options.merge else self.world.events, collections.Counter()
        script = self.written(events, chosen, options, more)
        while script.contents.alike:
            one, other = script.contents.alike
            more[one if isinstance(one, str) else other] += 1
            script = self.written(events, chosen, options, more)
        return self.recorded(script, chosen, options)

    def written(self, events, chosen, options, more):
        """The script, where a block is written over as often as `more` says."""
        watched = {*chosen.held, *(it for pair in options.spare + chosen.moved + options.in_order for it in pair)}
        script = Script(self.world, self.first, options, watched, more)
        promises = Promises(script, chosen, options)
        script.base()
        promises.begin()
        last = {call.first: event for event in events for call in event.calls()}
        for event in events:
            promises.before(event)
            script.take(event)
            promises.behind(event)
            for path in ["" if it == "." else it for number, it in options.fsyncs if last.get(number) is event]:
                if path in script.at:  # A call of several lines can take the name away.
                    script.take(Event("fsync", event.call, script.at[path], (path,)))
                    promises.write_down()
        script.flush(list(script.waiting))
        if not any(it.causes for it in script.lines):
            raise NothingPromised("the command changed nothing in this directory")
        promises.finish()
        if not chosen.held and not options.in_order:
            raise NothingPromised("no promise is made: " + ("; ".join(
                f"none of {it}" for it in chosen.left_out) or "no file is changed or made"))
        promises.check()
        return script

    def recorded(self, script, chosen, options):
        """The recording of a script."""
        head = list(self.head(script, options))
        lines = dict(enumerate(script.lines, len(head) + 1))
        return Recording(
            script="\n".join([*head, *(it.text for it in script.lines), *self.comments(script, chosen)]) + "\n",
            promises=tuple(self.promise(number, it, lines) for number, it in lines.items() if it.promise),
            lines={number: it for number, it in lines.items() if it.causes},
            names={"/": ".", **{script.names.path(real): real for real in script.names.parts}})

    def promise(self, number, line, lines):
        """The promise of a line, with the spares behind it that are about its one file."""
        spares = [Spare(at, it.paths[1]) for at, it in lines.items()
                  if at > number and it.text.startswith("spare ") and (it.paths[0],) == line.paths]
        return Promise(number, line.promise, line.paths, all(it in self.first for it in line.paths), tuple(spares))

    def head(self, script, options):
        """The comments in front of the script."""
        places = "is forced, where ext4 writes it out," if options.delay == AS_EXT4 else "is forced,"
        delay = f"; a file gets its new blocks where it {places} or at the end" if options.delay else ""
        yield f"# crashmap: {' '.join(SIZES)}"
        yield f"# recorded: {printable(shlex.join(options.command))}"
        yield f"# a block stands for {options.block} bytes{delay}"
        for real in sorted(script.names.parts):
            if script.names.path(real) != "/" + real:
                yield f"# {script.names.path(real)} is {printable(real)}"

    def comments(self, script, chosen):
        """The comments behind the script: what it leaves out, and how large it is."""
        if self.status:
            yield f"# {ended(self.status)}"
        for path in sorted(script.names.dropped):
            yield f"# left out of all paths, since nothing in it changes: {printable(path)}"
        several = sum(it.writes > 1 for it in script.lines)
        if several:
            yield f"# merged: {several} of the lines, each for several writes, between which no crash comes"
        for it in chosen.left_out:
            yield f"# no promise is made of {it}"
        for pattern, count in self.world.ignored.items():
            yield f"# left out by --ignore {printable(pattern)}: {count} changes"
        yield f"# {script.patches} patches with no ordering and under soft updates"
