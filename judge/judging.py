"""Judges what a command did: a verdict for each promise on each file system."""

import contextlib
import functools

from judge.asking import Refused
from judge.outcome import Verdict, worst
from judge.telling import Telling
from record import NothingPromised, Stop, command
from record.script import SIZES

NO_ROOM = ("the command does more than crashmap's disk has room for (--ignore PATTERN leaves files out, and --block "
           "BYTES makes fewer blocks)")


class Judge:
    """What a command did, and what crashmap says of it on each of the file systems. `merged` has the names of those
    where neighbouring writes were put together, since there was no room for each."""

    def __init__(self, observed, systems, asker):
        self.observed, self.systems, self.asker, self.merged = observed, systems, asker, {}
        self.scripts = [(system, words) for system in systems for words in system.recordings]
        self.plain = self.with_room((), (), lambda recording: recording)
        self.written = {call.number: it.paths[0] for it in self.plain.lines.values() for call in it.causes
                        if it.words()[0] in ("write", "overwrite")}

    @functools.cache
    def recording(self, words, merges, fsyncs):
        """The recording with these words of the recorder, and with fsyncs that the command does not make: pairs of the
        number of a call and a path. Raises `Stop` where there is none."""
        return self.observed.recording(delay=command.parse([*words, "--", "true"]).delay, fsyncs=fsyncs,
                                       merge=merges or self.observed.options.merge)

    def with_room(self, words, fsyncs, use):
        """What `use` gives of the recording, or of one with neighbouring writes put together, if there is no room for
        each. Raises `Refused`, or another `Stop` where there is no recording."""
        try:
            return use(self.recording(words, False, fsyncs))
        except Stop as stop:
            if isinstance(stop, NothingPromised) or (isinstance(stop, Refused) and not stop.is_no_room()):
                raise
            return use(self.recording(words, True, fsyncs))

    def decided(self, system, words, fsyncs=()):
        """A recording, and crashmap's report on it. Raises what `with_room` does."""
        return self.with_room(words, fsyncs, lambda it: (it, self.asker.ask(*question(system, it))))

    def tellings(self, system, words, fsyncs=()):
        """A recording, and what is to be told of each of its promises that a crash breaks."""
        recording, report = self.decided(system, words, fsyncs)
        lines = {it["fault_numbers"]["line"] for it in report["faults"]}
        return recording, {it: Telling(system, recording, report, it, self.written)
                           for it in recording.promises if it.line in lines}

    def prepare(self, fsyncs=()):
        """Asks at the same time what `decided` asks of all file systems."""
        questions = []
        for system, words in self.scripts:
            with contextlib.suppress(Stop):  # `decided` puts writes together, or says why there is no recording.
                questions.append(question(system, self.recording(words, False, fsyncs)))
        self.asker.ask_all(questions)

    def verdicts(self):
        """The verdicts on all promises, in the order of the file systems."""
        self.prepare()
        found = {}
        for system, words in self.scripts:
            for it in self.verdicts_of(system, words):
                found.setdefault((it.system, it.paths), []).append(it)
        return [next(it for it in same if it.state == worst([it.state for it in same])) for same in found.values()]

    def verdicts_of(self, system, words):
        """A verdict for each promise of one script of a file system."""
        try:
            recording, broken = self.tellings(system, words)
        except Refused as refused:
            why = NO_ROOM if refused.is_no_room() else f"crashmap refuses the script: {refused}"
            return [Verdict(system.name, it.paths, "unknown", it.was_there, why) for it in self.plain.promises]
        if any(it.writes > 1 for it in recording.lines.values()):
            self.merged[system.name] = True
        return [broken[it].verdict() if it in broken else Verdict(system.name, it.paths, "kept", it.was_there)
                for it in recording.promises]


def question(system, recording, *words):
    """A script, and the words for crashmap."""
    return recording.script, (*SIZES, *system.options, *(words or ("--decide",)))
