"""Tells one broken promise: what the smallest crash leaves of its files, and between which calls the power fails."""

from judge.crash import Crash
from judge.outcome import STATES, Verdict, listed, worst

NAMING = ("create", "mkdir", "link", "rename", "replace")


def state_of(part):
    """What a path shows that no promise allows, as a key of STATES."""
    return {"nothing": "gone", "file": "empty"}.get(part, "torn")


class Telling:
    """A promise of a recording that a report's fault breaks. `written` has the path by which each call wrote."""

    def __init__(self, system, recording, report, promise, written):
        self.system, self.lines, self.promise, self.written = system, recording.lines, promise, written
        fault = next(it for it in report["faults"] if it["fault_numbers"]["line"] == promise.line)
        self.crash, self.said = Crash(report, fault), report["promises"]
        self.own = next(it for it in self.said if it["line"] == promise.line)
        self.script_paths = self.own.get("hold") or self.own["keep"]
        self.parts, self.allowed = fault["shows"][0].split(" | "), [it.split(" | ") for it in self.own["shows"]]

    def verdict(self):
        state = self.state()
        sentence = f"{self.subject(state)} if the power fails {self.moment()}"
        return Verdict(self.system.name, self.promise.paths, state, self.promise.was_there, sentence)

    def state(self):
        """The worst of what the paths show. Several files of which each is as some moment allows are torn."""
        if len(self.parts) > 1:
            return worst([state_of(part) if part not in allowed else "torn"
                          for part, allowed in zip(self.parts, zip(*self.allowed))])
        if self.promise.kind in ("fsync", "lasting") and self.parts[0] in self.shown_before():
            return "older" if self.promise.kind == "fsync" else "undone"
        return state_of(self.parts[0])

    def shown_before(self):
        """What earlier promises of this path allow."""
        for it in self.said:
            if it["line"] < self.promise.line and (it.get("hold") or it["keep"]) == self.script_paths:
                yield from it["shows"]
                yield from (words for path, words in (spare.split(" ", 1) for spare in it["spares"])
                            if path in self.script_paths)

    def subject(self, state):
        if len(self.parts) == 1:
            return f"{self.promise.paths[0]} {STATES[state][1]}"
        ages = ["old" if part == old else "new" if part in later else state_of(part)
                for part, (old, *later) in zip(self.parts, zip(*self.allowed))]
        return listed([f"{name} is {age}" for name, age in zip(self.promise.paths, ages)])

    # The moment.

    def moment(self):
        """Between which calls the power fails."""
        behind, missing = self.last_line(), self.missing_line()
        call = self.cause(behind)
        if call is None:
            return "before anything is on the disk"
        if missing is None:
            return f"behind {call}"
        if missing != behind:
            return f"behind {call}, before {self.missing_words(missing, call)} on the disk"
        if behind in self.crash.begun_lines():
            return f"while only a part of {call}, is on the disk"
        return f"behind {call}, before it is on the disk"

    def last_line(self):
        """The line behind which the power fails: the last of which something is on the disk, or before the promise."""
        return max([0, *self.crash.begun_lines(), *(it for it in self.lines if it < self.promise.line)])

    def cause(self, line):
        """The call behind a line, or behind the last line before it that has one."""
        found = [it for it in self.lines if it <= line]
        return self.lines[max(found)].causes[0] if found else None

    def missing_line(self):
        """The first line that would mend a file, if it were on the disk."""
        newest = [None] if len(self.parts) == 1 else self.allowed[-1]
        found = [self.mending_line(path, part) for path, part, new in zip(self.script_paths, self.parts, newest)
                 if part != new]
        return next((it for it in found if it is not None), None)

    def mending_line(self, path, part):
        inode, spares = self.crash.inode_of(path), [it.split(" ")[0] for it in self.own["spares"]]
        parts = ("InodeInit",) if part == "nothing" else ("Ptr", "Touch")
        tests = [lambda line: inode is not None and self.crash.changes(line, inode, *parts),
                 lambda line: self.lines[line].words()[0] in NAMING and self.lines[line].words()[-1] == path,
                 lambda line: self.lines[line].words()[0] == "write" and self.lines[line].words()[1] in spares,
                 lambda line: self.lines[line].words()[-1] in spares]
        return next((line for fits in tests for line in self.crash.missing_lines() if fits(line)), None)

    def missing_words(self, line, behind):
        """What is not there yet: the data of a file that a call wrote before, or a call."""
        call = self.cause(line)
        if self.lines[line].words()[0] in ("write", "overwrite") and call.number < behind.number:
            return f"the data of {self.written.get(call.number, self.lines[line].paths[0])} are"
        return f"{call}, is"
