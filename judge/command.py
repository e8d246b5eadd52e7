"""The command line: records a command, judges it on each file system, and says what is found."""

import argparse
import pathlib
import shlex

from judge.asking import Asker
from judge.cures import Search
from judge.formats import FORMATS
from judge.judging import Judge
from judge.outcome import Cure, Outcome, baseline, listed
from judge.systems import systems
from record.command import options_of, parser_of, run
from record.trace import printable

PROGRAM = "crashmap-judge"
TOLD_COMMENTS = ("# no promise is made", "# left out by --ignore", "# lossy: ")


def chosen_systems(text):
    """The file systems of these names, in the order of the table."""
    known, asked = systems(), text.split(",")
    wrong = [it for it in asked if it not in known]
    if wrong:
        raise argparse.ArgumentTypeError(f"{printable(wrong[0])!r} is none of {', '.join(known)}")
    return tuple(it for name, it in known.items() if name in asked)


def known_breaks(path):
    try:
        return baseline(pathlib.Path(path).read_text(encoding="utf-8"))
    except (OSError, ValueError) as error:
        raise argparse.ArgumentTypeError(f"{printable(path)} cannot be read: {error}") from None


def parse(words):
    """The options: the judge's own, and those of the recorder."""
    parser = parser_of(PROGRAM, "says for each file system whether a crash can lose the files that it saves. "
                                "docs/JUDGING.md says more.")
    parser.add_argument("--on", type=chosen_systems, default=tuple(systems().values()), metavar="NAME,..",
                        help=f"ask about these file systems alone, of {', '.join(systems())}")
    parser.add_argument("--format", choices=FORMATS, default="text", help="how the outcome is written")
    parser.add_argument("--baseline", type=known_breaks, default=frozenset(), metavar="FILE",
                        help="what an earlier --format json wrote: the broken promises in it do not count")
    options = options_of(parser, words)
    if options.delay:
        parser.error("the file systems decide which blocks are late, so --delay is none of the judge's options")
    return options


def outcome_of(observed):
    """Judges what the command did. Gives the text of the outcome, and the exit status."""
    options = observed.options
    judge = Judge(observed, options.on, Asker())
    verdicts = judge.verdicts()
    broken = {it.system for it in verdicts if it.is_broken()}
    cure = Search(judge, broken).cure() if broken else Cure()
    outcome = Outcome(printable(shlex.join(options.command)), options.on, tuple(verdicts), cure, tuple(notes(judge)),
                      options.baseline)
    return FORMATS[options.format](outcome), outcome.status()


def notes(judge):
    """What the verdicts do not cover."""
    if judge.merged:
        yield (f"On {listed(list(judge.merged))} there is no room for each write, so neighbouring ones are put "
               "together, and no crash between them is seen.")
    for text in judge.plain.script.split("\n"):
        if text.startswith(TOLD_COMMENTS):
            yield f"Note: {text.removeprefix('# ')}."


def main(words):
    return run(PROGRAM, parse(words), outcome_of)
