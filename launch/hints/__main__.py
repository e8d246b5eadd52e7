"""Runs crashmap's program, and then says on standard error what helps.

`python3 launch/hints PROGRAM OPTION.. -- [SCRIPT]` gets the words as `./crashmap` has read them: each option in one
word with its value, and the name of the script. A script without a name comes from the open file 3: Python does not
start where its standard input is a folder. No answer depends on hints: the program gives each answer, and the exit
status is the program's.
"""

import os
import signal
import sys
import tempfile
import traceback

import texts
from call import Call, Number, Options, Unanswered, refusal_in
from command_line import hint_on_words
from refusals import MOST_SCRIPT_BYTES, hint_on
from reports import remarks_on
from running import run, say, write_all

REFUSED = 2
"""The status of a refusal."""

INPUT = 3
"""The open file that a script without a name comes from."""


def read_script(call):
    """Reads the script, up to one byte more than the program takes, or notes why the system does not read it."""
    try:
        with open(INPUT if call.name is None else call.name, "rb") as source:
            call.script = source.read(MOST_SCRIPT_BYTES + 1).decode("latin-1")
    except OSError as reason:
        call.reason = reason


def reads_script(call):
    """Returns whether the words ask for an answer. If they do, the program refuses an empty script for its missing line
    `start`."""
    refusal = refusal_in(call.ask(call.options.words).stderr)
    return refusal is not None and refusal.number == Number.NO_START


def as_given(call, scripts):
    """Returns the program with all its words, so that it reads the script itself, or refuses the words."""
    return [call.program, *call.options.words, *(["--", *scripts] if scripts else [])]


def answer(call, scripts):
    """Runs the program as it was asked, on the script that is read here."""
    if call.name is None and os.isatty(INPUT) and os.isatty(2):
        say(f"crashmap: {texts.READS_INPUT}\n".encode())
    read_script(call)
    if call.script is None:
        run(call, as_given(call, scripts), INPUT)
        return
    with tempfile.TemporaryFile() as script:
        script.write(call.script.encode("latin-1"))
        script.seek(0)
        run(call, [call.program, *call.options.words], script)


def write_report(call):
    """Writes the report that was kept, or refuses the answer if standard output does not take it."""
    try:
        write_all(1, call.report.encode("latin-1"))
    except OSError:
        call.status, call.said = REFUSED, f"crashmap: {texts.CANNOT_WRITE}\n"
        say(call.said.encode())


def remarks_after(call):
    """Returns each text that helps after a run, behind `hint` or `warning`."""
    if call.status == REFUSED:
        text = hint_on(call) if call.refusal else hint_on_words(call)
        return [("hint", text)] if text else []
    return [] if call.script is None else remarks_on(call)


def give_hints(call):
    """Writes what helps after a run. Whatever fails here, the answer is given already, and its status stays."""
    try:
        for kind, text in remarks_after(call):
            say("".join(f"{kind}: {line}\n" for line in text.split("\n")).encode(errors="surrogateescape"))
    except Unanswered:
        pass
    except Exception:
        traceback.print_exc()


def end(status):
    """Ends as the program has ended: with its status, or by the signal that ended it."""
    if status < 0:
        signal.signal(-status, signal.SIG_DFL)
        os.kill(os.getpid(), -status)
    sys.exit(status)


def main(program, *words):
    signal.signal(signal.SIGINT, signal.SIG_DFL)
    at = words.index("--")
    options, scripts = Options(list(words[:at])), words[at + 1:]
    call = Call(program, options, next(iter(scripts), None))
    if len(scripts) > 1 or not reads_script(call):
        run(call, as_given(call, scripts), INPUT)
    else:
        answer(call, scripts)
    if call.status >= 0:
        write_report(call)
        give_hints(call)
    end(call.status)


main(*sys.argv[1:])
