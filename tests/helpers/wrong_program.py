"""wrong_program.py MODE WORD..: answers as the reference does, or wrongly as the mode says.

right: as the reference. silent: nothing, with status 0. status: another exit status. errors: more on standard error.
digit: one digit more in a report. workers: one line less in a report by four workers. slow: no answer.
It answers `--decide` by the reference's second way.
"""

import pathlib
import sys
import time

sys.path.insert(0, str(pathlib.Path(__file__).resolve().parent.parent.parent))
from reference.runs import run_reference, run_second_way


def spoiled(mode, words, run):
    """The run as the mode changes it."""
    if mode == "silent":
        return run._replace(status=0, out=b"", err=b"")
    if mode == "status":
        return run._replace(status=(run.status + 1) % 3)
    if mode == "errors":
        return run._replace(err=run.err + b"warning\n")
    if mode == "digit" and run.status < 2:
        return run._replace(out=run.out.replace(b"closed ", b"closed 1").replace(b'"closed":', b'"closed":1'))
    if mode == "workers" and "4" in words and run.status < 2:
        return run._replace(out=run.out[run.out.index(b"\n") + 1:])
    return run


def main(mode, words):
    """Answers, and gives the exit status."""
    if mode == "slow":
        time.sleep(60)
    script = b"" if any(word.endswith(".script") for word in words) else sys.stdin.buffer.read()
    run = spoiled(mode, words, (run_second_way if "--decide" in words else run_reference)(words, script))
    sys.stdout.buffer.write(run.out)
    sys.stderr.buffer.write(run.err)
    return run.status


if __name__ == "__main__":
    sys.exit(main(sys.argv[1], sys.argv[2:]))
