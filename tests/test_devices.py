"""What the program answers to words, files and devices of a system."""

import os
import resource
import signal
import subprocess
import tempfile
import unittest

from tests.program import program

CANNOT_READ = b"crashmap: 50 cannot read the script\n"
CANNOT_WRITE = b"crashmap: 51 cannot write the report\n"
SCRIPT = b"start\ncreate /a\n"
REPORT = (b"module async\npatches 2\nclosed 4\nfailing 1\nset 1\nwrite block 4: 1\n"
          b"fault 1 dangling entry: directory 0 entry 0 inode 1\n")
NOT_TEXT = b"error: invalid UTF-8 was detected in one or more arguments\n"


def at_most(size):
    """Lets a program write files of so many bytes at most; a write past them fails and does not end the program."""
    def limit():
        signal.signal(signal.SIGXFSZ, signal.SIG_IGN)
        resource.setrlimit(resource.RLIMIT_FSIZE, (size, size))
    return limit


class Devices(unittest.TestCase):
    def assert_refused(self, errors, *words):
        """The program refuses these words with status 2 and this on standard error, and writes nothing else."""
        run = subprocess.run([program(), *words], stdin=subprocess.DEVNULL, capture_output=True, check=False)
        self.assertEqual((run.returncode, run.stdout, run.stderr), (2, b"", errors))

    def test_a_script_that_is_not_there(self):
        self.assert_refused(CANNOT_READ, "no/such/script")

    def test_a_folder_in_place_of_a_script(self):
        self.assert_refused(CANNOT_READ, ".")

    def test_a_word_that_is_not_utf8(self):
        self.assert_refused(NOT_TEXT, b"\xff")

    def test_an_options_value_that_is_not_utf8(self):
        self.assert_refused(NOT_TEXT, "--module", b"so\xfft")

    def test_a_file_whose_reads_fail(self):
        self.assert_refused(CANNOT_READ, "/proc/self/mem")

    def test_a_folder_as_standard_input(self):
        folder = os.open(".", os.O_RDONLY)
        self.addCleanup(os.close, folder)
        run = subprocess.run([program()], stdin=folder, capture_output=True, check=False)
        self.assertEqual((run.returncode, run.stdout, run.stderr), (2, b"", CANNOT_READ))

    def test_a_script_that_comes_byte_by_byte(self):
        with subprocess.Popen([program(), "--module", "async"], stdin=subprocess.PIPE, stdout=subprocess.PIPE,
                              bufsize=0) as run:
            for byte in SCRIPT:
                run.stdin.write(bytes([byte]))
            run.stdin.close()
            self.assertEqual(run.stdout.read(), REPORT)
        self.assertEqual(run.returncode, 1)

    def test_a_device_that_is_full(self):
        with open("/dev/full", "wb") as full:
            run = subprocess.run([program()], input=b"start\n", stdout=full, stderr=subprocess.PIPE, check=False)
        self.assertEqual((run.returncode, run.stderr), (2, CANNOT_WRITE))

    def test_a_pipe_that_nobody_reads(self):
        end, pipe = os.pipe()
        os.close(end)
        self.addCleanup(os.close, pipe)
        run = subprocess.run([program()], input=b"start\n", stdout=pipe, stderr=subprocess.PIPE, check=False)
        self.assertEqual((run.returncode, run.stderr), (2, CANNOT_WRITE))

    def test_a_file_that_takes_a_beginning(self):
        for size in (0, 1, 7, len(REPORT) - 1):
            with self.subTest(size), tempfile.TemporaryFile() as file:
                run = subprocess.run([program(), "--module", "async"], input=SCRIPT, stdout=file,
                                     stderr=subprocess.PIPE, preexec_fn=at_most(size), check=False)
                file.seek(0)
                self.assertEqual((run.returncode, run.stderr, file.read()), (2, CANNOT_WRITE, REPORT[:size]))


if __name__ == "__main__":
    unittest.main()
