"""Replay, the checker and the planner answer on images that no operation makes as the reference does.

The program `hostile_images` reads a list of images.
"""

import subprocess
import sys
import unittest

from tests.program import ROOT, images_program, needs_a_proved_program

sys.path.insert(0, str(ROOT))
from reference.noise import images, listed


@needs_a_proved_program("the program that reads images is built where crashmap is proved")
class HostileImages(unittest.TestCase):
    def assert_answered(self, shape, blocks, journal):
        """The program answers on each image of a shape and size as the reference does."""
        lines = images.lines(shape, blocks, journal)
        run = subprocess.run([images_program()], input="\n".join(lines), capture_output=True, text=True,
                             check=False)
        self.assertEqual((run.returncode, run.stderr), (0, ""))
        answers = run.stdout.split("image ")[1:]
        self.assertEqual(len(answers), len(lines))
        for line, answer in zip(lines, answers):
            wanted = listed.lines(line)
            self.assertEqual(("image " + answer).splitlines(), wanted, wanted[0])

    def test_images_of_noise(self):
        for shape in images.SHAPES:
            for blocks, journal in images.SIZES:
                with self.subTest(shape=shape, blocks=blocks):
                    self.assert_answered(shape, blocks, journal)


if __name__ == "__main__":
    unittest.main()
