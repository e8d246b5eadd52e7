"""What bench/time_crates.py counts and keeps."""

import pathlib
import sys
import tempfile
import unittest
from unittest import mock

ROOT = pathlib.Path(__file__).resolve().parent.parent
sys.path.insert(0, str(ROOT / "bench"))

import time_crates
import weights

SOURCE = """//! Words.

ghost use Rattle.std.specs.Prelude.{◌≡◌};

/// One more.
pub fn next(x: u8) -> u8
    requires { x < 255 }
    ensures { result ≡
        x + 1 }
{
    x + 1
}
"""

PRINTED = """rt: low proved
rt: high proved
time: low: 12 seconds of proof, 0 of tests, 30 of wrong bodies, 0.9 minutes by the clock
time: cut: 5 seconds of proof, 0 of tests, 0 of wrong bodies, 0.1 minutes by the clock
time: high: 1.5 minutes of processor time, 0.5 of them on edits, 2.0 by the clock
"""


class Weights(unittest.TestCase):
    def test_lines(self):
        self.assertEqual(weights.kinds_of_lines(SOURCE), (4, 4))
        self.assertEqual(len(weights.FUNCTION.findall(SOURCE)), 1)

    def test_what_a_run_printed(self):
        self.assertEqual(time_crates.printed(PRINTED), {"low": {"proof": 12, "tests": 0, "edits": 30},
                                                        "high": {"proof": 60, "edits": 30}})

    def test_what_stands_below(self):
        libraries = weights.libraries_of(ROOT)
        self.assertIn("state_space", weights.below("crashmap", libraries))
        self.assertNotIn("question_laws", weights.below("crashmap", libraries))

    def test_partial_runs_are_put_together(self):
        with tempfile.TemporaryDirectory() as folder, mock.patch.object(weights, "STATES", pathlib.Path(folder)):
            weights.keep("begin", ROOT, {"state_space": {"proof": 20, "edits": 0.4}})
            weights.keep("begin", ROOT, {"state_space": {"proof": 0.2, "edits": 7}, "hands": {"proof": 60}})
            kept = weights.load("begin")["crates"]
            self.assertEqual(kept["state_space"]["seconds"], {"proof": 20, "edits": 7})
            self.assertEqual(kept["hands"]["seconds"], {"proof": 60})
            self.assertEqual(weights.minutes([kept["state_space"], kept["hands"]], ("proof",)), (80 / 60, 0))
            weights.keep("end", ROOT, {})
            self.assertRegex(weights.page(), r"\| minutes of the gate \| 1\.4 \(without \d+ crates\) \|")


if __name__ == "__main__":
    unittest.main()
