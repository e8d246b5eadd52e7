"""Each pool can be searched as it is, and the answer is that of the reference."""

import subprocess
import sys
import unittest

from tests.program import ROOT, needs_a_proved_program, program

sys.path.insert(0, str(ROOT))

from reference.runs import run_reference

POOLS = sorted((ROOT / "pools").glob("*.script"))


class Pools(unittest.TestCase):
    @needs_a_proved_program()
    def test_each_pool_is_searched(self):
        self.assertEqual(len(POOLS), 9)
        for pool in POOLS:
            with self.subTest(pool.stem):
                words = ["--blocks", "24", "--search", "2", "--strict"]
                wanted = run_reference(words, pool.read_bytes())
                self.assertIn(wanted.status, (0, 1))
                run = subprocess.run([program(), *words], input=pool.read_bytes(), capture_output=True, check=False)
                self.assertEqual((run.returncode, run.stdout, run.stderr), (wanted.status, wanted.out, wanted.err))

    def test_each_pool_names_its_command(self):
        for pool in POOLS:
            text = pool.read_text()
            self.assertIn("# ./crashmap pools/%s --blocks 24 --search 2 --strict\n" % pool.name, text)
            self.assertIn("start\n", text)


if __name__ == "__main__":
    unittest.main()
