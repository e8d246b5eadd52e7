"""The commands and tables of docs/FINDINGS.md that do not take long find what the page says."""

import re
import unittest

from tests.findings import findings, printed_by
from tests.program import needs_a_proved_program


@needs_a_proved_program()
class Findings(unittest.TestCase):
    def test_what_is_found(self):
        quick = [finding for finding in findings() if not finding.is_slow]
        self.assertGreaterEqual(len(quick), 9)
        for finding in quick:
            with self.subTest(" ".join(finding.words)):
                self.assertEqual(finding.make(finding.words), finding.wanted)


@needs_a_proved_program()
class SingleRules(unittest.TestCase):
    """Which single rules that reach back keep a save by a new file which has no fsync, under soft updates."""

    def test_the_rules_that_the_page_names(self):
        parts = re.findall(r"^  (\w+) +", printed_by(["--rules"]).partition("The parts are:")[2], re.MULTILINE)
        self.assertEqual(len(parts), 19)
        reports = {(later, earlier): printed_by(["gallery/save-without-fsync.script", "--decide", "--with",
                                                 f"{later}:before-{earlier}"]) for later in parts for earlier in parts}
        self.assertTrue(all("\nclosed " in report for report in reports.values()))
        self.assertEqual({pair for pair, report in reports.items() if "\nfault " not in report},
                         {(later, earlier) for later in ("EntrySet", "LinkUp", "InPlace")
                          for earlier in ("Ptr", "InPlace")})


if __name__ == "__main__":
    unittest.main()
