"""docs/report.schema.json takes all stored reports, and refuses those that were changed.

Stored reports are those of the cases, of the page's tests, and the examples in docs/DISK.md. They are held against the
schema under Debian's Python if this one has no jsonschema: `.ci/install` installs it there.
"""

import importlib
import json
import re
import subprocess
import sys
import unittest

from reference.faults import FAULT_NAMES, numbers_of
from reference.refusals import REFUSAL_TEXTS
from reference.rules import MODULES, PARTS, ROLES, rules_of
from tests import case_files
from tests.changed_reports import changed
from tests.program import ROOT

CHECK = ROOT / "tests/schema_check.py"
SCHEMA = json.loads((ROOT / "docs/report.schema.json").read_text())
DEFS = SCHEMA["$defs"]


def interpreter():
    """This Python if it has a jsonschema that knows the schema's draft, or else Debian's."""
    try:
        importlib.import_module("jsonschema").Draft202012Validator
    except (ImportError, AttributeError):
        return "/usr/bin/python3"
    return sys.executable


def stored():
    """The texts of all stored reports, by name. A report whose case has a digest in its place is not stored."""
    cases = [case_files.read_case(path) for path in case_files.case_paths()]
    found = {f"case {case.name}": case.output.decode() for case in cases if (case.output or b"").startswith(b"{")}
    for path in sorted((ROOT / "page/test/reports").glob("*.json")):
        found[f"page {path.stem}"] = path.read_text()
    examples = re.findall(r"^\{.*\}\n", (ROOT / "docs/DISK.md").read_text(), re.MULTILINE)
    whole = [text for text in examples if " .. " not in text]
    return dict(found, **{f"DISK.md example {number}": text for number, text in enumerate(whole, 1)})


def parts_of(schema):
    """All objects of the schema, itself too."""
    if isinstance(schema, dict):
        yield schema
    for inner in schema.values() if isinstance(schema, dict) else schema if isinstance(schema, list) else ():
        yield from parts_of(inner)


def texts_of(key):
    """The texts of a definition's alternatives: what `const` says of this key of each."""
    return [one["properties"][key]["const"] for one in DEFS["kind" if key in ("kind", "name") else "refusal"]["oneOf"]]


class Reports(unittest.TestCase):
    """Reports against the schema, all in one process."""

    @classmethod
    def setUpClass(cls):
        cls.texts = stored()
        cls.good = {name: json.loads(text) for name, text in cls.texts.items()}
        cls.bad = changed(cls.good.values())
        run = subprocess.run([interpreter(), CHECK], capture_output=True, text=True, check=False,
                             input=json.dumps({"schema": SCHEMA, "good": cls.good, "bad": cls.bad}))
        if run.returncode:
            raise AssertionError(f"the reports were not held against the schema: {run.stderr}")
        cls.answer = json.loads(run.stdout)

    def test_stored_reports_are_taken(self):
        self.assertEqual(self.answer["refused"], {})

    def test_reports_of_all_places_are_stored(self):
        for place in ("case", "page", "DISK.md"):
            self.assertTrue([name for name in self.good if name.startswith(place)], place)

    def test_each_stored_report_is_of_one_kind_and_each_kind_is_stored(self):
        titles = self.answer["titles"]
        self.assertEqual({name: some for name, some in titles.items() if len(some) != 1}, {})
        self.assertEqual({title for some in titles.values() for title in some},
                         {kind["title"] for kind in SCHEMA["oneOf"]})

    def test_changed_reports_are_refused(self):
        self.assertEqual(self.answer["accepted"], [])
        self.assertGreater(len(self.bad), 1000)

    def test_numbers_are_those_of_the_texts(self):
        objects = [(name, part) for name, report in self.good.items() for part in parts_of(report)
                   if "fault_numbers" in part]
        self.assertGreater(len(objects), 20)
        for name, part in objects:
            wanted = numbers_of(part["fault"]) if "fault" in part else [numbers_of(text) for text in part["faults"]]
            self.assertEqual(part["fault_numbers"], wanted, name)

    def test_reports_are_one_line_without_spaces_and_their_keys_ascend(self):
        for name, text in self.texts.items():
            self.assertEqual(json.dumps(self.good[name], separators=(",", ":"), sort_keys=True) + "\n", text, name)


class Schema(unittest.TestCase):
    """The schema by itself."""

    def test_nothing_is_asked_beside_the_kinds(self):
        """The check asks for each kind by itself."""
        self.assertEqual(set(SCHEMA), {"$schema", "title", "description", "oneOf", "$defs"})

    def test_objects_take_no_other_keys(self):
        objects = [part for part in parts_of(SCHEMA) if part.get("type") == "object"]
        self.assertTrue(objects)
        for part in objects:
            self.assertIs(part["additionalProperties"], False, part.get("description"))
            self.assertLessEqual(set(part["required"]), set(part["properties"]), part.get("description"))

    def test_definitions_are_described_and_used(self):
        used = {part["$ref"] for part in parts_of(SCHEMA) if "$ref" in part}
        self.assertEqual(used, {f"#/$defs/{name}" for name in DEFS})
        self.assertEqual([name for name, one in DEFS.items() if not one.get("description", "").endswith(".")], [])

    def test_modules_parts_and_rules_are_those_of_the_reference(self):
        self.assertEqual(DEFS["module"]["enum"], list(MODULES))
        self.assertEqual(DEFS["role"]["enum"], list(ROLES))
        self.assertEqual(DEFS["part"]["anyOf"][1]["enum"] + ["InPlace"], list(PARTS[len(ROLES):]))
        part = f"({'|'.join(PARTS)})"
        self.assertEqual(DEFS["rule_text"]["pattern"], f"^{part}:((previous|before)-)?{part}$")
        self.assertEqual(DEFS["soft_rule"]["enum"], list(rules_of("soft")))
        for module in ("meta", "full"):
            self.assertEqual(DEFS["journal_rule"]["enum"], list(rules_of(module)))

    def test_faults_are_those_of_the_reference(self):
        names = dict(FAULT_NAMES)
        self.assertEqual(dict(zip(texts_of("kind"), texts_of("name"))), names)
        texts = [one.get("pattern") or "^" + one["const"] for one in DEFS["fault_text"]["anyOf"]]
        self.assertEqual([text.split(":")[0] for text in texts],
                         [f"^{number} {name}" for number, name in names.items()])

    def test_the_numbers_of_faults_are_those_of_their_texts(self):
        words = [re.findall("[a-z]+(?= )", text.partition(": ")[2])
                 for text in (one.get("pattern", "") for one in DEFS["fault_text"]["anyOf"])]
        numbers = [one["properties"] for one in DEFS["fault_numbers"]["oneOf"]]
        self.assertEqual([one["kind"]["const"] for one in numbers], list(FAULT_NAMES))
        self.assertEqual([set(one) for one in numbers], [{"kind", *some} for some in words])

    def test_refusals_are_those_of_the_reference(self):
        self.assertEqual(dict(zip(texts_of("number"), texts_of("text"))),
                         {number: REFUSAL_TEXTS[number] for number in (2, *range(10, 21))})


if __name__ == "__main__":
    unittest.main()
