"""Holds reports against a schema, under a Python that has jsonschema.

Standard input is an object with `schema`, `good` and `bad`; the last two have reports by name. Standard output is an
object with `titles`, which has for each good report the title of its kind; `refused`, which has what is wrong with each
good report that the schema refuses; and `accepted`, the names of the bad reports that it takes.
"""

import json
import sys

try:
    from jsonschema import Draft202012Validator
    from jsonschema.exceptions import best_match
except ImportError:
    sys.exit(f"{sys.executable} has no jsonschema of today; .ci/install installs python3-jsonschema")


def titles(validator, report):
    """The titles of the kinds that the report is of. The schema takes it if there is one. To ask kind by kind is much
    faster than to ask for them all, since each stops at its first error."""
    return [kind["title"] for kind in validator.schema["oneOf"] if validator.evolve(schema=kind).is_valid(report)]


def told(validator, report):
    """Where a refused report is wrong, and how."""
    error = best_match(validator.iter_errors(report))
    return f"{error.json_path}: {error.message[:1000]}"


def main():
    job = json.load(sys.stdin)
    Draft202012Validator.check_schema(job["schema"])
    validator = Draft202012Validator(job["schema"])
    kinds = {name: titles(validator, report) for name, report in job["good"].items()}
    json.dump({"titles": kinds,
               "refused": {name: told(validator, job["good"][name]) for name, some in kinds.items() if len(some) != 1},
               "accepted": [name for name, report in job["bad"].items() if len(titles(validator, report)) == 1]},
              sys.stdout)


if __name__ == "__main__":
    main()
