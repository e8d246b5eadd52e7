"""Makes the page: one HTML file that holds its style, its code and a report, and fetches nothing.

The code in `src/` is ES modules. `joined` puts them into one script, each in a function of its own, after those that
it imports. So a name is seen where it is declared or imported and nowhere else, and the page also works from a file,
where a browser loads no modules.
"""

import json
import pathlib
import re

HERE = pathlib.Path(__file__).resolve().parent
FIRST_MODULE = "start"

IMPORT = re.compile(r'^import \{([^}]*)\} from "\./(\w+)\.js";$', re.MULTILINE)
EXPORT = re.compile(r"^export (?=(?:async function|function|const|class) (\w+))", re.MULTILINE)
EXPORT_LIST = re.compile(r"^export \{([^}]*)\};$", re.MULTILINE)
OTHER_FORM = re.compile(r"^(?:import|export)\b.*$", re.MULTILINE)


class StitchError(Exception):
    """The modules cannot be joined; the text says why."""


def names_in(text):
    return [name.strip() for name in text.split(",") if name.strip()]


class Module:
    """One file of the code: what it imports from which file, what it exports, and its text without either."""

    def __init__(self, name, text):
        self.name = name
        self.imports = {source: names_in(names) for names, source in IMPORT.findall(text)}
        self.exports = EXPORT.findall(text) + [one for names in EXPORT_LIST.findall(text) for one in names_in(names)]
        self.body = EXPORT_LIST.sub("", EXPORT.sub("", IMPORT.sub("", text))).strip("\n")
        other = OTHER_FORM.search(self.body)
        if other:
            raise StitchError(f"{name}.js: stitch does not know this form: {other.group()}")
        if "</script" in text or "<!--" in text:
            raise StitchError(f"{name}.js: it holds </script or <!--, which would end the script in the page")

    def as_function(self):
        lines = [f"const module_{self.name} = (() => {{"]
        lines += [f"const {{ {', '.join(names)} }} = module_{source};" for source, names in self.imports.items()]
        lines += [self.body, f"return {{ {', '.join(self.exports)} }};", "})();"]
        return "\n".join(lines)


def read_module(folder, name, asking):
    try:
        return Module(name, (folder / f"{name}.js").read_text(encoding="utf-8"))
    except FileNotFoundError:
        raise StitchError(f"{asking}.js imports from {name}.js, and there is no such file") from None


def in_order(folder, name, ordered, above):
    """Puts a module into `ordered`, after all that it imports; `above` are the modules that led to it."""
    if name in ordered:
        return
    if name in above:
        raise StitchError("modules import each other in a circle: " + " -> ".join([*above, name]))
    module = read_module(folder, name, above[-1] if above else name)
    for source, names in module.imports.items():
        in_order(folder, source, ordered, [*above, name])
        missing = [one for one in names if one not in ordered[source].exports]
        if missing:
            raise StitchError(f"{name}.js imports {', '.join(missing)} from {source}.js, which does not export it")
    ordered[name] = module


def joined(folder=HERE / "src", first=FIRST_MODULE):
    """The modules that `first` needs, and it, as one script."""
    ordered = {}
    in_order(folder, first, ordered, [])
    unused = sorted({path.stem for path in folder.glob("*.js")} - set(ordered))
    if unused:
        raise StitchError(f"nothing imports {', '.join(name + '.js' for name in unused)}")
    return "\n\n".join(module.as_function() for module in ordered.values())


def as_script_text(text):
    """The text without a `<`, so that it cannot end the script element that holds it. JSON keeps its meaning."""
    return text.replace("<", "\\u003c")


def page_of(report, run=None):
    """The page as bytes. `report` are the bytes of a report, or None: then the page asks for one.

    `run` says what the report does not: a dictionary with `report` (the report's name), and where they are known
    `script` (its name), `text` (its lines) and `words` (what the program was run with).
    """
    parts = {
        "@STYLE@": (HERE / "style.css").read_text(encoding="utf-8"),
        "@RUN@": as_script_text(json.dumps(run)),
        "@REPORT@": "" if report is None else as_script_text(report.decode("utf-8", errors="replace")),
        "@CODE@": joined(),
    }
    frame = (HERE / "frame.html").read_text(encoding="utf-8").splitlines()
    return "".join(parts.get(line, line).rstrip("\n") + "\n" for line in frame).encode("utf-8", errors="replace")
