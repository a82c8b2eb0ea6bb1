"""The names in docs/PROMISES.md, by the conventions in its first lines, looked up one by one; then those in the other documents. A line with
names is one check. What looks like a name and cannot be placed is a failure. Ends with the count."""

import re
import sys
from pathlib import Path

TOP = Path(__file__).resolve().parents[2]
CRATES = {path.name for path in (TOP / "crates").iterdir() if path.is_dir()}
OTHERS = ["README.md", "docs/ARCHITECTURE.md", "docs/LINKING.md", "docs/DESK.md", "docs/DECISIONS.md", "docs/TRUST.md"]
# where the files of a test stand, and what a name in backticks leaves out
TESTS = {"tests/compare": ("tests/compare/tests", ".rs"), "tests/model": ("model/tests", ".rs"), "tests/bindings": ("tests/bindings", "")}
ROOTS = "crates|tests|docs|tools|include|bindings|cli|model|examples"
TOKEN = re.compile(
    rf"(?P<bold>\*\*[^*]+\*\*)|(?P<label>\*[^*\s]+\*)|`(?P<ticked>[^`]+)`|(?P<path>\b(?:{ROOTS})/[\w./-]*\w)"
    r"|(?P<code>\b\w+(?:::\w+)+)|(?P<word>\w+)|(?P<mark>\S)"
)

# names found, by kind; lines with names, and those of them with one that is not there
found = {}
lines = set()
failed = set()


def check(kind, where, name, holds):
    """Counts one name of a kind, in a line."""
    lines.add(where)
    if holds:
        found[kind] = found.get(kind, 0) + 1
    else:
        print(f"FAILED: {where}: no {kind} {name}")
        failed.add(where)


def texts(crate, folder, ending):
    return [path.read_text() for path in sorted((TOP / "crates" / crate / folder).glob(f"*{ending}"))]


def read_specs(crate):
    """The public names of a crate's definitions and theorems, in specs or proofs, the fields of its records as Record.field, and their text."""
    names, whole = set(), "\n".join(texts(crate, "specs", ".antt") + texts(crate, "proofs", ".antt"))
    record, depth = None, 0
    for line in whole.split("\n"):
        indent = len(line) - len(line.lstrip())
        if record and line.strip() and indent <= depth:
            record = None
        said = re.match(r"\s*(?:abbrev |unfoldable )*pub (record |data )?([^\s({:]+)", line)
        if not said or said[2] == "mod":
            continue
        if record:
            names.add(f"{record}.{said[2]}")
        else:
            names.add(said[2])
        if said[1] == "record ":
            record, depth = said[2], indent
    return names, whole


def read_code(crate):
    """Functions, constants and types of a crate's code, those of an impl as Type::name."""
    names, owner = set(), None
    for line in "\n".join(texts(crate, "src", ".rt")).split("\n"):
        impl = re.match(r"impl(?:<[^>]*>)? (\w+)(?:<[^>]*>)? \{", line)
        owner = impl[1] if impl else None if line.startswith("}") else owner
        said = re.match(r'\s*(?:pub )?(?:extern "C" )?(?:fn|const|static|struct|enum) (\w+)', line)
        if said:
            names.add(f"{owner}::{said[1]}" if owner and line.startswith(" ") else said[1])
    return names


SPECS = {crate: read_specs(crate) for crate in CRATES}
CODE = {crate: read_code(crate) for crate in CRATES}


def test_file(folder, name):
    """The file of a test; a part of the model's document counts for tests/compare if it is run there."""
    within, ending = TESTS[folder]
    if folder == "tests/compare" and name.startswith("document/"):
        within = "model/tests"
        if f"/{name}.rs" not in (TOP / "tests/compare/tests/document.rs").read_text():
            return None
    path = TOP / within / f"{name}{ending}"
    return path if path.is_file() else None


def ticked(where, at, name, record):
    """A name in backticks after a crate or a test; answers the record that it names, and the file if it is a test."""
    if at in TESTS:
        path = test_file(at, name)
        check("test", where, f"{at} `{name}`", path)
        return record, path
    if at not in CRATES:
        check("place", where, f"for `{name}`", False)
        return record, None
    names, whole = SPECS[at]
    if name.endswith(".antt"):
        check("file", where, f"{at} {name}", any((TOP / "crates" / at / folder / name).is_file() for folder in ("specs", "proofs")))
    elif " : " in name:
        check("theorem", where, f"{at} {name}", f"\npub {name}\n" in whole)
    elif name.startswith("."):
        check("field", where, f"{at} {record}{name}", f"{record}{name}" in names)
    else:
        check("field" if "." in name else "definition", where, f"{at} {name}", name in names)
        record = name.split(".")[0]
    return record, None


def edit(where, at, label):
    folder = "tests/definitions/edits" if at == "tests/definitions" else f"crates/{at}/must-fail"
    check("edit", where, f"{at} *{label}*", at and (TOP / folder / f"{label}.edit").is_file())


def scan(where, text, at=None):
    """One cell or paragraph; at is the crate or test that a column's head has named."""
    record = code = path = None
    tokens = list(TOKEN.finditer(text))
    for k, token in enumerate(tokens):
        kind, said = token.lastgroup, token[0]
        before = tokens[k - 1][0] if k else ""
        after = tokens[k + 1][0] if k + 1 < len(tokens) else ""
        if kind == "bold":
            check("mark", where, said, said == "**open**")
        elif kind == "label":
            edit(where, at, said.strip("*"))
        elif kind == "ticked":
            record, path = ticked(where, at, token["ticked"], record)
            continue
        elif kind == "path":
            check("path", where, said, (TOP / said).exists())
            at, code = said, None
        elif kind == "code" and said.split("::")[0] in CRATES:
            code, name = said.split("::", 1)
            check("function", where, said, name in CODE[code])
            at = code
        elif code and kind in ("code", "word") and said[0].isalpha() and before == "," and after in (",", ";", ".", ":", "(", ")", ""):
            check("function", where, f"{code}::{said}", said in CODE[code])
        elif kind == "word" and said in CRATES:
            at, code = said, None
        elif kind == "word" and path and before in ("(", ",") and after in (",", ")"):
            case = rf"\bfn {said}\(" if path.suffix == ".rs" else rf"\b{said}\("
            check("case", where, f"{said} in {path.relative_to(TOP)}", re.search(case, path.read_text()))
        elif kind == "code" or "_" in said or said in "`*":
            check("place", where, f"for {said}", False)
        elif said == ";":
            code = None
        # cases stand in parentheses right behind their test
        if said == ")" or not (said == "(" or before in ("(", ",")) and said != ",":
            path = None


def promises():
    """Tables cell by cell, other text paragraph by paragraph, from the first heading on."""
    text = (TOP / "docs/PROMISES.md").read_text()
    rows, begun, heads, paragraph = 0, False, None, []
    for n, line in enumerate(text.split("\n") + [""], 1):
        begun = begun or line.startswith("## ")
        if not begun:
            continue
        where = f"docs/PROMISES.md:{n}"
        cells = [cell.strip() for cell in line.strip("|").split("|")] if line.startswith("|") else None
        if not cells:
            heads = None
        if paragraph and (cells or not line.strip() or line.startswith("#")):
            scan(where, " ".join(paragraph))
            paragraph = []
        if cells and heads is None:
            heads = [next((word for word in cell.split() if word in CRATES), None) for cell in cells]
        elif cells and not set(line) <= set("|-: "):
            rows += 1
            if len(cells) != len(heads):
                check("row", where, f"of {len(heads)} cells", False)
            scan(where, cells[0])
            for cell, head in zip(cells[1:], heads[1:]):
                scan(where, cell, head)
        elif line.strip() and not cells and not line.startswith("#"):
            paragraph.append(line)
    return rows


def document(name):
    """The functions of crates and the paths that a document names in backticks, outside of programs that it shows."""
    shown = False
    for n, line in enumerate((TOP / name).read_text().split("\n"), 1):
        if line.startswith("```"):
            shown = not shown
        for span in re.findall(r"`([^`]+)`", "" if shown else line):
            where = f"{name}:{n}"
            for crate, function in re.findall(r"\b(\w+)::(\w+(?:::\w+)?)", span):
                if crate in CRATES:
                    check(f"name in {name}", where, f"{crate}::{function}", function in CODE[crate])
            if re.match(rf"(?:{ROOTS})/", span):
                check(f"name in {name}", where, span, any(TOP.glob(span.rstrip("/"))))


rows = promises()
print(f"docs/PROMISES.md: {rows} rows; " + ", ".join(f"{kind} {count}" for kind, count in sorted(found.items())))
for name in OTHERS:
    document(name)
    print(f"{name}: {found.get(f'name in {name}', 0)} names")
print(f"{len(lines - failed)} passed, {len(failed)} failed")
sys.exit(bool(failed))
