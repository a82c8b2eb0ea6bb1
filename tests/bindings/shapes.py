"""The exports as Rattle, C and Rust declare them, held against each other: functions, structs, refusals, limits, the order of checks. Ends with
the count."""

import re
import sys
from pathlib import Path

top = Path(__file__).resolve().parents[2]
rattle = (top / "crates/nffs/src/lib.rt").read_text()
answers = (top / "crates/calls/src/lib.rt").read_text()
whole = (top / "include/nffs.h").read_text()
header = whole.replace("NFFS_ANSWERS ", "")
manifest = (top / "bindings/rust/Cargo.toml").read_text()
program = (top / "cli/Cargo.toml").read_text()
raw = (top / "bindings/rust/src/raw.rs").read_text()
crate = (top / "bindings/rust/src/lib.rs").read_text()
linking = (top / "docs/LINKING.md").read_text()
refusal = (top / "bindings/rust/src/refusal.rs").read_text()

POINTER_C = {"&[u8]": "const uint8_t *", "&mut [u8]": "uint8_t *", "&[Descriptor]": "const nffs_area *"}
POINTER_RUST = {"&[u8]": "*const u8", "&mut [u8]": "*mut u8", "&[Descriptor]": "*const Area"}
# what a struct of Rattle is called in C and in the Rust crate
STRUCTS = {
    "Descriptor": ("nffs_area", "Area"),
    "Handle": ("nffs_handle", "Handle"),
    "Report": ("nffs_report_answer", "ReportAnswer"),
    "AreaReport": ("nffs_area_answer", "AreaAnswer"),
    "Lookup": ("nffs_lookup_answer", "LookupAnswer"),
    "Opened": ("nffs_open_answer", "OpenAnswer"),
    "ReadAnswer": ("nffs_read_answer", "ReadAnswer"),
    "TreeAnswer": ("nffs_tree_answer", "TreeAnswer"),
    "Created": ("nffs_create_answer", "CreateAnswer"),
}

passed = failed = 0


def check(what, left, right):
    global passed, failed
    if left == right and left:
        passed += 1
    else:
        failed += 1
        print(f"FAILED: {what}: {left} against {right}")


def parameters(text):
    """The types of 'name: type, ..'."""
    found = [p.split(":", 1)[1].strip() for p in text.split(",") if p.strip()]
    return [re.sub(r"'\w+ ", "", p) for p in found]


def expected(types, answer, pointers, size, number, name):
    """A function's types in C or Rust: a slice is a pointer and a length."""
    out = []
    for t in types:
        if t in pointers:
            out += [pointers[t], size]
        elif t == "u32":
            out.append(number)
        else:
            out.append(name(t.removeprefix("&mut "), True))
    return out, number if answer == "u32" else name(answer, False)


def in_c(t, lent):
    return STRUCTS[t][0] + (" *" if lent else "")


def in_rust(t, lent):
    return ("*mut " if lent else "") + STRUCTS[t][1]


exports = re.findall(r'#\[unsafe\(no_mangle\)\]\s*pub extern "C" fn (\w+)(?:<[^>]*>)?\((.*?)\)\s*->\s*(\w+)', rattle, re.S)
bare = re.sub(r"/\*.*?\*/", "", header, flags=re.S)
prototypes = {
    name: ([re.sub(r"\w+$", "", p.strip()).strip() for p in args.split(",")], answer)
    for answer, name, args in re.findall(r"^(\w+) (nffs_\w+)\(([^)]*)\);", bare, re.M)
}
declared = {
    name: (parameters(args), answer)
    for name, args, answer in re.findall(r"pub fn (nffs_\w+)\(([^)]*)\)\s*->\s*(\w+);", raw)
}
check("the exported functions, C", sorted(e[0] for e in exports), sorted(prototypes))
check("the exported functions, Rust", sorted(e[0] for e in exports), sorted(declared))
for name, args, answer in exports:
    types = parameters(args)
    check(f"{name}, C", expected(types, answer, POINTER_C, "size_t", "uint32_t", in_c), prototypes.get(name))
    check(f"{name}, Rust", expected(types, answer, POINTER_RUST, "usize", "u32", in_rust), declared.get(name))


def fields(text, form, name):
    """The fields of a struct, in order; each is 32 bits."""
    body = re.search(form % name, text, re.S)
    found = re.findall(r"(?:pub (\w+): u32,|uint32_t (\w+);)", body.group(1)) if body else []
    return [a or b for a, b in found]


RUST_STRUCT = r"#\[repr\(C\)\](?:\s*#\[[^\]]*\])*\s*pub struct %s \{(.*?)\n\}"
C_STRUCT = r"typedef struct %s \{(.*?)\}"
for name, (c, rust) in STRUCTS.items():
    known = fields(answers, RUST_STRUCT, name)
    check(f"{name}, C", known, fields(bare, C_STRUCT, c))
    check(f"{name}, Rust", known, fields(crate if rust in ("Area", "Handle") else raw, RUST_STRUCT, rust))

numbers = {name: int(n) for name, n in re.findall(r"NFFS_(\w+) = (\d+)\b", bare.split("NFFS_DIRECTORY")[0])}
said = dict(re.findall(r'case NFFS_(\w+): return "([^"]*)"', bare))
check("each number has its words", list(numbers), list(said))
check("the numbers go from 0 on", list(numbers.values()), list(range(len(numbers))))
variants = re.search(r"pub enum Refusal \{(.*?)\n\}", answers, re.S).group(1)
refused = [(re.sub(r"(?<=[a-z])(?=[A-Z])", "_", n).upper(), int(i)) for n, i in re.findall(r"(\w+) = (\d+),", variants)]
check("the numbers, Rattle and C", refused, [(n, i) for n, i in numbers.items() if i > 0])
listed = [(n, int(i), w) for n, i, w in re.findall(r'^\s+([A-Z_]+) (\d+) "([^"]*)";', refusal, re.M)]
check("the refusals, C and Rust", [(n, i, said.get(n)) for n, i in numbers.items() if i > 0], listed)

kinds = re.findall(r"NFFS_AREA_(\w+) = (\d+)\b", bare)
rust_kinds = re.search(r"pub enum AreaKind \{(.*?)\n\}", crate, re.S).group(1)
check("the kinds of areas, C", re.findall(r"pub const AREA_(\w+): u32 = (\d+);", answers), kinds)
check("the kinds of areas, C and Rust", [(n.replace("_", ""), i) for n, i in kinds], [(n.upper(), i) for n, i in re.findall(r"(\w+) = (\d+),", rust_kinds)])
sizes = {c: 4 * len(fields(answers, RUST_STRUCT, name)) for name, (c, _) in STRUCTS.items()}
check("the sizes of structs, docs/LINKING.md", sizes, {c: int(n) for n, c in re.findall(r"^\| [^|]+ \| (\d+) \| `(nffs_\w+)` \|", linking, re.M)})


def joined(words):
    """Words as the document names them: a slice that is not parted by its own name."""
    return re.sub(r"([\w ]+) pointer, \1 length", r"\1", ", ".join(words))


def passed_as(args, answer):
    """A row of the table of registers, by the System V convention: six words in registers, the others on the stack."""
    words = []
    for parameter in args.split(","):
        name = parameter.split()[-1].lstrip("*")
        if name.endswith(("_length", "_count")):
            words[-1:] = [f"{words[-1]} pointer", f"{words[-1]} length"]
        else:
            words.append(name.replace("_", " "))
    fifth, sixth = (words[4:6] + ["", ""])[:2]
    returned = {"uint32_t": "`eax`", "nffs_create_answer": "`rax`", "nffs_tree_answer": "`rax`"}.get(answer, "`rax`, `edx`")
    return [joined(words[:2]), joined(words[2:4]), fifth, sixth, joined(words[6:]), returned]


# an answer of more than 16 bytes is written to memory, and the document says in words what that moves
rows = re.findall(r"^\| ((?:`nffs_\w+`(?:, )?)+) \| (\w+) \| (\w+) \| ([\w ]*?) ?\| ([\w ]*?) ?\| ([\w, ]*?) ?\| (`[^|]+`) \|$", linking, re.M)
registers = {name: list(row[1:]) for row in rows for name in re.findall(r"nffs_\w+", row[0])}
computed = {name: passed_as(args, answer) for answer, name, args in re.findall(r"^(\w+) (nffs_\w+)\(([^)]*)\);", bare, re.M) if "report" not in name}
for name in sorted(computed):
    check(f"how the arguments of {name} pass, docs/LINKING.md", computed[name], registers.get(name))


def limit(name, text):
    """The number that a constant is given."""
    return re.findall(rf"\b{name}(?:: usize)? = (\d+)\b", text)


areas_most, inodes_most, blocks_most = (limit(f"MOST_{of}", answers) for of in ("AREAS", "INODES", "BLOCKS"))
for known, name in ((areas_most, "MOST_AREAS"), (limit("MOST_APPENDED", answers), "APPEND_MOST")):
    check(f"{name}, C", known, limit(f"NFFS_{name}", bare))
    check(f"{name}, Rust", known, limit(f"pub const {name}", crate))
# the bound is a theorem's
words = next(path for folder in ("specs", "proofs") if (path := top / "crates/tree_told" / folder / "Words.antt").is_file())
tree_most = re.findall(r"length \(tree_text .*\) ≤ (\d+)$", words.read_text(), re.M)
check("TREE_MOST, C", tree_most, limit("NFFS_TREE_MOST", bare))
check("TREE_MOST, Rust", tree_most, limit("pub const TREE_MOST", crate))
check("the longest text, docs/LINKING.md", [f"{int(n):,}" for n in tree_most], re.findall(r"([\d,]+) bytes \(`NFFS_TREE_MOST`", linking))
for where, text in (("C", whole), ("Rust", crate)):
    check(f"the most areas in words, {where}", areas_most, re.findall(r"1 to (\d+) areas", text))
check("the most areas, docs/LINKING.md", areas_most * 2, re.findall(r"(?:at most |with: 1 to )(\d+)(?: areas|, of 128)", linking))
most_ids = [f"more than {int(i):,} inode ids or {int(b):,} block ids" for i, b in zip(inodes_most, blocks_most)]
check("the most ids in words", most_ids, [said.get("TOO_MANY_IDS")])
check("the most ids, docs/LINKING.md", most_ids, [f"more than {i} inode ids or {b} block ids" for i, b in re.findall(r"([\d,]+) inode ids and ([\d,]+) block ids", linking)])

version = re.findall(r'#define NFFS_VERSION ("[^"]+")', whole)
check("the version, C and Rust", version, re.findall(r"^version = (.+)$", manifest, re.M))
check("the version, command-line program", version, re.findall(r"^version = (.+)$", program, re.M))
for folder in ("bindings/rust", "cli", "fuzz", "tests/compare"):
    locked = (top / folder / "Cargo.lock").read_text()
    check(f"the version, lock of {folder}", version, sorted(set(re.findall(r'name = "nffs(?:-cli)?"\nversion = (.+)$', locked, re.M))))
marked = re.findall(r"^NFFS_ANSWERS (?:static inline )?\w+ (nffs_\w+)\(", whole, re.M)
check("calls whose answer must be looked at", sorted(marked), sorted(re.findall(r"^(?:static inline )?(?:uint32_t|nffs_\w+_answer) (nffs_\w+)\(", header, re.M)))

ORDER = r"Checks in order: [^.]*\."


def orders(text, comment, function):
    """The order of checks that stands above each function."""
    found = re.findall(rf"{comment}{function}", text, re.M | re.S)
    return {name: " ".join(re.search(ORDER, re.sub(r"\s*///\s?|\s+", " ", said)).group(0).split()) for said, name in found if re.search(r"Checks", said)}


in_header = orders(header, r"/\*((?:(?!\*/).)*)\*/\n", r"\w+ nffs_(\w+)\(")
check("the order of each call's checks, C and Rust", in_header, orders(crate, r"((?:^///[^\n]*\n)+)", r"pub fn (\w+)\("))
check("each call says it", sorted("nffs_" + name for name in in_header), sorted(prototypes))

print(f"{passed} passed, {failed} failed")
sys.exit(failed != 0)
