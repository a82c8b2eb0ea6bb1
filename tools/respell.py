#!/usr/bin/env python3
"""Respells this repository's own names as today's Rattle spells names: words in snake case, types in camel case, primes as apostrophes.

usage: respell.py [--check] [ROOT]

Run once, behind port.py. A name turns where a file of specs/, or a file of lemmas in proofs/, declares it. It turns in every .antt file, in the clauses
and ghost items of .rt files, and in their comments where it stands between backticks. Functions of src/ and what C sees keep their names. A name that
comes from a library in a file stays in that file. --check prints the table and the names that fall together, and writes nothing.
"""

import collections
import os
import re
import sys

WORD = r"[^\s(){}.;,@\"«»\[\]]+"
SIGNATURE = re.compile(
    r"\s*(?:unfoldable |abbrev |pattern )*(?:pub )?(?:record |data )?((?:" + WORD + r"\s+)*" + WORD + r")\s+"
    r"(?:\{[^}]*\}\s+|\([^)]*\)\s+)*:\s"
)
# Names that would fall together with another of the same spelling, or with a name of the library, and what they are called instead.
OTHER = {
    "getD-mem": "get_or_mem",
    "getD-map": "get_or_map",
    "sameArea": "is_same_area",
}
# Names that were in this spelling already, where a definition now takes it: in the files that declare them or take them from a crate of ours.
MOVED = {
    "by_bytes": "by_bytes_lem",
    "is_live": "is_live_lem",
    "no_place": "no_place_lem",
    "size_word": "size_word_lem",
    "read_answer": "same_read_answer",
}
# Names that are declared in a way that SIGNATURE does not see: parts of operators, bound names.
MORE = """refused-by given-when octets-image octets-text octets-base octets-path octets-new not-old ps-long quotient-linear old-names above-names
rw-s whatever-follows in-entries under-it blockSpots""".split()
# Names of capitals: as they are.
STAYS = re.compile(r"^[A-Z₀-₉0-9_]+$")


def respelled(name):
    """The name in today's spelling."""
    if name in OTHER:
        return OTHER[name]
    if "→" in name:
        return name.replace("-", "_")
    out = []
    for part in name.replace("-", "_").split("_"):
        if part[:1].islower():
            part = re.sub(r"(?<=[a-z0-9₀-₉])([A-Z])(?=[a-z0-9]|$)", lambda m: "_" + m[1].lower(), part)
        out.append(part)
    return "_".join(out).replace("′", "'")


def files(root):
    for folder, folders, names in os.walk(os.path.join(root, "crates")):
        folders[:] = sorted(f for f in folders if f != "out")
        for name in sorted(names):
            if name.endswith((".antt", ".rt")):
                yield os.path.join(folder, name)


def is_lemmas(path, root):
    parts = os.path.relpath(path, root).split(os.sep)
    return path.endswith(".antt") and (parts[2] == "specs" or len(parts) == 4)


def declared(root):
    """The names that specs/ and the files of lemmas declare, each with the files that do."""
    found = collections.defaultdict(set)
    for path in files(root):
        if not is_lemmas(path, root):
            continue
        with open(path, encoding="utf-8") as f:
            for line in f:
                line = line.split("--")[0]
                m = SIGNATURE.match(line)
                if m:
                    for word in m[1].split():
                        found[word].add(path)
    return found


def table(root):
    found = declared(root)
    turned = {}
    for name in [*found, *MORE]:
        to = respelled(name)
        if to != name and not STAYS.match(name):
            turned[name] = to
    # a lemma that would have its definition's name
    by = collections.defaultdict(set)
    for name, to in turned.items():
        by[to].add(name)
    for to, names in by.items():
        plain = [n for n in names if "-" in n]
        if len(names) > 1 or (to in found and plain):
            for name in plain:
                if name not in OTHER:
                    turned[name] = to + "_lem"
    return turned, found


TOKEN = re.compile(r"--[^\n]*|" + WORD)


def from_elsewhere(text):
    """The names that a file takes from a library that is not this repository's."""
    names = set()
    for m in re.finditer(r"use ([\w'.·+◌-]+?)\.\{([^}]*)\}", text):
        if not re.match(r"Rattle\.(?!std\b|core\b|io\b|libc\b)", m[1]):
            names |= set(re.findall(WORD, m[2]))
    return names


def moved(path, text, found, root):
    """The names of MOVED that this file speaks of."""
    own = {name for name in MOVED if is_lemmas(path, root) and path in found.get(name, ())}
    for m in re.finditer(r"use Rattle\.[\w'.]+\.\{([^}]*)\}", text):
        own |= set(re.findall(WORD, m[1])) & set(MOVED)
    return {name: MOVED[name] for name in own}


def turn_antt(path, text, turned, found, root):
    elsewhere = from_elsewhere(text)
    own = moved(path, text, found, root)
    # what the function itself proves is named after it
    named = {}
    if not is_lemmas(path, root):
        named = {m[0]: m[0].replace("-", "_") for m in re.finditer(r"(?<![\w.-])\+?[a-z0-9_-]+-spec(?![\w-])", text)}

    def one(m):
        word = m[0]
        if word in named:
            return named[word]
        if word in own and text[m.start() - 1 : m.start()] != ".":
            return own[word]
        if word.startswith("--"):
            return re.sub(r"`([^`\n]+)`", lambda s: "`" + re.sub(WORD, lambda w: turned.get(w[0], w[0]), s[1]) + "`", word)
        return word if word in elsewhere else turned.get(word, word)

    return TOKEN.sub(one, text)


CLAUSE = re.compile(r"(?:\b(?:requires|ensures)\b\*?(?:[ \t]+\w+)?[ \t]*\{|\bghost\b[^;{]*\{)")


def clauses(text):
    """The places of a .rt file that are read as antt: begin and end of each."""
    for m in CLAUSE.finditer(text):
        depth, at = 1, m.end()
        while depth:
            depth += {"{": 1, "}": -1}.get(text[at], 0)
            at += 1
        yield m.start(), at


def turn_rt(text, turned):
    elsewhere = from_elsewhere(text)
    out, done = [], 0
    for begin, end in clauses(text):
        if begin < done:
            continue
        out.append(text[done:begin])
        out.append(re.sub(WORD, lambda w: w[0] if w[0] in elsewhere else turned.get(w[0], w[0]), text[begin:end]))
        done = end
    out.append(text[done:])
    return "".join(out)


def main():
    words = [a for a in sys.argv[1:] if a != "--check"]
    root = words[0] if words else "."
    turned, found = table(root)
    if "--check" in sys.argv:
        by = collections.defaultdict(list)
        for name, to in sorted(turned.items()):
            print(name, to, sep="\t")
            by[to].append(name)
        for to, names in sorted(by.items()):
            if len(names) > 1 or to in found:
                print("together:", to, names, "and itself" if to in found else "")
        return
    count = 0
    for path in files(root):
        with open(path, encoding="utf-8") as f:
            text = f.read()
        new = turn_rt(text, turned) if path.endswith(".rt") else turn_antt(path, text, turned, found, root)
        new = new.replace("′", "'")
        if new != text:
            count += 1
            with open(path, "w", encoding="utf-8") as f:
                f.write(new)
    print(f"respelled {len(turned)} names in {count} files")


if __name__ == "__main__":
    main()
