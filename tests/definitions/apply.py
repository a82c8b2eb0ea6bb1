"""Apply an edit's pairs of 'old:' and 'new:' lines to a file; each old text must stand there exactly once."""
import sys

edit, path = sys.argv[1:]
text = open(path, encoding="utf-8").read()
old = None
for line in open(edit, encoding="utf-8"):
    line = line.rstrip("\n")
    if line.startswith("old: "):
        old = line[5:]
    elif line.startswith("new: "):
        if text.count(old) != 1:
            sys.exit(f"{edit}: {text.count(old)} places have: {old}")
        text = text.replace(old, line[5:])
open(path, "w", encoding="utf-8").write(text)
