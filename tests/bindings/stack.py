"""The stack that each exported call of an archive needs at most, from its code, the return address included.

stack.py ARCHIVE prints 'call bytes'. Through each function the depth of the stack is followed along every jump; a call adds what its
callee needs, and what is used below the stack pointer (the red zone) is counted in. The loop by which a frame longer than a page is touched page
by page is known by its form. Functions that call each other in turn are counted as often as FRAMES says, and a call that would be one more is taken
as never made. What cannot be followed so, as any other recursion, jumps through tables, a computed stack pointer or a return at another depth than
the entry's, is an error. What memset and the like need of their own, outside the archive, comes on top.
"""

import functools
import re
import subprocess
import sys

# How often a function can stand on the stack. The tree of a volume is shown by two that call each other: `show_directory` shows its entries, and
# `show_entry` the directory that an entry is. Both are given how many levels are left: 64 for the root, and for the entries of a directory one
# less than it was given itself. With 0 a directory shows no entry. It is by this number that they are proved to end (crates/tree_show). So there
# are at most 65 of the first at a time, with 64 to 0 levels, and 64 of the second. Where the compiler puts one into the other, that calls
# itself, and its own number holds.
FRAMES = {"tree_show::show_directory": 65, "tree_show::show_entry": 64}

LINE = re.compile(r"^\s*([0-9a-f]+):\s+(\S+)\s*(.*)$")
PADDING = re.compile(r"nop|cs nop|data16|xchg +%ax,%ax|int3")
OUTSIDE = {"memset", "memcpy", "memmove", "memcmp"}


def functions(archive):
    """Each function's instructions: address, name, operands, and the symbol of a relocation."""
    text = subprocess.run(["objdump", "-dr", "--no-show-raw-insn", archive], check=True, capture_output=True, text=True).stdout
    found, code = {}, None
    for line in text.splitlines():
        head = re.match(r"^[0-9a-f]+ <(.+)>:$", line)
        if head:
            code = found.setdefault(head.group(1), [])
        elif "R_X86_64_" in line:
            symbol = re.sub(r"[-+]0x[0-9a-f]+$", "", line.split()[-1]).removeprefix(".text.")
            code[-1][3] = symbol
        elif code is not None and (m := LINE.match(line)):
            code.append([int(m.group(1), 16), m.group(2), m.group(3), None])
    return found


def step(name, operands):
    """How much deeper the stack is after an instruction."""
    if name == "push":
        return 8
    if name == "pop":
        return -8
    by = re.match(r"\$(-?0x[0-9a-f]+),%rsp$", operands)
    if name in ("sub", "add") and by:
        return int(by.group(1), 16) * (1 if name == "sub" else -1)
    # an `add` that leaves the flags as they are
    by = re.match(r"(-?0x[0-9a-f]+)\(%rsp\),%rsp$", operands)
    if name == "lea" and by:
        return -int(by.group(1), 16)
    if operands.endswith(",%rsp") and name not in ("cmp", "test"):
        sys.exit(f"the stack pointer is set in a way that is not known: {name} {operands}")
    return 0


def below(operands):
    """How far below the stack pointer an instruction reads or writes."""
    return max((int(by, 16) for by in re.findall(r"-(0x[0-9a-f]+)\(%rsp", operands)), default=0)


def touched(code, i):
    """The bytes of a frame that is longer than a page, where the instructions from here on touch each page of it in turn."""
    lines = [" ".join(line[1:3]) for line in code[i : i + 6]]
    form = re.match(r"mov %rsp,(%r\d+)\nsub \$(0x[0-9a-f]+),\1\nsub \$(0x[0-9a-f]+),%rsp\nmovq \$0x0,\(%rsp\)\ncmp \1,%rsp\njne ([0-9a-f]+) <", "\n".join(lines))
    if not form or int(form[4], 16) != code[i + 2][0] or int(form[2], 16) % int(form[3], 16):
        return 0
    return int(form[2], 16)


def depths(code):
    """The depth before each instruction that is reached."""
    place = {at: i for i, (at, *_) in enumerate(code)}
    depth, done, todo = {}, set(), [(0, 8)]
    while todo:
        i, d = todo.pop()
        if depth.setdefault(i, d) != d:
            sys.exit(f"two depths at {code[i]}")
        if i in done:
            continue
        done.add(i)
        _, name, operands, symbol = code[i]
        if by := touched(code, i):
            depth.update({k: d + by for k in range(i + 1, i + 6)})
            todo.append((i + 6, d + by))
            continue
        if name.startswith("j") and symbol is None:
            target = re.match(r"([0-9a-f]+) <", operands)
            if not target:
                sys.exit(f"a jump whose target is not known: {operands}")
            todo.append((place[int(target.group(1), 16)], d))
        if name == "ret" and d != 8:
            sys.exit(f"a return at depth {d}")
        if name not in ("jmp", "ret", "ud2"):
            todo.append((i + 1, d + step(name, operands)))
    missed = [line for i, line in enumerate(code) if i not in depth and not PADDING.match(line[1] + " " + line[2])]
    if missed:
        sys.exit(f"never reached: {missed[0]}")
    return depth


@functools.cache
def frame(name):
    """The most stack of a function without what it calls; and the depth at which each function is called."""
    most, calls = 0, {}
    for i, d in depths(code[name]).items():
        _, what, operands, symbol = code[name][i]
        most = max(most, d + below(operands))
        # a call of the function itself has no relocation
        if what == "call" and symbol is None and operands == f"{code[name][0][0]:x} <{name}>":
            symbol = name
        # a jump to another function is its last call, made in the place of this frame
        if what == "call" or (what.startswith("j") and symbol is not None):
            if symbol not in code and symbol not in OUTSIDE:
                sys.exit(f"{name} calls {symbol or operands}, which is not known")
            calls[symbol] = max(calls.get(symbol, 0), d if what == "call" else d - 8)
    return most, calls


@functools.cache
def reached(name):
    """The functions that one calls, and those that they call, and so on."""
    found, todo = set(), [name]
    while todo:
        for called in frame(todo.pop())[1]:
            if called in code and called not in found:
                found.add(called)
                todo.append(called)
    return found


@functools.cache
def need(name, under):
    """The most stack of a function and all that it calls, below so many of the functions that call themselves."""
    under = dict(under)
    if name in reached(name):
        if name not in FRAMES:
            sys.exit(f"{name} calls itself")
        if under.get(name, 0) == FRAMES[name]:
            return -sys.maxsize
        under[name] = under.get(name, 0) + 1
    most, calls = frame(name)
    for called, d in calls.items():
        # what does not come back to one of them needs the same below any of them
        turning = tuple(sorted(under.items())) if called in code and reached(called) & FRAMES.keys() else ()
        inner = need(called, turning) if called in code else 8
        most = max(most, d + inner)
    return most


code = functions(sys.argv[1])
for name in sorted(n for n in code if n.startswith("nffs_")):
    print(name, need(name, ()))
