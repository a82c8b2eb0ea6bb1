"""The module as text, changed line by line: rewrite.py checked|cover MODULE, to standard output.

The kit's modules have one instruction a line, no phi and no debug information, and every function begins with `define` and ends with `}`.
"""

import re
import sys

# proved not to wrap; the module no longer promises it to the compiler
ARITHMETIC = re.compile(r"  (%\S+) = (add|sub|mul)(?: nuw)? (i\d+) (\S+), (\S+)$")
DIVISION = re.compile(r"  (%\S+) = (udiv|urem) (i\d+) (\S+), (\S+)$")
SHIFT = re.compile(r"  (%\S+) = (shl|lshr) (i\d+) (\S+), (\S+)$")
NARROWING = re.compile(r"  (%\S+) = trunc nuw (i\d+) (\S+) to (i\d+)$")
ACCESS = re.compile(r"  (?:%\S+ = load [^,]+|store \S+ [^,]+), ptr (%\S+), align (\d+)")
BOOL = re.compile(r"  (%\S+) = load i8, .*!range !2")


def tested(name, result, parameters, good, answer):
    """A function that traps where `good`, which sets %good, does not hold."""
    return f"""
define internal {result} @{name}({parameters}) #0 {{
start:
{good}
  br i1 %good, label %fine, label %wrong

wrong:
  call void @llvm.trap()
  ret {answer[1]}

fine:
{answer[0]}
}}
"""


def checked(lines):
    """Each promise to the compiler tested, and that sums, differences and products do not wrap: all this does hold, on every call that is run."""
    needed = {}

    def call(name, result, parameters, good, answer):
        needed[name] = tested(name, result, parameters, good, answer)
        return f"@{name}"

    own = set()
    for line in lines:
        if line.startswith("define"):
            own = set()
        elif m := re.match(r"  (%\S+) = alloca ", line):
            own.add(m[1])
        # what the function has set aside itself is aligned as it says
        elif (m := ACCESS.match(line)) and m[2] != "1" and m[1] not in own:
            name = call(f"tested.align.{m[2]}", "void", "ptr %p", f"  %a = ptrtoint ptr %p to i64\n  %odd = urem i64 %a, {m[2]}\n"
                        "  %good = icmp eq i64 %odd, 0", ("  ret void", "void"))
            yield f"  call void {name}(ptr {m[1]})"
        if m := ARITHMETIC.match(line):
            to, how, t, a, b = m.groups()
            pair = f"{{ {t}, i1 }}"
            good = (f"  %pair = call {pair} @llvm.u{how}.with.overflow.{t}({t} %a, {t} %b)\n"
                    f"  %over = extractvalue {pair} %pair, 1\n  %good = xor i1 %over, true")
            name = call(f"tested.{how}.{t}", t, f"{t} %a, {t} %b", good, (f"  %r = extractvalue {pair} %pair, 0\n  ret {t} %r", f"{t} 0"))
            yield f"  {to} = call {t} {name}({t} {a}, {t} {b})"
        elif m := DIVISION.match(line):
            to, how, t, a, b = m.groups()
            name = call(f"tested.{how}.{t}", t, f"{t} %a, {t} %b", f"  %good = icmp ne {t} %b, 0",
                        (f"  %r = {how} {t} %a, %b\n  ret {t} %r", f"{t} 0"))
            yield f"  {to} = call {t} {name}({t} {a}, {t} {b})"
        elif m := SHIFT.match(line):
            to, how, t, a, b = m.groups()
            name = call(f"tested.{how}.{t}", t, f"{t} %a, {t} %b", f"  %good = icmp ult {t} %b, {t[1:]}",
                        (f"  %r = {how} {t} %a, %b\n  ret {t} %r", f"{t} 0"))
            yield f"  {to} = call {t} {name}({t} {a}, {t} {b})"
        elif m := NARROWING.match(line):
            to, t, a, u = m.groups()
            good = f"  %r = trunc {t} %a to {u}\n  %back = zext {u} %r to {t}\n  %good = icmp eq {t} %back, %a"
            name = call(f"tested.trunc.{t}.{u}", u, f"{t} %a", good, (f"  ret {u} %r", f"{u} 0"))
            yield f"  {to} = call {u} {name}({t} {a})"
        elif m := BOOL.match(line):
            name = call("tested.bool", "void", "i8 %a", "  %good = icmp ult i8 %a, 2", ("  ret void", "void"))
            # without what is told of the byte, or the test would be taken for true
            yield re.sub(r", !range.*", "", line)
            yield f"  call void {name}(i8 {m.group(1)})"
        elif line == "  unreachable":
            yield "  call void @llvm.trap()"
            yield line
        else:
            yield line
    for t in sorted({n.split(".")[2] for n in needed if n.split(".")[1] in ("add", "sub", "mul")}):
        for how in ("add", "sub", "mul"):
            yield f"declare {{ {t}, i1 }} @llvm.u{how}.with.overflow.{t}({t}, {t})"
    yield from needed.values()


def blocks(lines):
    """(line number, function, label) of each basic block."""
    function = None
    for number, line in enumerate(lines):
        if m := re.match(r'define .*?@"?([\w:.]+)"?\(', line):
            function = m.group(1)
        elif line == "}":
            function = None
        elif function and (m := re.match(r"([\w.]+):", line)):
            yield number, function, m.group(1)


def cover(lines):
    """Each block sets its mark; the comments at the end say which mark is whose."""
    found = list(blocks(lines))
    mark = {number: k for k, (number, _, _) in enumerate(found)}
    for number, line in enumerate(lines):
        yield line
        if number in mark:
            yield f"  store i8 1, ptr getelementptr (i8, ptr @nffs_marks, i64 {mark[number]}), align 1"
    yield f"@nffs_marks = global [{len(found)} x i8] zeroinitializer"
    yield f"@nffs_blocks = constant i64 {len(found)}"
    for _, function, label in found:
        yield f"; block {function} {label}"


if __name__ == "__main__":
    with open(sys.argv[2]) as text:
        print("\n".join({"checked": checked, "cover": cover}[sys.argv[1]](text.read().split("\n"))))
