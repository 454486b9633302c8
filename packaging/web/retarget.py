#!/usr/bin/env python3
"""retarget.py IN.ll OUT.ll NAME..: turns a module that the kit's compiler made for x86-64, as LLVM's text, into one for
WebAssembly with a memory of 64 bits.

Pointers have eight bytes on both, and the text is of no machine but for the names of the target, so these alone change.
That it is so is looked at: every form that stands here is one that is known to mean the same on both, and the script
ends with a word at any other. NAME.. are the functions that the module may call besides LLVM's own: its host's.
"""

from __future__ import annotations

import re
import sys

LAYOUT = "e-m:e-p270:32:32-p271:32:32-p272:64:64-i64:64-i128:128-f80:128-n8:16:32:64-S128"
TRIPLE = "x86_64-unknown-linux-gnu"
NEW_LAYOUT = "e-m:e-p:64:64-p10:8:8-p20:8:8-i64:64-i128:128-n32:64-S128-ni:1:10:20"
NEW_TRIPLE = "wasm64-unknown-unknown"

# Functions of LLVM that mean the same on every machine.
GENERIC = re.compile(
    r"llvm\.(memset|memmove|memcpy|trap|cttz|ctlz|ctpop|bswap|fshl|fshr|umax|umin|smax|smin|abs|assume|expect"
    r"|lifetime\.start|lifetime\.end|arithmetic\.fence|sqrt|[us](?:add|sub|mul)\.(?:with\.overflow|sat))(\.[a-z0-9.]+)?"
)
# Attributes of functions, with their values where they have one.
OF_X86 = re.compile(r'"(probe-stack"="inline-asm|stack-probe-size"="\d+|target-cpu"="x86-64(-v2)?)" ?')
ATTRIBUTES = set(
    "alwaysinline cold inlinehint minsize mustprogress noalias nobuiltin nocallback nocreateundeforpoison nofree"
    " noinline norecurse noreturn nosync nounwind optsize readnone readonly speculatable willreturn writeonly".split()
)
MEMORY = re.compile(r"memory\((none|read|write|readwrite|\w+: (none|read|write|readwrite)(, )?)+\)")
# What is of x86 or rests on more than the target's names, wherever it stands.
UNKNOWN = re.compile(
    r"\b(asm|addrspace|thread_local|inttoptr|ptrtoint|x86_\w+|half|bfloat|ppc_fp128|fp128|vscale|callbr|invoke"
    r"|landingpad|va_arg|ifunc|gc|comdat|section|partition|personality|prologue|prefix|fastcc|coldcc|\w+cc|cc\d+)\b"
)
# Vectors are LLVM's own, of integers or floats, and lie in memory in one order on both.
VECTOR = re.compile(r"<\s*(\w+) x (\w+)")
LENGTHS, ELEMENTS = {"2", "4", "8", "16", "32", "64"}, {"i1", "i8", "i16", "i32", "i64", "float"}
# A text of no instruction, which only keeps the order of reads and writes.
ORDER = '  call void asm sideeffect "", "~{memory}"()'
# Instructions. Atomic ones are plain there, as the module's memory is of one thread.
KNOWN = set(
    "add alloca and ashr bitcast br call cmpxchg extractelement extractvalue fadd fcmp fdiv fmul fneg fpext freeze"
    " fsub getelementptr icmp insertelement insertvalue load lshr mul or phi ptrtoaddr ret sdiv select sext shl"
    " shufflevector sitofp srem store sub switch trunc udiv uitofp unreachable urem xor zext".split()
)
INSTRUCTION = re.compile(r"\s+(?:%[\w.$-]+ = )?(?:(?:tail|musttail|notail) )?(\w+)")
CHOICE = re.compile(r"\s+(i\d+ -?\d+, label %\S+|\])$")  # of a switch
QUOTED = re.compile(r'c?"[^"]*"')
TYPES = re.compile(r"\b[if](\d+)\b")
WIDTHS = {1, 2, 8, 16, 24, 32, 40, 48, 56, 64, 128, 256}
STARTS = (";", "source_filename", "target ", "define ", "declare ", "attributes ", "@", "!", "}", "%")


class Unknown(Exception):
    """A form that isn't known."""


def plain(line: str) -> str:
    """A line without its names and texts in quotes, and without a remark."""
    return QUOTED.sub('""', line).split(";")[0]


def check_line(line: str, number: int) -> None:
    """Looks at a line of a function or of a constant."""
    if line == ORDER:
        return
    text = plain(line)
    found = UNKNOWN.search(text)
    if found:
        raise Unknown(f"line {number} has '{found[0]}'")
    for length, kind in VECTOR.findall(text):
        if length not in LENGTHS or kind not in ELEMENTS:
            raise Unknown(f"line {number} has a vector of {length} {kind}")
    for width in map(int, TYPES.findall(text)):
        if width not in WIDTHS:
            raise Unknown(f"line {number} has an integer of {width} bits")
    instruction = INSTRUCTION.match(text)
    if instruction and not CHOICE.match(text) and instruction[1] not in KNOWN:
        raise Unknown(f"line {number} has the instruction {instruction[1]}")


def check_declared(line: str, number: int, names: set[str]) -> None:
    found = re.match(r'declare .*?@"?([\w.$-]+)"?\(', line)
    if not found:
        raise Unknown(f"line {number} declares a function in an unknown form")
    name = found[1]
    if name.startswith("llvm.x86."):
        raise Unknown(f"line {number} has {name}, an intrinsic of x86: build with --cpu=x86-64, or change the code")
    if name not in names and not GENERIC.fullmatch(name):
        raise Unknown(f"line {number} declares {name}")


def attributes_of(line: str, number: int) -> str:
    """A group of attributes without those of x86."""
    head, _, inside = line.partition(" = { ")
    inside = OF_X86.sub("", inside.rstrip().removesuffix("}"))
    kept = MEMORY.sub("", inside).split()
    unknown = [it for it in kept if it not in ATTRIBUTES]
    if unknown:
        raise Unknown(f"line {number} has the attribute {unknown[0]}")
    return f"{head} = {{ {inside.strip()} }}"


def target_of(line: str, number: int) -> str:
    """A line of the target, with the other one's name."""
    if line == f'target datalayout = "{LAYOUT}"':
        return f'target datalayout = "{NEW_LAYOUT}"'
    if line == f'target triple = "{TRIPLE}"':
        return f'target triple = "{NEW_TRIPLE}"'
    raise Unknown(f"line {number} names another target: {line}")


def retargeted(text: str, names: set[str]) -> str:
    """The module's text for the other target."""
    lines, targets = [], 0
    for number, line in enumerate(text.split("\n"), 1):
        if line.startswith("target "):
            line, targets = target_of(line, number), targets + 1
        elif line.startswith("attributes "):
            line = attributes_of(line, number)
        elif line.startswith("declare "):
            check_declared(line, number, names)
            check_line(line, number)
        elif not line.startswith((";", "!", "source_filename")):
            if line and not line.startswith((" ", "\t")) and not line.startswith(STARTS) and not line.endswith(":"):
                if not re.match(r'("[^"]*"|[\w.$-]+):', line):
                    raise Unknown(f"line {number} begins in an unknown way: {line[:40]}")
            check_line(line, number)
        lines.append(line)
    if targets != 2:
        raise Unknown("it names no target")
    return "\n".join(lines)


def main() -> int:
    source, target, *names = sys.argv[1:]
    with open(source, encoding="utf-8") as it:
        text = it.read()
    try:
        text = retargeted(text, set(names))
    except Unknown as fault:
        print(f"retarget.py: {source}: {fault}, and it isn't known that this is the same on wasm64", file=sys.stderr)
        return 1
    with open(target, "w", encoding="utf-8") as it:
        it.write(text)
    return 0


if __name__ == "__main__":
    sys.exit(main())
