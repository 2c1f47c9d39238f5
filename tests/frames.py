#!/usr/bin/env python3
"""Makes a program with the frames of a proved one of the bitcode of an unproved one, and prints its frames on the stack.

    tests/frames.py CODE OUT [WORD [LEAST]]

CODE is what `tests/unproved_build.sh CRATE OUT CODE` keeps. `rt try` fills each place of a frame with 0xAA, has checks, and leaves
`#[inline(never)]` out; this drops both and marks the functions that have it in the sources of this clone. It prints the size of the
frame of each function whose name has WORD in it (all where none is named), from LEAST bytes on (500). It takes two minutes of a
processor. What it shows is no claim.
"""
import glob
import re
import subprocess
import sys

KIT = "/opt/rattle"
FILL = re.compile(r"call void @llvm\.memset\.p0\.i64\(ptr %[\w.]+, i8 -86,")
CHECK = re.compile(r'call void @"rattle-llvm-checks::(?!Unreachable)')
DEFINED = re.compile(r'^define internal .*?@"([^"]*)"\(')


def never_inlined(top):
    """The functions with `#[inline(never)]`, as the bitcode names them."""
    names = set()
    for path in glob.glob(f"{top}/crates/*/src/**/*.rt", recursive=True):
        crate, module = path.split("/crates/")[1][:-3].split("/src/")
        before = crate if module in ("lib", "main") else f"{crate}::{module.replace('/', '::')}"
        pending = False
        for line in open(path):
            pending = pending or "#[inline(never)]" in line
            found = re.match(r"\s*(?:pub(?:\(crate\))? )?fn (\w+)", line)
            if found and pending:
                names.add(f"{before}::{found[1]}")
                pending = False
    return names


def as_proved(lines, names):
    """The lines of the module, without fills and checks, with the marks."""
    for line in lines:
        if FILL.search(line) or CHECK.search(line):
            continue
        found = DEFINED.match(line)
        if found and found[1].split("::<")[0] in names:
            line = line.replace(" #0 {", " noinline #0 {")
        yield line


def frames(program):
    """The size of each function's frame: what it pushes, and what it takes from the stack before its first call or jump."""
    listing = subprocess.run(["objdump", "-d", "--no-show-raw-insn", program], capture_output=True, text=True, check=True).stdout
    sizes, name = {}, None
    for line in listing.splitlines():
        found = re.match(r"^[0-9a-f]+ <(.*)>:$", line)
        if found:
            name = found[1]
            sizes[name] = 8
        elif name:
            taken = re.search(r"\tsub\s+\$0x([0-9a-f]+),%rsp", line)
            if re.search(r"\tpush ", line):
                sizes[name] += 8
            elif taken:
                sizes[name] += int(taken[1], 16)
            elif re.search(r"\t(call|j\w+|ret)\b", line):
                name = None
    return sizes


def main():
    if not 3 <= len(sys.argv) <= 5:
        print(__doc__)
        return 2
    code, out = sys.argv[1:3]
    word, least = (sys.argv[3:] + ["", "500"][len(sys.argv) - 3:])
    top = subprocess.run(["git", "rev-parse", "--show-toplevel"], capture_output=True, text=True, check=True).stdout.strip()
    clang = f"{KIT}/toolchain/bin/clang"
    subprocess.run([clang, "-S", "-emit-llvm", "-O0", "-Xclang", "-disable-llvm-passes", "-w", code, "-o", f"{out}.all.ll"], check=True)
    with open(f"{out}.all.ll") as whole, open(f"{out}.ll", "w") as kept:
        kept.writelines(as_proved(whole, never_inlined(top)))
    subprocess.run([clang, "-O2", "-w", f"{out}.ll", f"{KIT}/c/libos_c.a", f"{KIT}/c/liblibc_c.a", "-o", out], check=True)
    for name, size in sorted(frames(out).items(), key=lambda it: -it[1]):
        if word in name and size >= int(least):
            print(size, name)
    return 0


if __name__ == "__main__":
    sys.exit(main())
