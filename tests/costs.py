#!/usr/bin/env python3
"""Shows what is dear to prove, and why.

    tests/costs.py --kept FOLDER [DEPTH]   where the time of a crate's first check went: FOLDER is what `rattle check --incremental FOLDER`
                                           kept (tests/check_over.py: out/check_over). Seconds between one kept module and the next, summed
                                           by function (DEPTH names deep, 2), by kind of module, and the dearest modules.
    tests/costs.py --drops CODE [LEAST]    functions with drops that are written out: CODE is the bitcode that `tests/unproved_build.sh CRATE
                                           OUT CODE` keeps. How many calls that drop stand in the function (from LEAST on, 12), its bytes
                                           as text, its name.

A local of an enum, or of a struct that holds one, that is let go at the end of a scope, at a `?` or at an early return has the drop of all
its variants written into the function, once for each such place; `drop(x)` is one call.
"""
import collections
import os
import re
import subprocess
import sys
import tempfile

KIT = "/opt/rattle"
DEFINED = re.compile(r'^define .*?@"([^"]+)"')
CALLED = re.compile(r'\bcall .*?@"([^"]+)"\(')


def kept_modules(folder):
    """When each kept module was written, the earliest first."""
    for path, _, names in os.walk(folder):
        if "/records" not in path:
            yield from ((os.stat(f"{path}/{it}").st_mtime, it.removesuffix(".oantt")) for it in names)


def print_kept(folder, depth):
    """Prints where the time of a check went."""
    modules = sorted(kept_modules(folder))
    functions, kinds, single, last = collections.Counter(), collections.Counter(), collections.Counter(), modules[0][0]
    for time, name in modules:
        crate, _, path = name.partition(".")
        parts = path.split(".")
        functions[".".join([crate, *parts[:depth]])] += time - last
        kinds[parts[-1]] += time - last
        single[name] += time - last
        last = time
    for title, counts in ("by function", functions), ("by kind", kinds), ("by module", single):
        print(title)
        for name, seconds in counts.most_common(30):
            print(f"{seconds:8.1f} {name[:150]}")


def text_of(code):
    """The lines of the module as text."""
    with tempfile.TemporaryDirectory() as folder:
        words = ["-S", "-emit-llvm", "-w", "-Xclang", "-disable-llvm-passes", "-x", "ir", code, "-o", f"{folder}/code"]
        subprocess.run([f"{KIT}/toolchain/bin/clang", *words], check=True)
        with open(f"{folder}/code", encoding="utf-8", errors="replace") as lines:
            yield from lines


def print_drops(code, least):
    """Prints the functions with so many calls that drop, those with the most first."""
    sizes, drops, name = collections.Counter(), collections.Counter(), None
    for line in text_of(code):
        if line.startswith("define"):
            found = DEFINED.match(line)
            name = found[1] if found else None
        elif name:
            sizes[name] += len(line)
            call = CALLED.search(line)
            drops[name] += bool(call and "::drop" in call[1])
    for name, count in drops.most_common():
        if count >= least and name.startswith("cad") and "Destruct" not in name:
            print(f"{count:5} {sizes[name]:8} {name}")


def main(words):
    if len(words) not in (2, 3) or words[0] not in ("--kept", "--drops"):
        print(__doc__)
        return 2
    if words[0] == "--kept":
        print_kept(words[1], int((words + ["2"])[2]))
    else:
        print_drops(words[1], int((words + ["12"])[2]))
    return 0


if __name__ == "__main__":
    sys.exit(main(sys.argv[1:]))
