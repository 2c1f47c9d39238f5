#!/usr/bin/env python3
"""Checks a part of a crate over the libraries that tests/libraries.py has proved, and over the sources of the others below it.

    tests/check_over.py BUILT CRATE FLAG..

The FLAGs go to `rattle check`: --only '' for the front end alone, --only MODULE::f --allow-holes for the goals of a function,
--start MODULE::f for the files of its proof. Without --only it proves all that is read as source too. BUILT is the folder of
tests/libraries.py; a library counts where its text is that of this clone, uncommitted changes included. What was checked is
kept in out/check_over of the crate. The first line names the crates that are read as source.
"""
import os
import subprocess
import sys
import tempfile

import libraries
from libraries import KIT


def tree_of(top):
    """The tree of git that the working folder is, by an index of its own."""
    with tempfile.TemporaryDirectory() as folder:
        env = {**os.environ, "GIT_INDEX_FILE": f"{folder}/index"}
        libraries.git(top, "read-tree", "HEAD", env=env)
        libraries.git(top, "add", "-A", "crates", "crates.txt", env=env)
        return libraries.git(top, "write-tree", env=env).strip()


def words_of(top, built, crate, flags):
    """The words of `rattle check`, and the crates that it reads as source."""
    text, order, kit = libraries.Text(top, tree_of(top), [crate]), [], {"core", "std"}
    libraries.in_order(text, crate, order, kit)
    sources = []
    for it in order:
        if not os.path.isdir(text.library(built, it)) or any(low in sources for low in text.below(it)):
            sources.append(it)
    is_program = os.path.exists(f"{top}/crates/{crate}/src/main.rt")
    words = ["--crate-name", crate, "src/main.rt" if is_program else "src/lib.rt"]
    for it in sorted(kit):
        words += ["--extern", f"{it}={KIT}/rlibs/{it}.rlib"]
    words += ["-L", f"dependency={KIT}/rlibs"]
    for it in order:
        path = text.library(built, it)
        if it in sources:
            words += ["--lib", f"{it}:{','.join(['core', 'std', *text.needs[it]])}={top}/crates/{it}/src/lib.rt"]
        else:
            words += ["--extern", f"{it}={path}", "-L", f"dependency={os.path.dirname(path)}"]
    words += ["--antt-project", f"{KIT}/rattle/logic/antt-project.json", "--logic-built", f"{KIT}/logic_built", "--links", f"{crate}="]
    if "--generated" not in flags:
        words += ["--incremental", "out/check_over"]
    return [*words, *flags], sources


def main():
    if len(sys.argv) < 3:
        print(__doc__)
        return 2
    built, crate, *flags = sys.argv[1:]
    top = libraries.git(".", "rev-parse", "--show-toplevel").strip()
    words, sources = words_of(top, os.path.abspath(built), crate, flags)
    print("as source:", " ".join(sources) or "none", flush=True)
    folder = f"{top}/crates/{crate}"
    os.makedirs(f"{folder}/out", exist_ok=True)
    return subprocess.run([f"{KIT}/bin/rattle", "check", *words], cwd=folder).returncode


if __name__ == "__main__":
    sys.exit(main())
