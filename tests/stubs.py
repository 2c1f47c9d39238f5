#!/usr/bin/env python3
"""Checks some functions of a crate over stubs of what it stands on, before that is proved. What it shows is no claim: the laws that
they call are believed, and so is each clause of a function that is called, so all is checked again over the true libraries.

    tests/stubs.py STUBS BUILT CRATE NAME.. [-- FLAG..]

A NAME is a module of CRATE, or a function as MODULE::f, MODULE::TYPE::f. These are taken whole, with their proofs, and of CRATE and
of all crates below it what they name (tests/slices.py), into the folder STUBS. Where BUILT, the folder of tests/libraries.py, has a
proved library, it is taken; of the other crates a stub is built, two at a time (J). Then CRATE is checked: `rattle check` with the
FLAGs. The text is that of this clone, uncommitted changes included. A stub stays in STUBS until its text changes, or a library
below it.
"""
import concurrent.futures
import hashlib
import os
import subprocess
import sys

import check_over
import libraries
import slices
from libraries import KIT


class Stubs(libraries.Text):
    """The crates that are named, with the libraries that are proved and those that are built here."""

    def __init__(self, top, built, stubs, crate, names):
        super().__init__(top, check_over.tree_of(top), [crate])
        self.built, self.stubs, self.texts, self.proved = built, stubs, {}, set(self.crates)
        self.proved = {it for it in self.crates if os.path.isdir(self.library("", it))}
        found, left = slices.Slice(top, crate, names, self.proved), [crate]
        while left:
            one = left.pop()
            if one not in self.proved and one not in self.texts:
                low, self.texts[one] = found.write(f"{stubs}/crates", one)
                self.needs[one] = low + [it for it in self.needs[one] if it not in self.needs]
                left += low

    def library(self, _, crate):
        return super().library(self.built, crate) if crate in self.proved else f"{self.stubs}/{self.own_sum(crate)}/{crate}.rlib"

    def own_sum(self, crate):
        text = self.texts[crate] + "".join(self.sum(it) if it in self.proved else self.own_sum(it) for it in self.below(crate))
        return hashlib.sha256(text.encode()).hexdigest()[:16]

    def words_of(self, crate):
        """The words of rattle; a crate with laws that are believed says of what it is linked with."""
        words = libraries.words_of(self, self.stubs, self.built, crate)[0]
        return [f"{crate}=axioms" if it == f"{crate}=" and "safe fn believed_" in self.texts[crate] else it for it in words]

    def build(self, crate):
        """Builds the library of a stub. What is told where it isn't proved."""
        made = self.library("", crate)
        if os.path.isdir(made):
            return ""
        os.makedirs(os.path.dirname(made), exist_ok=True)
        command = [f"{KIT}/bin/rattle", "build", *self.words_of(crate), "--statements", "-o", made]
        run = subprocess.run(command, cwd=f"{self.stubs}/crates/{crate}", capture_output=True, text=True, stdin=subprocess.DEVNULL)
        return "" if run.returncode == 0 else f"{run.stdout}{run.stderr}"


def build_all(text, order):
    """Builds the stubs, each behind those below it. Whether all are there."""
    pool, jobs = concurrent.futures.ThreadPoolExecutor(int(os.environ.get("J", "2"))), {}

    def build(crate):
        if any(jobs[low].result() for low in text.below(crate) if low in jobs):
            return "not tried"
        told = text.build(crate)
        print(f"{crate} FAILED\n{told}" if told else f"{crate} built", flush=True)
        return told

    for crate in order:
        jobs[crate] = pool.submit(build, crate)
    return not any([it.result() for it in jobs.values()])


def main():
    words, flags = sys.argv[1:], []
    if "--" in words:
        words, flags = words[: words.index("--")], words[words.index("--") + 1 :]
    if len(words) < 4:
        print(__doc__)
        return 2
    stubs, built, crate, *names = words
    top = libraries.git(".", "rev-parse", "--show-toplevel").strip()
    text, order = Stubs(top, os.path.abspath(built), os.path.abspath(stubs), crate, names), []
    libraries.in_order(text, crate, order, set())
    stubbed = [it for it in order if it not in text.proved]
    print("proved:", *[it for it in order if it in text.proved], "\nstubs:", *stubbed, flush=True)
    if not build_all(text, stubbed):
        return 1
    command = [f"{KIT}/bin/rattle", "check", *text.words_of(crate), *flags]
    return subprocess.run(command, cwd=f"{text.stubs}/crates/{crate}").returncode


if __name__ == "__main__":
    sys.exit(main())
