#!/usr/bin/env python3
"""Proves the libraries of a branch, the lowest first, and again those whose text changes.

    tests/libraries.py [--once] [--above=LOW] CLONE BRANCH BUILT JOBS CRATE..

BRANCH is one of CLONE's remote, to which everybody pushes; CLONE is for this script alone. All that the CRATEs stand on is proved
too, what the first of them stands on before the rest, JOBS at a time. A library that failed waits until its text or that of one
below it changes. BUILT is a folder that keeps each proved library by the sum of its text; several of these scripts, for other
branches say, share one, and tests/check_over.py reads it. What `rt ci NAMES` proved of the text that the clone had at first, and
keeps on this machine, is taken from there, also while it runs. Crates of tests and programs are checked, and nothing is kept of
them. The script runs until it is ended, or with --once until all is proved or has failed. Each outcome is a line; logs stand
beside BUILT, in `logs`. In the environment: J, the processes of one proof; NICE, the priority of proofs.
"""
import glob
import hashlib
import json
import os
import shutil
import subprocess
import sys
import threading
import time

OF_LIBRARIES = ("src", "specs", "proofs", "c")
KIT = "/opt/rattle"
KEPT = "/opt/rattle-kept"


def git(folder, *words, **more):
    return subprocess.run(["git", "-C", folder, *words], capture_output=True, text=True, check=True, **more).stdout


class Text:
    """The crates of a commit, or of another tree of git: what each uses, and a sum of all that its library is made of."""

    def __init__(self, folder, tree, wanted):
        self.commit = git(folder, "rev-parse", tree).strip()
        self.needs, self.lines, self.trees, self.sums, self.heights = {}, {}, {}, {}, {}
        for line in git(folder, "show", f"{self.commit}:crates.txt").splitlines():
            head, colon, tail = line.split("#")[0].partition(":")
            if colon:
                self.needs[head.split()[0]], self.lines[head.split()[0]] = tail.split(), line
        for line in git(folder, "ls-tree", "-r", "-t", self.commit, "crates").splitlines():
            what, path = line.split("\t")
            parts = path.split("/")
            if len(parts) == 3 and parts[2] in OF_LIBRARIES:
                self.trees[parts[1]] = self.trees.get(parts[1], "") + what.split()[2]
        self.crates = self.closure(wanted)

    def closure(self, wanted):
        """These crates, and all that they stand on."""
        found, left = [], list(wanted)
        while left:
            crate = left.pop()
            if crate in self.needs and crate not in found:
                found.append(crate)
                left += self.needs[crate]
        return found

    def below(self, crate):
        return [it for it in self.needs[crate] if it in self.needs]

    def over(self, low):
        """This crate, and all that stand on it; all crates where it is None."""
        return [it for it in self.crates if low is None or low in self.closure([it])]

    def sum(self, crate):
        if crate not in self.sums:
            own = self.lines[crate] + self.trees.get(crate, "") + "".join(map(self.sum, self.below(crate)))
            self.sums[crate] = hashlib.sha256(own.encode()).hexdigest()[:16]
        return self.sums[crate]

    def height(self, crate):
        """How many crates stand one on another above this one: those below the highest are proved first."""
        if crate not in self.heights:
            self.heights[crate] = 1 + max((self.height(it) for it in self.crates if crate in self.needs[it]), default=0)
        return self.heights[crate]

    def library(self, built, crate):
        """Where the proved library of a crate stands, by the sum of its text."""
        return f"{built}/{self.sum(crate)}/{crate}.rlib"


def link(file, to):
    """Another name for a file; a copy where it stands on another disk."""
    try:
        os.link(file, to)
    except OSError:
        shutil.copy(file, to)


def take_kept(text, built):
    """Takes what `rt ci NAMES` keeps of a text: each crate's newest proof, whose files are numbered in made.json."""
    newest = {}
    for made in glob.glob(f"{KEPT}/proof-*/made.json"):
        crate = os.path.basename(os.path.dirname(made))[len("proof-"):].rsplit("-", 1)[0]
        if crate not in newest or os.path.getmtime(newest[crate]) < os.path.getmtime(made):
            newest[crate] = made
    for crate, made in newest.items():
        if crate not in text.needs or os.path.isdir(text.library(built, crate)):
            continue
        start, part = f"rlib/{crate}.rlib/", f"{text.library(built, crate)}.part"
        with open(made, encoding="utf-8") as it:
            files = json.load(it)["files"]
        for i, (path, _) in enumerate(files):
            if path.startswith(start):
                to = f"{part}/{path[len(start):]}"
                os.makedirs(os.path.dirname(to), exist_ok=True)
                link(f"{os.path.dirname(made)}/{i}", to)
        if os.path.isdir(part):
            os.rename(part, text.library(built, crate))


def in_order(text, crate, found, kit):
    """Adds what a crate stands on, each behind what it uses, and the crates of the kit among it."""
    for low in text.needs[crate]:
        if low not in text.needs:
            kit.add(low)
        elif low not in found:
            in_order(text, low, found, kit)
            found.append(low)


def words_of(text, folder, built, crate):
    """The words of rattle for a crate over the libraries below it, and whether it is a program."""
    order, kit = [], {"core", "std"}
    in_order(text, crate, order, kit)
    is_program = os.path.exists(f"{folder}/crates/{crate}/src/main.rt")
    words = ["--crate-name", crate, "src/main.rt" if is_program else "src/lib.rt"]
    for it in sorted(kit):
        words += ["--extern", f"{it}={KIT}/rlibs/{it}.rlib"]
    words += ["-L", f"dependency={KIT}/rlibs"]
    for it in text.below(crate):
        words += ["--extern", f"{it}={text.library(built, it)}"]
    for it in order:
        words += ["-L", f"dependency={os.path.dirname(text.library(built, it))}"]
    words += ["--antt-project", f"{KIT}/rattle/logic/antt-project.json", "--logic-built", f"{KIT}/logic_built", "--links", f"{crate}="]
    return [*words, "--jobs", os.environ.get("J", "1")], is_program


class Queue:
    def __init__(self, clone, branch, built, wanted, low):
        self.clone, self.branch, self.built, self.wanted, self.low = clone, branch, os.path.abspath(built), wanted, low
        self.lock, self.texts = threading.Lock(), {}
        self.failed, self.running, self.passed = set(), set(), set()
        self.first = Text(clone, "HEAD", wanted)

    def text(self):
        """The newest text of the branch, and a folder with its files."""
        git(self.clone, "fetch", "-q", "origin")
        commit = git(self.clone, "rev-parse", f"origin/{self.branch}").strip()
        folder = f"{os.path.dirname(self.built)}/text-{commit[:10]}"
        if commit not in self.texts:
            self.texts[commit] = Text(self.clone, commit, self.wanted)
            if not os.path.isdir(folder):
                os.makedirs(folder)
                files = subprocess.Popen(["git", "-C", self.clone, "archive", commit, "crates", "crates.txt"], stdout=subprocess.PIPE)
                subprocess.run(["tar", "-x", "-C", folder], stdin=files.stdout, check=True)
                files.wait()
        return self.texts[commit], folder

    def take(self):
        """A text with its folder and a crate whose libraries below are proved; None where none is due, and whether all is done."""
        with self.lock:
            take_kept(self.first, self.built)
            text, folder = self.text()
            proved = {it for it in text.crates if os.path.isdir(text.library(self.built, it)) or text.sum(it) in self.passed}
            left = [it for it in text.over(self.low) if it not in proved and text.sum(it) not in self.failed]
            due = [it for it in left if text.sum(it) not in self.running and all(os.path.isdir(text.library(self.built, low)) for low in text.below(it))]
            if not due:
                return None, not self.running and (self.low is None or not left)
            first = text.closure(self.wanted[:1])
            crate = max(due, key=lambda it: (it in first, text.height(it)))
            self.running.add(text.sum(crate))
            return (text, folder, crate), False

    def tell(self, text, crate, is_proved, made):
        with self.lock:
            self.running.discard(text.sum(crate))
            (self.passed if is_proved else self.failed).add(text.sum(crate))
            if is_proved and os.path.isdir(made):
                os.rename(made, text.library(self.built, crate))


def prove(queue, once):
    while True:
        taken, is_done = queue.take()
        if taken is None:
            if is_done and once:
                return
            time.sleep(4)
            continue
        text, folder, crate = taken
        words, is_program = words_of(text, folder, queue.built, crate)
        made, start = f"{text.library(queue.built, crate)}.new", time.time()
        logs = f"{os.path.dirname(queue.built)}/logs"
        os.makedirs(logs, exist_ok=True)
        os.makedirs(os.path.dirname(made), exist_ok=True)
        if crate.endswith("_tests") or is_program:
            command = ["check", *(["--test"] if crate.endswith("_tests") else []), *words]
        else:
            command = ["build", *words, "--statements", "-o", made, "--empty-contracts"]
        with open(f"{logs}/{crate}.{text.sum(crate)}", "w", encoding="utf-8") as log:
            run = ["nice", "-n", os.environ.get("NICE", "0"), f"{KIT}/bin/rattle", *command]
            is_proved = subprocess.run(run, cwd=f"{folder}/crates/{crate}", stdout=log, stderr=log, stdin=subprocess.DEVNULL).returncode == 0
        queue.tell(text, crate, is_proved, made)
        print(time.strftime("%H:%M:%S"), crate, "proved" if is_proved else f"FAILED, {log.name}", f"{time.time() - start:.0f} s", text.commit[:9], flush=True)


def main():
    once, low = "--once" in sys.argv, None
    for word in sys.argv[1:]:
        low = word.removeprefix("--above=") if word.startswith("--above=") else low
    words = [it for it in sys.argv[1:] if not it.startswith("--")]
    if len(words) < 5:
        print(__doc__)
        return 2
    clone, branch, built, jobs, *wanted = words
    os.makedirs(built, exist_ok=True)
    queue = Queue(clone, branch, built, wanted, low)
    workers = [threading.Thread(target=prove, args=(queue, once)) for _ in range(int(jobs))]
    for worker in workers:
        worker.start()
    for worker in workers:
        worker.join()
    return 0


if __name__ == "__main__":
    sys.exit(main())
