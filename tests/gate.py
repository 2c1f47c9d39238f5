#!/usr/bin/env python3
"""Reckons how long `rt ci` takes from nothing, by its own order: so many processors, so much memory, and the processor seconds of
each crate, which are measured while it runs.

    tests/gate.py --watch FILE     writes down the checks that run on this machine, until it is ended
    tests/gate.py FILE..           reckons, with what these files say of each crate (the last counts); --log tells each start and end

A crate that no file tells of is reckoned by its lines. What `rt` does before its first proof (it walks every way through crates.txt
for each imported name) and what `.ci/run` does behind `rt ci` come on top: the first is told too.
"""
import functools
import os
import pathlib
import re
import sys
import time

ROOT = pathlib.Path(__file__).resolve().parent.parent
KIT = pathlib.Path("/opt/rattle")
LANES, MEMORY = 4, 0.85 * 22e9
# How much faster a proof is with so many processes, on two cores of two threads each.
FASTER = {1: 1, 2: 1.8, 3: 2.3, 4: 2.7}


def watch(file):
    """Writes the crate, the kind and the processor seconds of each check that has ended."""
    ticks, seen = os.sysconf("SC_CLK_TCK"), {}
    while True:
        alive = set()
        for process in filter(str.isdigit, os.listdir("/proc")):
            try:
                words = pathlib.Path(f"/proc/{process}/cmdline").read_bytes().decode(errors="replace").split("\0")
                times = pathlib.Path(f"/proc/{process}/stat").read_text().rpartition(")")[2].split()[11:15]
            except OSError:
                continue
            if words[0].endswith("/rattle") and "--crate-name" in words:
                key = process, words[words.index("--crate-name") + 1], "tests" if "--test" in words else "proof"
                alive.add(key)
                seen[key] = max(seen.get(key, 0), sum(map(int, times)) / ticks)
        for key in [it for it in seen if it not in alive]:
            with open(file, "a", encoding="utf-8") as to:
                to.write(f"{key[1]} {key[2]} {seen.pop(key):.0f}\n")
        time.sleep(2)


class Crates:
    """The crates of crates.txt: what each stands on, its lines, its tests and its edits."""

    def __init__(self):
        rows = [line.split("#")[0].partition(":") for line in (ROOT / "crates.txt").read_text().splitlines()]
        listed = {head.split()[0]: tail.split() for head, colon, tail in rows if colon}
        self.uses = {it: [low for low in of if low in listed] for it, of in listed.items()}
        self.kit = {it: {low for low in of if low not in listed} for it, of in listed.items()}
        self.text = {it: self.lines(it, ".rt") for it in listed}
        self.proofs = {it: self.lines(it, ".antt") for it in listed}
        self.tests = {it: any("#[test]" in file.read_text() for file in (ROOT / "crates" / it / "src").rglob("*.rt")) for it in listed}
        self.edits = {it: len(list((ROOT / "crates" / it / "must-fail").glob("*.edit"))) for it in listed}

    def lines(self, crate, ending):
        parts = [file for part in ("src", "specs", "proofs") for file in (ROOT / "crates" / crate / part).rglob("*" + ending)]
        return sum(file.read_bytes().count(b"\n") for file in parts)

    @functools.cache
    def below(self, crate):
        return frozenset(low for it in self.uses[crate] for low in {it, *self.below(it)})

    @functools.cache
    def ways(self, crate):
        return 1 + sum(map(self.ways, self.uses[crate]))

    def imports(self, crate):
        """How often `rt` goes over all ways below a crate: for each imported name, each file, and some times more."""
        names = 12
        for file in (ROOT / "crates" / crate / "src").rglob("*.rt"):
            items = re.findall(r"ghost use\s+([^;]*);", file.read_text())
            names += 1 + sum(1 + it.count(",") if "{" in it else 1 for it in items)
        return names

    def memory(self, crate):
        """What `rt ci` sets aside for a check of the crate, in bytes."""
        kit = {it for low in [crate, *self.below(crate)] for it in self.kit[low]}
        loaded = sum(file.stat().st_size for it in kit if (file := KIT / f"rlibs/{it}.rlib/toolchain/checked.a").is_file())
        below = sum(self.text[it] for it in self.below(crate))
        return 1e9 + 1e6 * self.text[crate] + 2e5 * self.proofs[crate] + 8e4 * below + min(5 * loaded, 2.5e9)


def told(files):
    """The processor seconds that files tell, by crate and kind."""
    costs = {}
    for file in files:
        for line in pathlib.Path(file).read_text().splitlines():
            crate, kind, seconds = line.split()
            costs[crate, kind] = float(seconds)
    return costs


def tasks_of(crates, costs):
    """The tasks of `rt ci`, lowest first: what each waits for, its lines, its processor seconds, its memory."""
    tasks = {}
    for crate in sorted(crates.uses, key=lambda it: len(crates.below(it))):
        waits, lines, memory = [(it, "proof") for it in crates.below(crate)], crates.text[crate], crates.memory(crate)
        alone = costs.get((crate, "proof"), 22 if crate.endswith("_tests") else 40 + 0.16 * lines + 0.03 * crates.proofs[crate])
        tasks[crate, "proof"] = waits, lines, alone, memory
        if crates.tests[crate]:
            tasks[crate, "tests"] = waits, lines, costs.get((crate, "tests"), 30 + 0.25 * lines), memory
        if crates.edits[crate]:
            tasks[crate, "seed"] = waits, 0, alone, memory
        for number in range(crates.edits[crate]):
            tasks[crate, f"edit {number}"] = [*waits, (crate, "seed")], lines, 22, 0.7 * memory
    return tasks


def is_filling(key):
    return key[1] not in ("proof", "tests")


class Run:
    """A run of the tasks, in the order of `rt ci`: those with the most lines behind them first, edits last."""

    def __init__(self, tasks):
        self.tasks, self.now, self.done, self.running, self.log = tasks, 0.0, set(), {}, []
        behind = dict.fromkeys(tasks, 0)
        for key in reversed([*tasks]):
            behind[key] += tasks[key][1]
            for low in tasks[key][0]:
                behind[low] = max(behind[low], behind[key])
        self.left = sorted(tasks, key=lambda it: (is_filling(it), -behind[it]))

    def start(self):
        """Starts what may start now."""
        ready = [it for it in self.left if self.done.issuperset(self.tasks[it][0])]
        proofs, lacks = [it for it in ready if not is_filling(it)], False
        for at, key in enumerate(ready):
            if lacks and is_filling(key):
                return
            needs = self.tasks[key][3]
            room = MEMORY - sum(it[1] for it in self.running.values())
            idle = LANES - sum(it[2] for it in self.running.values())
            if idle <= 0 or self.running and needs > room:
                lacks = lacks or idle > 0 and key in proofs
                continue
            others = len(proofs) - proofs.index(key) if key in proofs else len(ready) - at
            jobs = max(1, min(4, idle // others, 1 + int((room / needs - 1) / 0.6))) if key in proofs else 1
            self.left.remove(key)
            self.running[key] = self.now + self.tasks[key][2] / FASTER[jobs], needs * (1 + 0.6 * (jobs - 1)), jobs
            self.log.append(f"{self.now / 60:6.1f} {key[0]} {key[1]}, {jobs}")

    def whole(self):
        """Runs all, and gives the seconds that it takes."""
        while self.left or self.running:
            self.start()
            key = min(self.running, key=lambda it: self.running[it][0])
            self.now = self.running.pop(key)[0]
            self.done.add(key)
            self.log.append(f"{self.now / 60:6.1f} end of {key[0]} {key[1]}")
        return self.now


def main(words):
    if words[:1] == ["--watch"]:
        watch(words[1])
    crates = Crates()
    tasks = tasks_of(crates, told(it for it in words if it != "--log"))
    run = Run(tasks)
    whole = run.whole()
    if "--log" in words:
        print("\n".join(run.log))
    before = sum(crates.imports(it) * crates.ways(it) for it in crates.uses) * 1.07e-6
    for kind in ("proof", "tests"):
        print(f"{sum(it[2] for key, it in tasks.items() if key[1] == kind) / 60:.0f} processor minutes of {kind}")
    print(f"{sum(it[2] for key, it in tasks.items() if is_filling(key)) / 60:.0f} processor minutes of edits")
    print(f"{before / 60:.1f} minutes before the first proof, {max(map(crates.ways, crates.uses)):,} ways below the highest crate")
    print(f"{whole / 60:.1f} minutes of proofs on {LANES} processors")


main(sys.argv[1:])
