"""Builds a small proved program over copies of the repository's crates, for a benchmark to time, and compares its times."""
import pathlib, shutil, subprocess

ROOT = pathlib.Path(__file__).resolve().parent.parent
COUNTS = [1000, 2000]
MOST = 2.3


def lines_of(names):
    """The lines of crates.txt that these crates and those below them have in the repository, by name, the lowest first."""
    lines, wanted = {}, set(names)
    for line in (ROOT / "crates.txt").read_text().splitlines():
        name, colon, _ = line.split("#")[0].partition(":")
        if colon:
            lines[name.strip()] = line
    for name in reversed(lines):
        if name in wanted:
            wanted.update(lines[name].split("#")[0].partition(":")[2].split())
    return {name: line for name, line in lines.items() if name in wanted}


def build(folder, libraries, name, uses, source, proofs, words):
    """The program `name` with this source and these proof files, over these crates, and the crates of the kit that it
    uses; it is run once with these words. Answers its path."""
    crates = folder / "crates"
    crates.mkdir(parents=True)
    lines = lines_of(libraries)
    for library in lines:
        shutil.copytree(ROOT / "crates" / library, crates / library, ignore=shutil.ignore_patterns("out", "must-fail", "edits"))
    subprocess.run(["git", "init", "-q", "."], cwd=folder, check=True)
    own = f"{name}: {' '.join([*libraries, *uses])}"
    (folder / "crates.txt").write_text("\n".join([*lines.values(), own]) + "\n")
    (folder / "HANDLES").write_text((ROOT / "HANDLES").read_text())
    program = crates / name
    (program / "src").mkdir(parents=True)
    (program / "src" / "main.rt").write_text(source)
    for path, text in proofs.items():
        file = program / "proofs" / path
        file.parent.mkdir(parents=True, exist_ok=True)
        file.write_text(text)
    subprocess.run(["rt", "run", "--jobs", "2", "--", *words], cwd=program, check=True, capture_output=True)
    return program / "out" / name


def grows(kinds, parts, times):
    """Prints the times in milliseconds that `times` gives, part by part, for 1,000 and 2,000 of each kind. Whether one of them
    is over 2.3 times as long for twice as many."""
    slow = False
    for kind in kinds:
        first, second = (times(kind, count) for count in COUNTS)
        for part, a, b in zip(parts, first, second):
            print(f"{kind}, {part}: {a:.2f} ms and {b:.2f} ms, {b / a:.2f} times", flush=True)
            slow = slow or b / a > MOST
    return slow
