#!/usr/bin/env python3
"""Tries the wrong bodies of crates/NAME/edits, which the gate doesn't try: all of a crate in one check, each in another function.

    tests/edits.py NAME..      these crates
    tests/edits.py             all that have a folder edits/

Behind --built=BUILT, the folder of tests/libraries.py, they are checked over the libraries that it has; behind --only=EDIT,EDIT these alone.

An edit is a file as in must-fail/: a line 'file: PATH', then pairs of lines 'old: TEXT' and 'new: TEXT'. The function in which it stands must not be
proved any more, by a goal of its own and not only since it calls another or since its proof names what the edit took away: that is 'NOT TRIED'. Only
these functions and those that they call are checked, in a copy of the crate and of those below it, over the libraries that stand built here: build
them first, by a check of the crate as it stands (rt check), where there is no BUILT. What the checks said stands in crates/NAME/out/edits.txt."""
import os, pathlib, re, shutil, subprocess, sys, tempfile

import check_over

ROOT = pathlib.Path(__file__).resolve().parent.parent


def read(path):
    """The file that an edit names, and its pairs of texts."""
    file, old, pairs = None, None, []
    for line in path.read_text().splitlines():
        if line.startswith("file: "):
            file = line[6:].strip()
        elif line.startswith("old: "):
            old = line[5:]
        elif line.startswith("new:"):
            pairs.append((old, line[4:].removeprefix(" ")))
    return file, pairs


def function_at(text, place):
    """The function in which this place stands, as a check names it below its module: behind its type, and a trait, where it is a method."""
    begun = [*re.finditer(r"^( *)(?:pub(?:\([a-z ]+\))? )?(?:const )?(?:unsafe )?fn (\w+)", text[:place], re.M)]
    if not begun:
        return None
    name, owner = begun[-1][2], ""
    if begun[-1][1]:
        trait, owner = re.findall(r"^impl(?:<[^>]*>)? (?:(\w+)(?:<[^{]*>)? for )?(\w+)", text[: begun[-1].start()], re.M)[-1]
        owner += f"{trait}::"
    return owner + name


def changed(crate, edit):
    """The function that an edit changes, by its path in the crate as it stands (of a method that of its type), or stops."""
    file, pairs = read(edit)
    text, name = (crate / file).read_text(), None
    for old, _ in pairs:
        if text.count(old) != 1:
            sys.exit(f"{edit}: a text stands {text.count(old)} times in {file}, and not once")
        name = function_at(text, text.index(old))
    owner = (name or "").rpartition("::")[0].rpartition("::")[2]
    of_owner = [it for it in (crate / "src").rglob("*.rt") if owner and re.search(rf"^(pub(\([a-z ]+\))? )?(struct|enum) {owner}\b", it.read_text(), re.M)]
    parts = [*of_owner, crate / file][0].relative_to(crate / "src").with_suffix("").parts
    return "::".join([*(it for it in parts if it not in ("lib", "main", "mod")), str(name)])


def apply(crate, edit):
    """Writes the edit into the crate."""
    file, pairs = read(edit)
    text = (crate / file).read_text()
    for old, new in pairs:
        text = text.replace(old, new)
    (crate / file).write_text(text)


def goals_of(said, name, function):
    """What was told of a function in a check's output, and its goals that are not proved: those that `search` left, and what was refused in its own proof."""
    told = re.findall(rf"^fn {name}::{re.escape(function)}: (.*)", said, re.M)
    left = [it for line in told if line.startswith("no proof") for it in re.findall(r"`search` did not prove (`[^`]+`(?:(?:, | and )`[^`]+`)*)", line)]
    folder = re.escape(f"./proofs/{function.replace('::', '/')}/")
    refused = re.findall(rf"^({folder}\S+ error: .*)", said, re.M)
    gone = [it for it in refused if re.search(r" has no (?:field )?`|not in scope|was not admitted", it)]
    return told, left + [it for it in refused if it not in gone], gone


def judged(name, edits, room):
    """Checks the crate with these edits in it, those in one function left for later: answers what was told of each, and the edits that are left."""
    crate, functions, later = room / "crates" / name, {}, []
    shutil.copytree(ROOT / "crates" / name / "src", crate / "src", dirs_exist_ok=True)
    for edit in edits:
        function = changed(ROOT / "crates" / name, edit)
        if function in functions.values():
            later.append(edit)
        else:
            apply(crate, edit)
            functions[edit.stem] = function
    only = [word for it in functions.values() for word in ("--only", it)]
    command = ["rt", "check", "--jobs", "1"]
    if BUILT:
        command = [f"{check_over.KIT}/bin/rattle", "check", *check_over.words_of(str(ROOT), os.path.abspath(BUILT), name, [])[0]]
    ran = subprocess.run([*command, "--allow-holes", *only], cwd=crate, capture_output=True, text=True)
    kept = ROOT / "crates" / name / "out" / "edits.txt"
    kept.parent.mkdir(exist_ok=True)
    with kept.open("a") as it:
        it.write(ran.stdout + ran.stderr)
    told = {edit: (function, *goals_of(ran.stdout + ran.stderr, name, function)) for edit, function in functions.items()}
    if not any(found for _, found, _, _ in told.values()):
        print("\n".join(ran.stdout.splitlines()[-12:] + ran.stderr.splitlines()[-6:]))
    return told, later


def with_below(name):
    """The lines of crates.txt of a crate and of all below it, by name."""
    lines = {it.split(":")[0].split()[0]: it for it in (ROOT / "crates.txt").read_text().splitlines() if ":" in it and not it.startswith("#")}
    found, left = {}, [name]
    while left:
        it = left.pop()
        if it in lines and it not in found:
            found[it] = lines[it]
            left += lines[it].split(":")[1].split()
    return found


def attempt(name):
    """Tries all edits of a crate, and answers how many were not refused."""
    edits = sorted(it for it in (ROOT / "crates" / name / "edits").glob("*.edit") if not ONLY or it.stem in ONLY)
    missed = 0
    (ROOT / "crates" / name / "out" / "edits.txt").unlink(missing_ok=True)
    with tempfile.TemporaryDirectory(prefix="cadence-edits-") as room:
        room = pathlib.Path(room)
        lines = with_below(name)
        (room / "crates.txt").write_text("\n".join(lines.values()) + "\n")
        shutil.copy(ROOT / "HANDLES", room / "HANDLES")
        for it in lines:
            shutil.copytree(ROOT / "crates" / it, room / "crates" / it, ignore=shutil.ignore_patterns("out"))
            if it != name and (ROOT / "crates" / it / "out" / "rlib").is_dir():
                shutil.copytree(ROOT / "crates" / it / "out" / "rlib", room / "crates" / it / "out" / "rlib", copy_function=os.link)
        subprocess.run(["git", "init", "-q", "."], cwd=room, check=True)
        while edits:
            told, edits = judged(name, edits, room)
            for edit, (function, found, goals, gone) in told.items():
                missed += not goals
                says = "refused" if goals else "NOT REFUSED" if found and {*found} <= {"no holes", "proved"} else "NOT TRIED"
                print(f"{name}/{edit}: {says}: {function}: {'; '.join(goals or gone or found)[:200] or 'not told'}", flush=True)
    return missed


FLAGS = dict(it[2:].split("=", 1) for it in sys.argv[1:] if it.startswith("--"))
BUILT, ONLY = FLAGS.get("built"), [*filter(None, FLAGS.get("only", "").split(","))]
names = [it for it in sys.argv[1:] if not it.startswith("--")] or sorted(it.parent.name for it in (ROOT / "crates").glob("*/edits"))
sys.exit(1 if sum([attempt(it) for it in names]) else 0)
