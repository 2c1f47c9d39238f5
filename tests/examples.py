#!/usr/bin/env python3
"""Runs the sessions of examples/ and compares each reply with the one that stands beside them.

In each folder of examples/ the session `session.jsonl`, and then `session-2.jsonl` and so on, are given to the program one
after another on one new folder of accounts; what is put must be `replies.jsonl`, `replies-2.jsonl`, .. byte for byte, and each
run must end with status 0.

What pages show is what the sessions have: each line of JSON of a page must stand in one of these files, and each program in
the code of a line of them, up to white space and `;`. A file NAME.cdc is the code of each deploy of NAME, and of one at least.

    tests/examples.py PROGRAM
"""
import json
import pathlib
import re
import subprocess
import sys
import tempfile

TOP = pathlib.Path(__file__).resolve().parent.parent
PAGES = ["README.md", "docs/TOUR.md", "docs/WALLETS.md", "docs/INDEXERS.md"]


def sessions(folder):
    """The sessions of an example with their replies, in the order in which they run."""
    files = folder.glob("session*.jsonl")
    number = lambda file: int(re.sub(r"\D", "", file.stem) or 1)
    return [(file, folder / file.name.replace("session", "replies")) for file in sorted(files, key=number)]


def differences(program, folder):
    """What is wrong with an example, a line for each thing."""
    wrong = []
    with tempfile.TemporaryDirectory() as accounts:
        for session, replies in sessions(folder):
            done = subprocess.run([program, "run", accounts], input=session.read_bytes(), capture_output=True, timeout=900)
            name = session.relative_to(TOP)
            if done.returncode:
                wrong.append(f"{name}: status {done.returncode}: {done.stderr.decode(errors='replace').strip()}")
            got, wanted = done.stdout.splitlines(), replies.read_bytes().splitlines()
            pairs = zip(got + [None] * len(wanted), wanted + [None] * len(got))
            wrong += [f"{name}, reply {n}: {g}, and {w} is wanted" for n, (g, w) in enumerate(pairs, 1) if g != w]
            if not wrong and done.stdout != replies.read_bytes():
                wrong.append(f"{name}: the line ends differ")
    return wrong


def requests(folders):
    """The lines of all sessions that are JSON objects."""
    lines = [line for folder in folders for session, _ in sessions(folder) for line in session.read_text().splitlines()]
    return [json.loads(line) for line in lines if line.startswith('{"kind":')]


def contracts(folders, asked):
    """The files of contracts that are deployed nowhere, or with another text."""
    wrong = []
    for file in (file for folder in folders for file in folder.glob("*.cdc")):
        codes = [line["code"] for line in asked if line["kind"] == "deploy" and line.get("name") == file.stem]
        if not codes or any(code != file.read_text() for code in codes):
            wrong.append(f"{file.relative_to(TOP)} isn't what is deployed")
    return wrong


def laid_out(code):
    """A code without what may differ between a page and a line."""
    return re.sub(r"[\s;]+", " ", code).strip()


def blocks(page):
    """The programs and parts of contracts that a page shows: indented lines, the first of which begins one."""
    text = re.sub(r'^    \{".*$', "-", page.read_text() + "\n", flags=re.M)
    shown = re.findall(r"(?:^    .*\n(?:[ \t]*\n(?=    ))*)+", text, re.M)
    return [block for block in shown if re.match(r"    (?:access\(|import |transaction\b)", block)]


def shown_elsewhere(pages, folders, asked):
    """The lines of JSON and the programs of pages that stand in no example."""
    known = {line for folder in folders for pair in sessions(folder) for file in pair for line in file.read_text().splitlines()}
    codes = [laid_out(line["code"]) for line in asked if "code" in line]
    wrong = []
    for page in pages:
        lines = re.findall(r"^    (?:\$ echo ')?(\{\".*\})(?:' \|.*)?$", page.read_text(), re.M)
        wrong += [f"{page.relative_to(TOP)}: {line} stands in no example" for line in lines if line not in known]
        for block in blocks(page):
            if not any(laid_out(block) in code for code in codes):
                wrong.append(f"{page.relative_to(TOP)}: this stands in no example:\n{block}")
    return wrong


def main():
    if len(sys.argv) != 2:
        sys.exit(__doc__)
    program = str(pathlib.Path(sys.argv[1]).resolve())
    folders = sorted(folder for folder in (TOP / "examples").iterdir() if folder.is_dir())
    pages = [TOP / page for page in PAGES if (TOP / page).exists()] + sorted((TOP / "examples").glob("**/README.md"))
    asked = requests(folders)
    wrong = contracts(folders, asked) + shown_elsewhere(pages, folders, asked)
    for folder in folders:
        wrong += differences(program, folder)
    for line in wrong:
        print(line)
    print(f"examples: {len(folders)} folders, {len(wrong)} wrong")
    sys.exit(1 if wrong or not folders else 0)


main()
