#!/usr/bin/env python3
"""Tells where a line of crates.txt doesn't list what the files of its crate name: a crate that is lacking, which a check of the crate
would refuse an hour into `rt ci`, or one that no file names, which only makes `rt ci` reckon longer.

    tests/lines.py
"""
import pathlib, re, sys

ROOT = pathlib.Path(__file__).resolve().parent.parent


def listed():
    """The crates that each line of crates.txt lists."""
    lines = [it.split("#")[0].partition(":") for it in (ROOT / "crates.txt").read_text().splitlines()]
    return {head.split()[0]: tail.split() for head, colon, tail in lines if colon}


def named(crate):
    """The crates that a crate's files name, in code, contracts and proofs."""
    found = set()
    for folder in ("src", "specs", "proofs"):
        for file in (ROOT / "crates" / crate / folder).rglob("*.*"):
            text = re.sub(r"//.*|--.*", "", file.read_text()) if file.suffix in (".rt", ".antt") else ""
            found |= {*re.findall(r"\bRattle\.(cad_\w+)\.", text), *re.findall(r"\b(cad_\w+)::", text)}
    return found - {crate}


def main():
    lines, wrong = listed(), []
    for crate, below in lines.items():
        names = named(crate) & set(lines)
        wrong += [f"crates.txt: {crate} names {it}, which its line lacks" for it in sorted(names - set(below))]
        wrong += [f"crates.txt: {crate} lists {it}, which none of its files names" for it in below if it in lines and it not in names]
    for line in wrong:
        print(line)
    print(f"lines: {len(lines)} crates, {len(wrong)} wrong")
    sys.exit(1 if wrong else 0)


main()
