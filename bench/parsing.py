#!/usr/bin/env python3
"""Times the lexer and the whole reader on contracts, and on twice as many, through the built program.

A line asks for a script whose code is one contract of a token with its vault, again and again under other names. Such code is a
program, but a script has no contracts, so it is rejected in phase `resolve`; with a `#` at its end the lexer stops there. For each
line the program reads the JSON twice, lexes the code twice and looks for what its names mean, so the figures are lower bounds. The
least processor time of five runs counts. So are the lists of comparisons, at each of whose `<` the reader looks ahead for type
arguments; they are rejected in phase `types`, at the first name that isn't in scope.

usage: bench/parsing.py [PROGRAM]
"""
import json, pathlib, resource, subprocess, sys, tempfile

ROOT = pathlib.Path(__file__).resolve().parent.parent
sys.path.insert(0, str(ROOT / "tests"))
import generate

CONTRACT = generate.TOKEN.replace("contract Token", "contract Token%d")
COMPARED = "access(all) fun main(): [Bool] { return [%s] }"
# What is read, the code of so many parts, their number, the lines of a run, and what each reply has in it.
ROWS = [
    ("lexing", lambda count: "".join(CONTRACT % i for i in range(count)) + "#", 800, 20, b'"phase":"lex"'),
    ("the whole", lambda count: "".join(CONTRACT % i for i in range(count)), 800, 20, b'"phase":"resolve"'),
    ("comparisons that no > ends", lambda count: COMPARED % ",".join(["a<b"] * count), 200_000, 2, b'"phase":"types"'),
    ("comparisons that a > and a ( end", lambda count: COMPARED % ",".join(["a<" * 60 + "b" + ">(c)" * 60] * count), 2_000, 2, b'"phase":"types"'),
]


def seconds_of(program, code, lines, reply):
    """The least time of one line with this code, whose reply has these bytes in it."""
    line = json.dumps({"code": code, "kind": "script"}).encode() + b"\n"
    assert len(line) <= 1 << 20, len(line)
    best = None
    for _ in range(5):
        with tempfile.TemporaryDirectory() as folder:
            start = resource.getrusage(resource.RUSAGE_CHILDREN).ru_utime
            out = subprocess.run([program, "run", folder], input=line * lines, check=True, capture_output=True).stdout
            seconds = resource.getrusage(resource.RUSAGE_CHILDREN).ru_utime - start
        assert out.count(reply) == lines, out[:200]
        best = seconds if best is None else min(best, seconds)
    return best / lines


def main():
    program = sys.argv[1] if len(sys.argv) > 1 else str(ROOT / "crates/cadence/out/cadence")
    for what, code, count, lines, reply in ROWS:
        half, whole = code(count // 2), code(count)
        one, two = seconds_of(program, half, lines, reply), seconds_of(program, whole, lines, reply)
        print(f"{what}: {len(whole) / two / 1e6:.1f} MB a second on {len(whole)} bytes, {two / one:.2f} times the time of half as many")


if __name__ == "__main__":
    main()
