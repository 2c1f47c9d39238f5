#!/usr/bin/env python3
"""Times scripts beside the same work in CPython, by the time of the processor.

Each program is run as a line of `run FOLDER`; a line that returns at once is subtracted, so that starting the program and
opening the folder don't count, but reading and checking the code do. Each is made three times, and the least counts. Then the
same work of twice the size, where the units allow it.

usage: bench/scripts.py PROGRAM
"""
import json, resource, subprocess, sys, tempfile

LIMIT = 1_000_000

# name, the script and the Python of a size, the size
PROGRAMS = [
    ("loop of additions and comparisons", 150_000,
     "access(all) fun main(n: Int): Int { var i = 0\nwhile i < n { i = i + 1 }\nreturn i }",
     "i = 0\nwhile i < n:\n    i = i + 1\n"),
    ("sum over an array", 32_768,
     "access(all) fun main(n: Int): Int { var a: [Int] = []\nvar i = 0\nwhile i < n { a.append(i)\ni = i + 1 }\nvar s = 0\nfor x in a { s = s + x }\nreturn s }",
     "a = []\ni = 0\nwhile i < n:\n    a.append(i)\n    i = i + 1\ns = 0\nfor x in a:\n    s = s + x\n"),
    ("texts concatenated", 5_000,
     "access(all) fun main(n: Int): Int { var s = \"\"\nvar i = 0\nwhile i < n { s = s.concat(\"ab\")\ni = i + 1 }\nreturn s.length }",
     "s = ''\ni = 0\nwhile i < n:\n    t = s\n    s = t + 'ab'\n    i = i + 1\n"),
    ("dictionary of texts", 1_000,
     "access(all) fun main(n: Int): Int { var d: {String: Int} = {}\nvar i = 0\nwhile i < n { d[i.toString()] = i\ni = i + 1 }\nreturn d.length }",
     "d = {}\ni = 0\nwhile i < n:\n    d[str(i)] = i\n    i = i + 1\n"),
    ("Fibonacci numbers by calls", 18,
     "access(all) fun fib(_ n: Int): Int { if n < 2 { return n }\nreturn fib(n - 1) + fib(n - 2) }\naccess(all) fun main(n: Int): Int { return fib(n) }",
     "def fib(n):\n    if n < 2:\n        return n\n    return fib(n - 1) + fib(n - 2)\nfib(n)\n"),
    ("nested arrays built and dropped", 5_000,
     "access(all) fun main(n: Int): Int { var i = 0\nwhile i < n { let t = [[i, i], [i, i]]\ni = i + 1 }\nreturn i }",
     "i = 0\nwhile i < n:\n    t = [[i, i], [i, i]]\n    i = i + 1\n"),
]
NOTHING = ("access(all) fun main(n: Int): Int { return n }", "pass\n")


def seconds(words, data=b""):
    """The least time of the processor of three runs, and what the last one wrote."""
    least, out = None, b""
    for _ in range(3):
        before = resource.getrusage(resource.RUSAGE_CHILDREN)
        out = subprocess.run(words, input=data, capture_output=True).stdout
        after = resource.getrusage(resource.RUSAGE_CHILDREN)
        spent = after.ru_utime + after.ru_stime - before.ru_utime - before.ru_stime
        least = spent if least is None else min(least, spent)
    return least, out


def script(program, code, size):
    line = json.dumps({"kind": "script", "code": code, "arguments": [{"type": "Int", "value": str(size)}], "limit": LIMIT})
    with tempfile.TemporaryDirectory() as folder:
        return seconds([program, "run", folder], line.encode() + b"\n")


def main():
    program = sys.argv[1]
    idle = script(program, NOTHING[0], 1)[0]
    python_idle = seconds([sys.executable, "-c", "n = 1\n" + NOTHING[1]])[0]
    print("| Program | Size | Seconds | CPython's rate | Twice the size |\n|---|---|---|---|---|")
    for name, size, code, python in PROGRAMS:
        spent, out = script(program, code, size)
        wrong = b"" if b'"ok"' in out else b" " + out.strip()
        twice = "" if name.startswith("Fib") else f"{(script(program, code, 2 * size)[0] - idle) / max(spent - idle, 1e-6):.2f} times"
        beside = seconds([sys.executable, "-c", f"n = {size}\n" + python])[0] - python_idle
        print(f"| {name} | {size} | {spent - idle:.3f} | {beside / max(spent - idle, 1e-6):.3f} times | {twice} |{wrong.decode()}")


main()
