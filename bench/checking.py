#!/usr/bin/env python3
"""Times the checks of programs, and of twice as many or as long ones, through cadence_check.

Each program is accepted. The least processor time of three runs counts, less that of a run over an empty program; the exponent
is that of the growth between the two sizes. Branches are timed in 1 loop and in 100 too. The last figures are the rate and the
peak memory on tokens of 1 MB, and the rate at which Python compiles a text of its own of equal length.

usage: bench/checking.py [PROGRAM [DIVISOR]]        DIVISOR makes all sizes smaller, for builds that aren't optimized
"""
import json, math, os, pathlib, subprocess, sys, time

ROOT = pathlib.Path(__file__).resolve().parent.parent
TOKEN = """  access(all) entitlement Withdraw%d
  access(all) event Moved%d(id: UInt64, amount: UFix64)
  access(all) resource interface Receiver%d {
    access(all) fun deposit(from: @Vault%d)
  }
  access(all) resource Vault%d: Receiver%d {
    access(all) var balance: UFix64
    init(balance: UFix64) { self.balance = balance }
    access(Withdraw%d) fun withdraw(amount: UFix64): @Vault%d {
      pre { self.balance >= amount: "too little" }
      self.balance = self.balance - amount
      return <-create Vault%d(balance: amount)
    }
    access(all) fun deposit(from: @Vault%d) {
      self.balance = self.balance + from.balance
      emit Moved%d(id: self.uuid, amount: from.balance)
      destroy from
    }
  }
  access(all) fun empty%d(): @Vault%d { return <-create Vault%d(balance: 0.0) }
"""
PYTHON = """class Vault%d:
    def __init__(self, balance):
        self.balance = balance

    def withdraw(self, amount):
        assert self.balance >= amount, "too little"
        self.balance = self.balance - amount
        return Vault%d(amount)

    def deposit(self, other):
        self.balance = self.balance + other.balance
        moved(self.uuid, other.balance)
        del other
"""


def contract(inside):
    return "access(all) contract C {\n" + inside + "}\n"


def main_of(body):
    return "access(all) fun main() {\n" + body + "}\n"


def tokens(n):
    return contract("".join(TOKEN.replace("%d", str(i)) for i in range(n)))


def structs(n):
    return contract("".join(f"  access(all) struct S{i} {{ access(all) fun f(): Int {{ return {i} }} }}\n" for i in range(n)))


def members(n):
    inside = "".join(f"    access(all) fun f{i}(): Int {{ return {i} }}\n" for i in range(n))
    return contract("  access(all) struct S {\n" + inside + "  }\n")


def looks(n):
    """Members of a struct with 500 functions, n times."""
    uses = "".join(f"    a = s.f{i % 500}()\n" for i in range(n))
    inside = "".join(f"    access(all) fun f{i}(): Int {{ return {i} }}\n" for i in range(500))
    return contract("  access(all) struct S {\n" + inside + "  }\n  access(all) fun g(s: S) {\n    var a = 0\n" + uses + "  }\n")


def statements(n):
    return main_of("  var a = 0\n" + "  a = a + 1\n" * n)


def variables(n):
    return main_of("".join(f"  let a{i} = {i}\n" for i in range(n)) + f"  let b = a0 + a{n - 1}\n")


def nested(n):
    """Values in as many brackets as may nest, n times."""
    return main_of("  var a = 1\n" + ("  a = " + "(" * 127 + "a" + ")" * 127 + "\n") * n)


def branches(n, loops=100):
    """Resources that each of n branches in a row moves or keeps, inside loops."""
    one = "    if flag { destroy <-self.make() } else { let r <- self.make()\n destroy r }\n"
    body = "  while flag {\n" * loops + one * n + "  }\n" * loops
    return contract("  access(all) resource R {}\n  access(all) fun make(): @R { return <-create R() }\n  access(all) fun f(flag: Bool) {\n" + body + "  }\n")


# what is checked, how many, and whether a script or a contract
ROWS = [
    ("tokens with their vaults", tokens, 500, "contract"),
    ("structs of a contract", structs, 1_000, "contract"),
    ("functions of a struct", members, 1_000, "contract"),
    ("calls of a struct with 500 functions", looks, 5_000, "contract"),
    ("statements", statements, 10_000, "script"),
    ("variables in scope", variables, 1_000, "script"),
    ("statements with 127 brackets", nested, 500, "script"),
    ("branches in a row in 100 loops", branches, 1_000, "contract"),
]


def line_of(kind, code):
    place = {"address": "0x1", "name": "C"} if kind == "contract" else {}
    return json.dumps({"kind": kind, "code": code, **place}).encode() + b"\n"


def once(program, line):
    """The processor time of a run, and its peak memory in bytes."""
    with subprocess.Popen(program, stdin=subprocess.PIPE, stdout=subprocess.PIPE) as child:
        child.stdin.write(line)
        child.stdin.close()
        out = child.stdout.read()
        _, status, used = os.wait4(child.pid, 0)
        child.returncode = status
    assert (status, out) == (0, b'{"reply":"accepted"}\n'), out[:300]
    return used.ru_utime + used.ru_stime, used.ru_maxrss * 1024


def run(program, line):
    """The least time of three runs, and the peak memory."""
    runs = [once(program, line) for _ in range(3)]
    return min(seconds for seconds, _ in runs), max(peak for _, peak in runs)


def python_rate(length):
    text = "".join(PYTHON.replace("%d", str(i)) for i in range(length // len(PYTHON) + 1))
    best = min(timed(text) for _ in range(3))
    return len(text) / best


def timed(text):
    start = time.process_time()
    compile(text, "text", "exec")
    return time.process_time() - start


def growth(program, what, code, count, kind, nothing):
    """Prints the time of a row, its rate, and the growth to twice as many."""
    one, two = code(count), code(2 * count)
    first, second = (run(program, line_of(kind, text))[0] - nothing for text in (one, two))
    rate, exponent = len(one) / first / 1e6, math.log2(second / first)
    print(f"{what}, {count}: {first * 1000:.0f} ms, {rate:.2f} MB a second; {2 * count}: {second / first:.2f} times, exponent {exponent:.2f}", flush=True)


def loops(program, count, nothing):
    """Prints the time of branches by the nesting of loops."""
    one, deep = (run(program, line_of("contract", branches(count, depth)))[0] - nothing for depth in (1, 100))
    print(f"{count} branches in 100 loops: {deep / one:.2f} times the time of 1 loop", flush=True)


def main():
    words = sys.argv[1:]
    program = words[0] if words else str(ROOT / "crates/cadence_check/out/cadence_check")
    part = int(words[1]) if words[1:] else 1
    nothing, held = run(program, line_of("script", "access(all) fun main() {}"))
    for what, code, count, kind in ROWS:
        growth(program, what, code, count // part, kind, nothing)
    loops(program, 1_000 // part, nothing)
    whole = tokens(1_240 // part)
    seconds, peak = run(program, line_of("contract", whole))
    rate = len(whole) / (seconds - nothing)
    print(f"{len(whole)} bytes of tokens: {rate / 1e6:.2f} MB a second; {peak / 1e6:.0f} MB, {(peak - held) / len(whole):.0f} times the source over an empty program")
    print(f"Python compiles {python_rate(len(whole)) / 1e6:.2f} MB a second: {rate / python_rate(len(whole)):.2f} times its rate")


if __name__ == "__main__":
    main()
