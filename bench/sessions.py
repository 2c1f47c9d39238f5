#!/usr/bin/env python3
"""Times sessions over contracts: generated ones in memory, the same lines on the disk beside bare writes, and imports of long contracts.

- `generate N` for 1,000 and 10,000 transfers, and ten times as many with --long: time of the processor a line, and the ratio.
- The lines of a session of 1,000 transfers through `run FOLDER`: lines a second, beside the rate of two writes that are synced
  one after the other, and the program's peak memory.
- A transaction of five lines that imports ten contracts of 1,000 lines: time of the processor for each of 100 more of them.

usage: bench/sessions.py PROGRAM [--long]
"""
import json, os, pathlib, resource, subprocess, sys, tempfile, time

sys.path.insert(0, str(pathlib.Path(__file__).resolve().parent.parent / "tests"))
import generate


def processor(words, data=b""):
    """The time of the processor of a run, and what it wrote."""
    before = resource.getrusage(resource.RUSAGE_CHILDREN)
    out = subprocess.run(words, input=data, capture_output=True).stdout
    after = resource.getrusage(resource.RUSAGE_CHILDREN)
    return after.ru_utime + after.ru_stime - before.ru_utime - before.ru_stime, out


def as_lines(requests):
    return "".join(json.dumps(it, separators=(",", ":"), sort_keys=True) + "\n" for it in requests).encode()


def generated(program, is_long):
    """What `generate` takes for sizes ten times apart."""
    before = None
    for n in [1_000, 10_000] + [100_000] * is_long:
        spent, _ = processor([program, "generate", str(n)])
        ratio = "" if before is None else f"{spent / before:.1f} times the tenth of it"
        print(f"| `generate {n}` | {spent:.2f} s, {1e6 * spent / n:.0f} us a transfer | {ratio} |", flush=True)
        before = spent


def two_syncs(folder, count):
    """How many times a second two writes are synced one after the other."""
    files = [os.open(f"{folder}/{name}", os.O_CREAT | os.O_WRONLY) for name in ("x", "y")]
    start = time.time()
    for i in range(count):
        for file in files:
            os.pwrite(file, b"x" * 300, 300 * i)
            os.fdatasync(file)
    return count / (time.time() - start)


def on_the_disk(program):
    """A session of transfers on the disk: its rate, and its peak memory."""
    requests = generate.requests(1_000)
    with tempfile.TemporaryDirectory(dir=".") as folder, tempfile.TemporaryDirectory(dir=".") as other:
        start = time.time()
        running = subprocess.Popen([program, "run", folder], stdin=subprocess.PIPE, stdout=subprocess.DEVNULL)
        running.stdin.write(as_lines(requests))
        running.stdin.close()
        _, _, used = os.wait4(running.pid, 0)
        rate, bare = len(requests) / (time.time() - start), two_syncs(other, 300)
    print(f"| {len(requests)} lines on the disk | {rate:.0f} a second, by two bare writes that are synced: {rate / bare:.2f} times | peak memory {used.ru_maxrss / 1024:.1f} MB |", flush=True)


def long_contract(name):
    """A contract of 1,000 lines."""
    functions = "".join(f"  access(all) fun f{i}(n: Int): Int {{\n    var a = n + {i}\n    if a > 100 {{\n      a = a - 1\n    }}\n    return a\n  }}\n" for i in range(142))
    return f"access(all) contract {name} {{\n{functions}}}\n"


def imports(program):
    """What a transaction takes that imports ten long contracts, by 100 of them more."""
    names = [f"C{i}" for i in range(10)]
    code = "\n".join([*(f"import {it} from 0x1" for it in names), "transaction { execute {", "  let n = C0.f0(n: C9.f1(n: 1))", "} }"])
    requests = [{"kind": "account"}, *({"address": "0x1", "code": long_contract(it), "kind": "deploy", "name": it} for it in names)]
    spent = []
    for count in (1, 101):
        with tempfile.TemporaryDirectory(dir=".") as folder:
            seconds, out = processor([program, "run", folder], as_lines(requests + [{"code": code, "kind": "transaction", "signers": []}] * count))
        if out.count(b'"ok"') != len(requests) + count:
            sys.exit(f"not all are ok: {out[-300:]}")
        spent.append(seconds)
    print(f"| a transaction that imports ten contracts of 1,000 lines | {10 * (spent[1] - spent[0]):.2f} ms | {spent[0]:.2f} s for the deploys |")


def main():
    program = str(pathlib.Path(sys.argv[1]).resolve())
    print("| What | Result | |\n|---|---|---|")
    generated(program, "--long" in sys.argv)
    on_the_disk(program)
    imports(program)


main()
