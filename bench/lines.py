#!/usr/bin/env python3
"""Measures the built program on scripts of sums: lines a second beside `jq`, time on twice the lines, and memory.

    bench/lines.py [PROGRAM]        (crates/cadence/out/cadence)

It needs the standard library alone, and `jq` for the comparison. It makes its inputs in a folder of its own.
"""
import pathlib, resource, subprocess, sys, tempfile, time

PROGRAM = sys.argv[1] if len(sys.argv) > 1 else str(pathlib.Path(__file__).resolve().parent.parent / "crates/cadence/out/cadence")
LINES = 200_000


def line(i):
    return '{"code":"access(all) fun main(): Int { return %d + %d * %d }","kind":"script"}\n' % (i, i % 97, i % 89)


def best(command, data, times=3):
    """The least wall time of a command that reads the file, in seconds."""
    least = None
    for _ in range(times):
        with open(data, "rb") as feed:
            start = time.monotonic()
            subprocess.run(command, stdin=feed, stdout=subprocess.DEVNULL, check=True)
            taken = time.monotonic() - start
        least = taken if least is None else min(least, taken)
    return least


def peak(command, data):
    """The greatest memory of a command that reads the file, in megabytes."""
    script = "import resource, subprocess, sys; subprocess.run(sys.argv[1:], stdin=open(%r, 'rb'), stdout=subprocess.DEVNULL, check=True); print(resource.getrusage(resource.RUSAGE_CHILDREN).ru_maxrss)" % str(data)
    out = subprocess.run([sys.executable, "-c", script, *command], capture_output=True, text=True, check=True).stdout
    return int(out) / 1024


def main():
    with tempfile.TemporaryDirectory() as folder:
        base = pathlib.Path(folder)
        one, two, large = base / "one", base / "two", base / "large"
        one.write_text("".join(line(i) for i in range(LINES)))
        two.write_text("".join(line(i) for i in range(2 * LINES)))
        chunk = "".join(line(i) for i in range(10_000))
        with open(large, "w") as out:
            written = 0
            while written < 200_000_000:
                written += out.write(chunk)
        ours = best([PROGRAM, "run", folder], one)
        twice = best([PROGRAM, "run", folder], two)
        theirs = best(["jq", "-c", ".code"], one)
        print(f"{LINES} lines: {ours:.3f} s, {LINES / ours:,.0f} lines a second")
        print(f"jq -c .code: {theirs:.3f} s; the program's rate is {theirs / ours:.2f} times jq's")
        print(f"{2 * LINES} lines: {twice:.3f} s, {twice / ours:.2f} times the time")
        print(f"peak memory on {written / 1e6:.0f} MB of input: {peak([PROGRAM, 'run', folder], large):.1f} MB")


if __name__ == "__main__":
    main()
