#!/usr/bin/env python3
"""Times commands over 1,000 and 1,000,000 registers, wherever the keys that they change stand among them.

Each store has accounts of 98 stored numbers, 10 of them and 10,100. On each, in turns: commands that make accounts, whose registers
come before all stored values; and transactions that save a number in an account, and load it again, in the first account, one in
the middle and the last. The time of the processor for each command, the least of the turns; how many times that of the small store
it is on the large one; that of the opening, and peak memory.

usage: bench/registers.py PROGRAM [OTHER-PROGRAM]
"""
import os, pathlib, subprocess, sys, tempfile

sys.path.insert(0, str(pathlib.Path(__file__).resolve().parent.parent / "tests"))
import model

VALUES = 98
SIZES = [10, 10_100]
TURNS = 10
PAIRS = 50  # of commands in a turn


def make_store(folder, accounts):
    """A store whose one record has accounts with stored numbers."""
    changes = {b"\0": model.number_field(accounts) + model.number_field(1)}
    for address in range(1, accounts + 1):
        changes[b"\1" + model.number_field(address)] = model.number_field(1)
    for address in range(1, accounts + 1):
        for i in range(VALUES):
            changes[b"\4" + model.number_field(address) + b"v%02d" % i] = b"\4\0\0" + i.to_bytes(16, "big")
    folder.mkdir()
    (folder / "a").write_bytes(model.record_of(changes) + b"\0")
    (folder / "pick").write_bytes(b"\1")
    return len(changes)


class Run:
    """A run of the program on a copy of a store."""

    def __init__(self, program, folder, copy):
        for name in ("a", "pick"):
            (pathlib.Path(copy) / name).write_bytes((folder / name).read_bytes())
        self.process = subprocess.Popen([program, "run", copy], stdin=subprocess.PIPE, stdout=subprocess.PIPE)
        self.time_of(1, b'{"kind":"script","code":"access(all) fun main() {}"}\n')

    def used(self):
        """The time of the processor until now, in seconds."""
        return int(pathlib.Path(f"/proc/{self.process.pid}/schedstat").read_text().split()[0]) / 1e9

    def time_of(self, count, lines):
        """What lines take of the processor, some at a time. All of them take effect."""
        before = self.used()
        for _ in range(count):
            self.process.stdin.write(lines)
            self.process.stdin.flush()
            for _ in range(lines.count(b"\n")):
                assert b'"reply":"ok"' in self.process.stdout.readline()
        return self.used() - before

    def end(self):
        """The peak memory in MB."""
        self.process.stdin.close()
        _, status, used = os.wait4(self.process.pid, 0)
        self.process.returncode = os.waitstatus_to_exitcode(status)
        assert self.process.returncode == 0
        return used.ru_maxrss / 1024


def save_and_load(address):
    """Two commands: a number is saved between the stored ones, and loaded again."""
    return b"".join(
        b'{"kind":"transaction","signers":["0x%x"],"code":"transaction { prepare(a: auth(Storage) &Account) { %s } }"}\n' % (address, code)
        for code in (b"a.storage.save(1, to: /storage/v50x)", b"let n = a.storage.load<Int>(from: /storage/v50x)")
    )


def measure(program, base, accounts):
    """Microseconds a command for each kind of them."""
    folder = base / str(accounts)
    registers = make_store(folder, accounts)
    kinds = {
        "accounts": b'{"kind":"account"}\n' * 2,
        "saves and loads, the first account": save_and_load(1),
        "saves and loads, one in the middle": save_and_load(accounts // 2),
        "saves and loads, the last account": save_and_load(accounts),
    }
    with tempfile.TemporaryDirectory(dir=base) as copy:
        run = Run(program, folder, copy)
        opened, times = run.used(), {name: [] for name in kinds}
        for _ in range(TURNS):
            for name, lines in kinds.items():
                times[name].append(run.time_of(PAIRS, lines))
        print(f"{registers:,} registers: opened in {opened:.3f} s; peak memory {run.end():.1f} MB", flush=True)
    return {name: 1e6 * min(taken) / PAIRS / 2 for name, taken in times.items()}


def main():
    if len(sys.argv) < 2:
        print(__doc__)
        return 2
    for program in sys.argv[1:]:
        with tempfile.TemporaryDirectory(dir="/dev/shm" if os.path.isdir("/dev/shm") else None) as name:
            few, many = (measure(program, pathlib.Path(name), accounts) for accounts in SIZES)
            for kind in few:
                print(f"{kind}: {few[kind]:.0f} us a command, {many[kind]:.0f} us on the large store, {many[kind] / few[kind]:.2f} times", flush=True)
    return 0


if __name__ == "__main__":
    sys.exit(main())
