#!/usr/bin/env python3
"""Times commands that change accounts, and the opening of a store of 100,000 accounts.

- `account` commands a second, each on the disk before its reply, beside SQLite (Python's module, one INSERT a transaction
  with `synchronous=FULL` and the journal DELETE, and WAL) and beside the machine's own rate of two writes and two syncs to
  one file. All on one disk, in turns of 10 commands, since a shared disk is now quick and now slow.
- the time of 10,000 saves by that of 1,000: of the processor, on a file system in memory; and the whole time on the disk.
- the time of a run without input on a store of 100,000 accounts, and on one of 50,000 accounts that each save a value in
  turn, beside that of `scan` of its tape alone, by the program that `bench/tapes.py` builds and proves (some minutes;
  --scan names one that is built, --quick leaves it out): the time of the processor, the least of 20 runs in turns.
  --opening measures this alone.

usage: bench/accounts.py [PROGRAM] [--within FOLDER] [--scan PROGRAM | --quick] [--opening]      (crates/cadence/out/cadence)
"""
import argparse
import os
import pathlib
import random
import sqlite3
import statistics
import subprocess
import sys
import tempfile
import time

ROOT = pathlib.Path(__file__).resolve().parent.parent
sys.path.insert(0, str(ROOT / "tests"))
import model  # noqa: E402

BLOCK = 10  # commands in a turn
TURNS = 150
ACCOUNTS = 100_000


def run(program, folder, lines):
    """The whole time of a run on these lines, and that of the processor, in seconds. All of them take effect."""
    feed, out = folder.parent / "lines", folder.parent / "out"
    feed.write_bytes(lines)
    with open(feed, "rb") as source, open(out, "wb") as sink:
        start = time.monotonic()
        used = processor_time([program, "run", str(folder)], source, sink)
        taken = time.monotonic() - start
    assert out.read_bytes().count(b'"reply":"ok"') == lines.count(b"\n")
    return taken, used


def processor_time(command, source=subprocess.DEVNULL, sink=subprocess.DEVNULL):
    """The time of the processor that a command takes, in seconds."""
    process = subprocess.Popen(command, stdin=source, stdout=sink)
    _, status, used = os.wait4(process.pid, 0)
    process.returncode = os.waitstatus_to_exitcode(status)
    assert process.returncode == 0, command
    return used.ru_utime + used.ru_stime


class Program:
    """Commands to one run of the program, in blocks: it has replied to all when a block ends."""

    def __init__(self, program, folder):
        self.process = subprocess.Popen([program, "run", str(folder)], stdin=subprocess.PIPE, stdout=subprocess.PIPE)
        self.block()

    def block(self):
        self.process.stdin.write(model.line_of(("account",)) * BLOCK)
        self.process.stdin.flush()
        for _ in range(BLOCK):
            assert b'"reply":"ok"' in self.process.stdout.readline()

    def end(self):
        self.process.communicate()
        assert self.process.returncode == 0


class Sqlite:
    """INSERTs of the same registers, each a transaction."""

    def __init__(self, folder, journal):
        self.base, self.next = sqlite3.connect(folder / "base", isolation_level=None), 0
        assert self.base.execute(f"pragma journal_mode={journal}").fetchone() == (journal.lower(),)
        self.base.execute("pragma synchronous=FULL")
        self.base.execute("create table registers (key blob primary key, value blob) without rowid")
        self.block()

    def block(self):
        for _ in range(BLOCK):
            self.next += 1
            self.base.execute("insert into registers values (?, ?)", (b"\1" + model.number_field(self.next), model.number_field(1)))

    def end(self):
        self.base.close()


class Bare:
    """Two writes and two syncs to one file, as a record takes them."""

    def __init__(self, folder):
        self.record = model.record_of({b"\0": bytes(16), b"\1" + bytes(8): bytes(8)}) + b"\0"
        self.file, self.at = os.open(folder / "a", os.O_RDWR | os.O_CREAT), 0
        self.block()

    def block(self):
        for _ in range(BLOCK):
            os.pwrite(self.file, self.record[1:], self.at + 1)
            os.fsync(self.file)
            os.pwrite(self.file, b"\1", self.at)
            os.fsync(self.file)
            self.at += len(self.record) - 1

    def end(self):
        os.close(self.file)


def durable(program, base):
    """The rates of all four, by the whole time and by the median of the turns."""
    folders = [base / name for name in ("program", "bare", "delete", "wal")]
    for folder in folders:
        folder.mkdir()
    ways = {
        "the program": Program(program, folders[0]),
        "two writes and two syncs": Bare(folders[1]),
        "SQLite, DELETE": Sqlite(folders[2], "DELETE"),
        "SQLite, WAL": Sqlite(folders[3], "WAL"),
    }
    times = {name: [] for name in ways}
    for _ in range(TURNS):
        for name in random.sample(list(ways), len(ways)):
            start = time.monotonic()
            ways[name].block()
            times[name].append(time.monotonic() - start)
    for way in ways.values():
        way.end()
    own = times["the program"]
    print(f"{TURNS * BLOCK} commands each: a second; the program's rate by that one, of the whole time, and of the medians")
    for name, taken in times.items():
        rate = TURNS * BLOCK / sum(taken)
        print(f"{name}: {rate:,.0f}; {sum(taken) / sum(own):.2f}, {statistics.median(taken) / statistics.median(own):.2f}")


def saves(program, base, count):
    """The whole time, and that of the processor, of so many saves to new paths of one account."""
    folder = pathlib.Path(tempfile.mkdtemp(dir=base)) / "folder"
    folder.mkdir()
    run(program, folder, model.line_of(("account",)))
    lines = b"".join(model.line_of(("save", 1, None, [[i, 3], [1]], "v%d" % i)) for i in range(count))
    return run(program, folder, lines)


def growth(program, base, memory):
    few = min(saves(program, memory, 1000)[1] for _ in range(5))
    many = min(saves(program, memory, 10_000)[1] for _ in range(5))
    print(f"10,000 saves in memory: {many:.3f} s of the processor; 1,000: {few:.3f} s; {many / few:.1f} times the time")
    few = [saves(program, base, 1000)[0] for _ in range(3)]
    many = saves(program, base, 10_000)[0]
    few = statistics.mean(few + [saves(program, base, 1000)[0] for _ in range(3)])
    print(f"10,000 saves on the disk: {many:.2f} s; 1,000, the mean of three before and three after: {few:.3f} s; {many / few:.1f} times the time")


def accounts_alone():
    """The changes of each record: an account."""
    for count in range(1, ACCOUNTS + 1):
        yield account(count)


def accounts_and_values():
    """The changes of each record: an account, and a value in it, in turn."""
    for count in range(1, ACCOUNTS // 2 + 1):
        yield account(count)
        yield {b"\4" + model.number_field(count) + b"v%d" % count: b"\4\0\0" + count.to_bytes(16, "big")}


def account(count):
    return {b"\0": model.number_field(count) + model.number_field(1), b"\1" + model.number_field(count): model.number_field(1)}


def make_store(folder, records):
    folder.mkdir()
    with open(folder / "a", "wb") as out:
        for changes in records:
            out.write(model.record_of(changes))
        out.write(b"\0")
    (folder / "pick").write_bytes(b"\1")


def opening(program, scan, folder, records, accounts):
    make_store(folder, records)
    size = (folder / "a").stat().st_size
    commands = {"a run without input": [program, "run", str(folder)], "sha256sum": ["sha256sum", str(folder / "a")]}
    if scan:
        commands["scan"] = [scan, "scan", str(folder)]
    times = {name: [] for name in commands}
    for _ in range(20):
        for name, command in commands.items():
            times[name].append(processor_time(command))
    own = min(times["a run without input"])
    print(f"{accounts:,} accounts in a tape of {size / 1e6:.1f} MB; time of the processor, and how many times that a run without input takes")
    for name, taken in times.items():
        print(f"{name}: {min(taken):.3f} s, {own / min(taken):.2f}")
    done = model.run(program, folder, model.line_of(("account",)))
    assert done.stdout == b'{"address":"0x%016x","reply":"ok"}\n' % (accounts + 1), done


def scan_program(base):
    """The program of `bench/tapes.py`."""
    import tapes
    from proved import build

    return str(build(base / "repository", tapes.CRATES, "tapes", ["anyhow"], tapes.SOURCE, {}, ["numbers", "1"]))


def options_of():
    parser = argparse.ArgumentParser(description=__doc__, formatter_class=argparse.RawDescriptionHelpFormatter)
    parser.add_argument("program", metavar="PROGRAM", nargs="?", default=str(ROOT / "crates/cadence/out/cadence"))
    parser.add_argument("--within", metavar="FOLDER", help="where the folders lie (the system's folder for temporary files)")
    parser.add_argument("--scan", metavar="PROGRAM", help="the program that bench/tapes.py builds")
    parser.add_argument("--quick", action="store_true", help="no scan to compare with")
    parser.add_argument("--opening", action="store_true", help="measure the opening alone")
    return parser.parse_args()


def main():
    options = options_of()
    program = str(pathlib.Path(options.program).resolve())
    with tempfile.TemporaryDirectory(dir=options.within) as name:
        base = pathlib.Path(name)
        print(f"load {os.getloadavg()[0]:.1f} on {os.cpu_count()} processors")
        if not options.opening:
            durable(program, base)
            with tempfile.TemporaryDirectory(dir="/dev/shm" if os.path.isdir("/dev/shm") else None) as memory:
                growth(program, base, pathlib.Path(memory))
        scan = options.scan or (None if options.quick else scan_program(base))
        opening(program, scan, base / "accounts", accounts_alone(), ACCOUNTS)
        opening(program, scan, base / "values", accounts_and_values(), ACCOUNTS // 2)
        print(f"load {os.getloadavg()[0]:.1f} at the end")


if __name__ == "__main__":
    main()
