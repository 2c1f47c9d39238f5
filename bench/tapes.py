#!/usr/bin/env python3
"""Times the scan of a tape of 200 MB beside `sha256sum` of the same file, and a million numbers as bytes and back.

The program stands on copies of the repository's crates in a temporary repository, and `rt run` proves and builds it
there. The tape is made here: records of 100 entries, each with a key of 16 bytes and a value of 100. Each run is made
several times, and the least time counts.

usage: bench/tapes.py [MEGABYTES]
"""
import pathlib, subprocess, sys, tempfile, time

from proved import build

SOURCE = r"""//! Scans the tape `a` of a folder, or writes numbers as bytes and reads them again.
#![tactic(auto)]

use anyhow::{Context, Result, bail};
use cad_codec::{decode, encode};
use cad_host::{FileHost, Tape};
use cad_syntax::{Kind, Num};
use cad_tape::scan;
use cad_values::Value;

fn scan_folder(rt: &HostRuntime, folder: &str) -> Result<u64> {
    let mut host = FileHost::new(rt.alloc(), rt.clone()?, folder)?;
    match scan(rt.alloc(), &mut host, Tape::A) {
        Ok(records) => Ok(records.records.len() as u64),
        Err(_) => bail!("no records"),
    }
}

fn both_ways(rt: &HostRuntime, count: u64) -> Result<u64> {
    let mut same = 0u64;
    for i in 0..count {
        let Some(n) = Num::new(Kind::Int, i % 2 == 1, (i as u128).wrapping_mul(0x1_0000_0001_0000_0001)) else {
            bail!("a number")
        };
        if n.kind == Kind::Address {
            bail!("a kind")
        }
        let value = Value::Number(n);
        let bytes = encode(rt.alloc(), &value)?;
        match decode(rt.alloc(), bytes.as_slice()) {
            Ok(again) => {
                if again == value {
                    same = same.saturating_add(1);
                }
            }
            Err(_) => bail!("damaged"),
        }
    }
    Ok(same)
}

fn run(rt: &HostRuntime) -> Result<()> {
    let mut words = std::env::args(rt)?;
    let _program = words.next();
    let what = words.next().context("scan or numbers")?;
    let word = words.next().context("a folder or a number")?;
    let count = match what.as_str() {
        "scan" => scan_folder(rt, word.as_str())?,
        _ => both_ways(rt, word.as_str().parse::<u64>().context("a number")?)?,
    };
    rt.println(count)?;
    Ok(())
}

fn main(rt: HostRuntime) -> Result<()> {
    run(&rt)
}
"""

CRATES = ["cad_syntax", "cad_host", "cad_wire", "cad_values", "cad_codec", "cad_tape"]


def field(data):
    return len(data).to_bytes(4, "big") + data


def record(first):
    entries = b"".join(field(b"%016d" % (first + i)) + b"\1" + field(b"v" * 100) for i in range(100))
    body = b"\1" + (100).to_bytes(4, "big") + entries
    return b"\1" + len(body).to_bytes(8, "big") + body


def make_tape(path, size):
    written = count = 0
    with open(path, "wb") as out:
        while written < size:
            written += out.write(record(100 * count))
            count += 1
        out.write(b"\0")
    return count


def least_seconds(command, wanted):
    best = None
    for _ in range(3):
        start = time.perf_counter()
        done = subprocess.run(command, check=True, capture_output=True, text=True).stdout
        seconds = time.perf_counter() - start
        assert wanted is None or done == f"{wanted}\n", (command, done)
        best = seconds if best is None else min(best, seconds)
    return best


def report(program, folder, size):
    count = make_tape(folder / "a", size)
    ours = least_seconds([program, "scan", str(folder)], count)
    theirs = least_seconds(["sha256sum", str(folder / "a")], None)
    print(f"scan of {size / 1e6:.0f} MB: {ours:.3f} s; sha256sum: {theirs:.3f} s; the scan's rate is {theirs / ours:.2f} times that")
    numbers = least_seconds([program, "numbers", "1000000"], 1_000_000)
    print(f"a million Int values as bytes and back: {numbers:.3f} s")


def main():
    size = int(float(sys.argv[1]) * 1e6) if len(sys.argv) > 1 else 200_000_000
    with tempfile.TemporaryDirectory() as name:
        program = build(pathlib.Path(name) / "repository", CRATES, "tapes", ["anyhow"], SOURCE, {}, ["numbers", "1"])
        folder = pathlib.Path(name) / "folder"
        folder.mkdir()
        report(str(program), folder, size)


if __name__ == "__main__":
    main()
