#!/usr/bin/env python3
"""Times the bytes of values: of an array of numbers, a dictionary and an array of composites, and of ones of twice the size.

The program stands on copies of the crates in a temporary repository, and `rt run` proves and builds it there. A run makes
the bytes of a value of so many parts, reads them and writes what was read as often as it is told; the difference between two
runs counts, so that making the bytes doesn't. It is made several times, and the least time of the processor counts.

usage: bench/values.py [PARTS]
"""
import pathlib, resource, subprocess, sys, tempfile

from proved import build

LIBRARIES = ["cad_syntax", "cad_wire", "cad_auth", "cad_types", "cad_text", "cad_values", "cad_number_codec", "cad_codec"]

SOURCE = r"""//! Makes the bytes of a value, reads them, and writes what was read.
#![tactic(auto)]

use anyhow::{Context, Result};
use cad_codec::{decode, encode};
use cad_values::has_no_reference;
use std::alloc::Global;

fn append(bytes: &mut Vec<u8>, more: &[u8]) -> Result<()> {
    bytes.extend_from_slice(more)?;
    Ok(())
}

fn number(bytes: &mut Vec<u8>, n: u64) -> Result<()> {
    append(bytes, &[4, 0, 0, 0, 0, 0, 0, 0, 0, 0, 0])?;
    append(bytes, &n.to_be_bytes())
}

fn entry(bytes: &mut Vec<u8>, n: u64) -> Result<()> {
    append(bytes, &[5, 0, 0, 0, 11, 0x65, 0xCC, 0x81])?;
    append(bytes, &[(n % 64) as u8, (n / 64 % 64) as u8, (n / 4096 % 64) as u8, (n / 262144 % 64) as u8, 97, 98, 99, 100])?;
    append(bytes, &[3, 1])
}

fn composite(bytes: &mut Vec<u8>, n: u64) -> Result<()> {
    append(bytes, &[13, 0, 0, 0, 0, 0, 0, 0, 1, 0, 0, 0, 1, 0, 0, 0, 1, 0x43])?;
    append(bytes, &n.to_be_bytes())?;
    append(bytes, &[0, 0, 0, 2, 0, 0, 0, 1, 0x61, 1, 0, 0, 0, 1, 0x62])?;
    number(bytes, n)
}

fn made(alloc: Global, form: &str, count: u32) -> Result<Vec<u8>> {
    let mut bytes = Vec::new(alloc);
    match form {
        "numbers" => append(&mut bytes, &[11, 0, 0])?,
        "entries" => append(&mut bytes, &[12, 0, 24, 0, 22])?,
        _ => append(&mut bytes, &[11, 0, 29])?,
    }
    append(&mut bytes, &count.to_be_bytes())?;
    for n in 0..count {
        match form {
            "numbers" => number(&mut bytes, n as u64)?,
            "entries" => entry(&mut bytes, n as u64)?,
            _ => composite(&mut bytes, n as u64)?,
        }
    }
    Ok(bytes)
}

fn both_ways(alloc: Global, bytes: &[u8]) -> Result<bool> {
    let value = match decode(alloc, bytes) {
        Ok(value) => value,
        Err(_) => return Ok(false),
    };
    if !has_no_reference(&value) {
        return Ok(false);
    }
    let again = encode(alloc, &value)?;
    Ok(again.as_slice() == bytes)
}

fn run(rt: &HostRuntime) -> Result<()> {
    let mut words = std::env::args(rt)?;
    let _program = words.next();
    let form = words.next().context("a form")?;
    let count = words.next().context("a number")?.as_str().parse::<u32>().context("a number")?;
    let times = words.next().context("a number")?.as_str().parse::<u64>().context("a number")?;
    let bytes = made(rt.alloc(), form.as_str(), count)?;
    let mut done = true;
    for _ in 0..times {
        done = done && both_ways(rt.alloc(), bytes.as_slice())?;
    }
    rt.println(done)?;
    rt.println(bytes.len())?;
    Ok(())
}

fn main(rt: HostRuntime) -> Result<()> {
    run(&rt)
}
"""

TIMES = 20


def seconds(program, form, count, times):
    start = resource.getrusage(resource.RUSAGE_CHILDREN).ru_utime
    done = subprocess.run([program, form, str(count), str(times)], check=True, capture_output=True, text=True).stdout.split()
    assert done[0] == "true", (form, done)
    return resource.getrusage(resource.RUSAGE_CHILDREN).ru_utime - start, int(done[1])


def least(program, form, count):
    """The least time of reading and writing once, and how many bytes that are."""
    best, size = None, 0
    for _ in range(5):
        few, size = seconds(program, form, count, 1)
        many, size = seconds(program, form, count, 1 + TIMES)
        taken = (many - few) / TIMES
        best = taken if best is None else min(best, taken)
    return best, size


def main():
    count = int(sys.argv[1]) if len(sys.argv) > 1 else 10_000
    with tempfile.TemporaryDirectory() as name:
        program = str(build(pathlib.Path(name), LIBRARIES, "values", ["anyhow", "unicode_segmentation", "unicode_normalization", "hex"], SOURCE, {}, ["numbers", "1", "1"]))
        for form in ["numbers", "entries", "composites"]:
            one, size = least(program, form, count)
            two, _ = least(program, form, 2 * count)
            print(f"{form}: {1e3 * one:.2f} ms for {count} parts, {2e-6 * size / max(one, 1e-9):.0f} MB a second of reading and writing, {two / max(one, 1e-9):.2f} times that for twice as many")


if __name__ == "__main__":
    main()
