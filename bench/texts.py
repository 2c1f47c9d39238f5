#!/usr/bin/env python3
"""Times the calls on texts on a text and on one of twice its length.

The program stands on copies of cad_syntax and cad_text in a temporary repository, and `rt run` proves and builds it
there. Each run calls it 40 times; it is made several times, and the least time of the processor counts.

usage: bench/texts.py [CHARACTERS]      (an even number of at most 170,000)
"""
import pathlib, resource, subprocess, sys, tempfile

from proved import build

SOURCE = r"""//! Makes a text of many characters, and calls one operation on it.
#![tactic(auto)]

use anyhow::{Context, Result};
use cad_text::{compare, concat, decode_hex, encode_hex, equal, length, slice};

fn repeated(alloc: std::alloc::Global, part: &str, count: u64) -> Result<String> {
    let mut text = String::new(alloc);
    for _ in 0..count {
        text.push_str(part)?;
    }
    Ok(text)
}

fn call(alloc: std::alloc::Global, operation: &str, text: &str, count: u64) -> Result<bool> {
    Ok(match operation {
        "length" => length(text) == count,
        "equal" => equal(alloc, text, text)?,
        "compare" => compare(alloc, text, text)?.is_eq(),
        "slice" => slice(alloc, text, 1, (count / 2) as i128).is_ok(),
        "concat" => concat(alloc, text, "e").is_ok(),
        "decode_hex" => decode_hex(alloc, text).is_ok(),
        "encode_hex" => encode_hex(alloc, text.as_bytes()).is_ok(),
        _ => true,
    })
}

fn run(rt: &HostRuntime) -> Result<()> {
    let mut words = std::env::args(rt)?;
    let _program = words.next();
    let operation = words.next().context("an operation")?;
    let count = words.next().context("a number")?.as_str().parse::<u64>().context("a number")?;
    let times = words.next().context("a number")?.as_str().parse::<u64>().context("a number")?;
    let hex = operation.as_str() == "decode_hex" || operation.as_str() == "encode_hex";
    let text = repeated(rt.alloc(), if hex { "f" } else { "e\u{301}" }, count)?;
    let mut done = true;
    for _ in 0..times {
        done = call(rt.alloc(), operation.as_str(), text.as_str(), count)?;
    }
    rt.println(done)?;
    Ok(())
}

fn main(rt: HostRuntime) -> Result<()> {
    run(&rt)
}
"""

CALLS = ["length", "equal", "compare", "slice", "concat", "decode_hex", "encode_hex"]


TIMES = 40


def least_seconds(program, call, count):
    best = None
    for _ in range(5):
        start = resource.getrusage(resource.RUSAGE_CHILDREN).ru_utime
        done = subprocess.run([program, call, str(count), str(TIMES)], check=True, capture_output=True, text=True).stdout
        seconds = resource.getrusage(resource.RUSAGE_CHILDREN).ru_utime - start
        assert done == "true\n", (call, done)
        best = seconds if best is None else min(best, seconds)
    return best


def report(program, count):
    for call in CALLS:
        one, two = [least_seconds(program, call, n) for n in (count, 2 * count)]
        print(f"{call}: {1e3 * one / TIMES:.2f} ms on {count} characters, {two / max(one, 0.001):.2f} times that on twice as many")


def main():
    count = int(sys.argv[1]) if len(sys.argv) > 1 else 150_000
    with tempfile.TemporaryDirectory() as name:
        report(str(build(pathlib.Path(name), ["cad_syntax", "cad_text"], "texts", ["anyhow"], SOURCE, {}, ["none", "1", "1"])), count)


if __name__ == "__main__":
    main()
