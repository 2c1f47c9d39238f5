#!/usr/bin/env python3
"""Times ten million sums and products of Int and UFix64 against the same loops in plain Rust.

The proved program stands on copies of cad_syntax and cad_num in a temporary repository, and `rt run` proves and builds
it there. The plain program computes with checked i128, the same kinds, ranges, truncation and errors, by `rustc -O`.
Each loop is run several times, and the least time counts.

usage: bench/arithmetic.py [TURNS]
"""

import pathlib
import subprocess
import sys
import tempfile
import time

import proved

PROVED = r"""//! Adds or multiplies numbers many times.
#![tactic(auto)]

ghost use Rattle.std.specs.Prelude.{◌≡◌};

use anyhow::{Context, Result, bail};
use cad_num::{NumError, add, mul, read_decimal};
use cad_syntax::{Kind, Num};

fn sums(first: Num, step: Num, turns: u64) -> Result<Num, NumError>
    requires { first.kind ≡ step.kind }
{
    let mut total = first;
    for _ in 0..turns {
        total = add(total, step)?;
    }
    Ok(total)
}

fn products(first: Num, factor: Num, turns: u64) -> Result<Num, NumError>
    requires { first.kind ≡ factor.kind }
{
    let mut total = first;
    for _ in 0..turns {
        total = mul(total, factor)?;
    }
    Ok(total)
}

fn read(kind: Kind, text: &str) -> Option<Num> {
    if kind == Kind::Address {
        return None;
    }
    read_decimal(kind, text)
}

fn run(rt: &(impl Print + std::rt::Env + Alloc)) -> Result<()> {
    let mut words = std::env::args(rt)?;
    let _program = words.next();
    let operation = words.next().context("an operation")?;
    let kind = words.next().context("a kind")?;
    let first = words.next().context("a number")?;
    let second = words.next().context("a number")?;
    let turns = words.next().context("a number of turns")?.as_str().parse::<u64>().context("turns")?;
    let kind = match kind.as_str() {
        "Int" => Kind::Int,
        "UFix64" => Kind::UFix64,
        _ => bail!("kind"),
    };
    let first = read(kind, first.as_str()).context("first")?;
    let second = read(kind, second.as_str()).context("second")?;
    if first.kind != second.kind {
        bail!("kinds");
    }
    let total = match operation.as_str() {
        "add" => sums(first, second, turns),
        _ => products(first, second, turns),
    };
    match total {
        Ok(total) => rt.println(total.magnitude)?,
        Err(_) => rt.println("error")?,
    }
    Ok(())
}

fn main(rt: HostRuntime) -> Result<()> {
    run(&rt)
}
"""

PLAIN = r"""
#[derive(Clone, Copy, PartialEq)]
#[allow(dead_code)]
enum Kind { Int, UFix64, Int8, UInt8, Word8, Fix64 }
#[derive(Clone, Copy)]
#[allow(dead_code)]
enum NumError { Overflow, Underflow }
#[derive(Clone, Copy)]
struct Num { kind: Kind, value: i128 }
fn range(kind: Kind) -> (i128, i128) {
    match kind {
        Kind::Int => (i128::MIN, i128::MAX),
        Kind::UFix64 => (0, u64::MAX as i128),
        Kind::Int8 => (-128, 127),
        Kind::UInt8 | Kind::Word8 => (0, 255),
        Kind::Fix64 => (i64::MIN as i128, i64::MAX as i128),
    }
}
fn fit(kind: Kind, value: Option<i128>, negative: bool) -> Result<Num, NumError> {
    let Some(value) = value else {
        return Err(if negative { NumError::Underflow } else { NumError::Overflow });
    };
    if kind == Kind::Word8 { return Ok(Num { kind, value: value.rem_euclid(256) }); }
    let (least, greatest) = range(kind);
    if value < least { return Err(NumError::Underflow); }
    if value > greatest { return Err(NumError::Overflow); }
    Ok(Num { kind, value })
}
#[inline(never)]
fn add(a: Num, b: Num) -> Result<Num, NumError> { fit(a.kind, a.value.checked_add(b.value), a.value < 0) }
#[inline(never)]
fn mul(a: Num, b: Num) -> Result<Num, NumError> {
    let product = a.value.checked_mul(b.value);
    let fixed = matches!(a.kind, Kind::Fix64 | Kind::UFix64);
    fit(a.kind, if fixed { product.map(|p| p / 100_000_000) } else { product }, (a.value < 0) != (b.value < 0))
}
fn main() {
    let words: Vec<String> = std::env::args().collect();
    let kind = if words[2] == "Int" { Kind::Int } else { Kind::UFix64 };
    let read = |text: &str| {
        let (whole, decimals) = text.split_once('.').unwrap_or((text, ""));
        let whole: i128 = whole.parse().unwrap();
        let value = if kind == Kind::Int { whole } else {
            whole * 100_000_000 + format!("{decimals:0<8}").parse::<i128>().unwrap()
        };
        Num { kind, value }
    };
    let (mut total, second) = (read(&words[3]), read(&words[4]));
    let turns: u64 = words[5].parse().unwrap();
    for _ in 0..turns {
        let next = if words[1] == "add" { add(total, second) } else { mul(total, second) };
        match next { Ok(n) => total = n, Err(_) => { println!("error"); return; } }
    }
    println!("{}", total.value.unsigned_abs());
}
"""

INVARIANT = """use Rattle.std.proofs.Common.{{◌≡◌}}
use Rattle.arithmetic.proofs.{name}.Given as goal

abbrev pub invariant-loop : goal.invariant-loop
invariant-loop l = l.total.kind ≡ l.{second}.kind
"""

LOOPS = [
    ("add", "Int", "-12345678901234567890", "987654321987"),
    ("mul", "Int", "12345678901234567890123", "-1"),
    ("add", "UFix64", "0.00000001", "0.00000007"),
    ("mul", "UFix64", "12345.67890123", "1.0"),
]


def least_seconds(command):
    best, output = None, None
    for _ in range(5):
        start = time.perf_counter()
        output = subprocess.run(command, check=True, capture_output=True, text=True).stdout
        seconds = time.perf_counter() - start
        best = seconds if best is None else min(best, seconds)
    return best, output


def build(folder):
    proofs = {
        f"{name}/Invariants.antt": INVARIANT.format(name=name, second=second)
        for name, second in (("sums", "step"), ("products", "factor"))
    }
    words = ["add", "Int", "1", "1", "1"]
    ours = proved.build(folder, ["cad_syntax", "cad_num"], "arithmetic", ["anyhow"], PROVED, proofs, words)
    plain = folder / "plain.rs"
    plain.write_text(PLAIN)
    subprocess.run(["rustc", "-O", "-o", str(folder / "plain"), str(plain)], check=True)
    return ours, folder / "plain"


def main():
    turns = sys.argv[1] if len(sys.argv) > 1 else "10000000"
    with tempfile.TemporaryDirectory() as name:
        program, plain = build(pathlib.Path(name) / "repository")
        slow = False
        for loop in LOOPS:
            ours, first = least_seconds([str(program), *loop, turns])
            theirs, second = least_seconds([str(plain), *loop, turns])
            same = "same result" if first == second else "OTHER RESULT"
            print(f"{loop[0]} {loop[1]}: {ours:.3f} s, plain Rust {theirs:.3f} s, {ours / theirs:.1f} times, {same}")
            slow = slow or ours > 5 * theirs or first != second
    sys.exit(1 if slow else 0)


if __name__ == "__main__":
    main()
