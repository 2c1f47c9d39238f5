#!/usr/bin/env python3
"""Times `is_subtype` on pairs of types of growing size, and prints how the time grows where the size doubles.

The pairs are types that nest, of optionals, arrays, dictionaries and references in turn, equal or with a difference at
the innermost place; and, over declarations of 1,000 interfaces, an intersection of k below another of k of the same
members in reverse order, or of interfaces that those of the first have, and a composite with k interfaces below an
intersection of them. The program stands on copies of cad_syntax, cad_auth and cad_types in a temporary repository, and
`rt run` proves and builds it there. Each time is the least of several runs, without the time of a run of no turns.

usage: bench/subtypes.py
"""
import math, pathlib, resource, subprocess, sys, tempfile

from proved import build

SOURCE = r"""//! Judges a pair of types many times.
#![tactic(auto)]

use anyhow::{Context, Result, bail};
use cad_syntax::{
    Address, Authorization, Basic, CadType, Name, Names, Text, TypeId, TypeIds, Types,
};
use cad_types::{Declared, DeclaredTypes, Sort, is_closed, is_subtype};
use std::alloc::{AllocError, Global};

const INTERFACES: u64 = 1000;

fn name(alloc: Global, text: &str) -> Result<Name, AllocError> {
    Ok(Name(Text::from_str(alloc, text)?))
}

fn id(alloc: Global, letter: &str, number: u64) -> Result<TypeId, AllocError> {
    let text = format!(in alloc; "{letter}{number}")?;
    let mut names = Names::new(alloc);
    names.push(name(alloc, "Zoo")?)?;
    names.push(name(alloc, text.as_str())?)?;
    Ok(TypeId {
        address: Address(1),
        names,
    })
}

fn ids(alloc: Global, letter: &str, count: u64) -> Result<TypeIds, AllocError> {
    let mut ids = TypeIds::new(alloc);
    for number in 0..count {
        ids.push(id(alloc, letter, number)?)?;
    }
    Ok(ids)
}

fn reversed(alloc: Global, letter: &str, count: u64) -> Result<TypeIds, AllocError> {
    let mut ids = TypeIds::new(alloc);
    for number in (0..count).rev() {
        ids.push(id(alloc, letter, number)?)?;
    }
    Ok(ids)
}

fn around(alloc: Global, t: CadType, turn: u64) -> Result<CadType, AllocError> {
    let part = Box::new(alloc, t)?;
    match turn % 4 {
        0 => Ok(CadType::Optional(part)),
        1 => Ok(CadType::Array(part)),
        2 => {
            let key = Box::new(alloc, CadType::Basic(Basic::String))?;
            Ok(CadType::Dictionary(key, part))
        }
        _ => {
            let entitlements = ids(alloc, "E", 2)?;
            Ok(CadType::Reference(Authorization::All(entitlements), part))
        }
    }
}

fn nested(alloc: Global, inside: Basic, depth: u64) -> Result<CadType, AllocError> {
    let mut t = CadType::Basic(inside);
    for turn in 0..depth {
        t = around(alloc, t, turn)?;
    }
    Ok(t)
}

fn lower(alloc: Global, pair: &str, size: u64) -> Result<CadType, AllocError> {
    match pair {
        "members" => Ok(CadType::Intersection(ids(alloc, "I", size)?)),
        "inherited" => Ok(CadType::Intersection(ids(alloc, "J", size)?)),
        "composite" => Ok(CadType::Declared(id(alloc, "C", 0)?)),
        _ => nested(alloc, Basic::String, size),
    }
}

fn upper(alloc: Global, pair: &str, size: u64) -> Result<CadType, AllocError> {
    match pair {
        "equal" => nested(alloc, Basic::String, size),
        "different" => nested(alloc, Basic::Bool, size),
        _ => Ok(CadType::Intersection(reversed(alloc, "I", size)?)),
    }
}

fn declared(alloc: Global, id: TypeId, sort: Sort, interfaces: TypeIds) -> Declared {
    Declared {
        id,
        sort,
        fields: Types::new(alloc),
        interfaces,
    }
}

fn own(alloc: Global, letter: &str, number: u64) -> Result<TypeIds, AllocError> {
    let mut own = TypeIds::new(alloc);
    own.push(id(alloc, letter, number)?)?;
    Ok(own)
}

fn declarations(alloc: Global, pair: &str, size: u64) -> Result<Vec<Declared>, AllocError> {
    let mut all = Vec::new(alloc);
    for number in 0..INTERFACES {
        let interface = id(alloc, "I", number)?;
        all.push(declared(alloc, interface, Sort::ResourceInterface, own(alloc, "I", number)?))?;
    }
    if pair == "inherited" {
        for number in 0..INTERFACES {
            let mut interfaces = own(alloc, "J", number)?;
            interfaces.push(id(alloc, "I", number)?)?;
            let interface = id(alloc, "J", number)?;
            all.push(declared(alloc, interface, Sort::ResourceInterface, interfaces))?;
        }
    }
    if pair == "composite" {
        let composite = id(alloc, "C", 0)?;
        all.push(declared(alloc, composite, Sort::Resource, ids(alloc, "I", size)?))?;
    }
    Ok(all)
}

// One of two types, so that no turn's answer is known from the turn before.
fn is_one_below(types: &DeclaredTypes, a: &CadType, other: &CadType, b: &CadType, is_first: bool) -> bool {
    if is_first { is_subtype(types, a, b) } else { is_subtype(types, other, b) }
}

fn count(types: &DeclaredTypes, a: &CadType, other: &CadType, b: &CadType, turns: u64) -> u64 {
    let mut count = 0u64;
    let mut is_first = true;
    for _ in 0..turns {
        let is_below = is_one_below(types, a, other, b, is_first);
        if is_below {
            count = count.saturating_add(1);
        }
        is_first = is_first != is_below;
    }
    count
}

fn judged(alloc: Global, pair: &str, size: u64, turns: u64) -> Result<u64> {
    let declared = declarations(alloc, pair, size)?;
    if !is_closed(declared.as_slice()) {
        bail!("declarations");
    }
    let types = DeclaredTypes::new(alloc, declared)?;
    let a = lower(alloc, pair, size)?;
    let other = lower(alloc, pair, size)?;
    let b = upper(alloc, pair, size)?;
    Ok(count(&types, &a, &other, &b, turns))
}

fn run(rt: &HostRuntime) -> Result<()> {
    let mut words = std::env::args(rt)?;
    let _program = words.next();
    let pair = words.next().context("a pair")?;
    let size = words.next().context("a size")?.as_str().parse::<u64>().context("a size")?;
    let turns = words.next().context("turns")?.as_str().parse::<u64>().context("turns")?;
    rt.println(judged(rt.alloc(), pair.as_str(), size, turns)?)?;
    Ok(())
}

fn main(rt: HostRuntime) -> Result<()> {
    run(&rt)
}
"""

DEPTHS = [25, 50, 100, 200, 400]
MEMBERS = [125, 250, 500, 1000]
PAIRS = [("equal", DEPTHS, True), ("different", DEPTHS, False), ("members", MEMBERS, True), ("inherited", MEMBERS, True), ("composite", MEMBERS, True)]
STEADY = 0.2


def run_seconds(program, pair, size, turns, below):
    """The least time of the processor of five runs."""
    best = None
    for _ in range(5):
        start = resource.getrusage(resource.RUSAGE_CHILDREN).ru_utime
        answer = subprocess.run([program, pair, str(size), str(turns)], check=True, capture_output=True, text=True).stdout
        seconds = resource.getrusage(resource.RUSAGE_CHILDREN).ru_utime - start
        assert answer == f"{turns if below else 0}\n", (pair, size, answer)
        best = seconds if best is None else min(best, seconds)
    return best


def call_seconds(program, pair, size, below):
    """The time of one call: of as many turns as take long enough, less the time of none."""
    none = run_seconds(program, pair, size, 0, below)
    turns = 1
    while True:
        seconds = run_seconds(program, pair, size, turns, below) - none
        if seconds >= STEADY:
            return seconds / turns
        turns *= 2 if seconds > STEADY / 10 else 10


def report(program):
    """Prints the times; answers whether none grows faster than the square of the size, over all of its sizes."""
    slow = False
    for pair, sizes, below in PAIRS:
        times = []
        for size in sizes:
            times.append(call_seconds(program, pair, size, below))
            growth = f", exponent {math.log2(times[-1] / times[-2]):.2f}" if len(times) > 1 else ""
            print(f"{pair} {size}: {1e6 * times[-1]:.2f} us{growth}", flush=True)
        whole = math.log2(times[-1] / times[0]) / math.log2(sizes[-1] / sizes[0])
        print(f"{pair}: exponent {whole:.2f} over all")
        slow = slow or whole > 2.2
    return not slow


def main():
    with tempfile.TemporaryDirectory() as name:
        libraries = ["cad_syntax", "cad_auth", "cad_types"]
        program = build(pathlib.Path(name), libraries, "judged", ["anyhow"], SOURCE, {}, ["equal", "1", "1"])
        sys.exit(0 if report(str(program)) else 1)


if __name__ == "__main__":
    main()
