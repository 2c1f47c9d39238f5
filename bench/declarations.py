#!/usr/bin/env python3
"""Times `DeclaredTypes::new` on n declarations in a chain, and n look-ups in it, for n = 1,000 and 2,000.

The chains: structs whose field is of the next one, the last with a reference, so that all classes are lost along the whole
chain; the same in the other order; the same round a ring; and interfaces in chains of 20, each of which has all that follow in
its chain. The program stands on copies of cad_syntax, cad_auth and cad_types in a temporary repository, and `rt run` proves and
builds it there. Each time is the least of nine.

usage: bench/declarations.py
"""
import pathlib, subprocess, sys, tempfile

from proved import build, grows

SOURCE = r"""//! Times tables of declared types.
#![tactic(auto)]

use anyhow::{Context, Result, bail};
use cad_syntax::{Address, Authorization, Basic, CadType, Name, Names, Text, TypeId, TypeIds, Types};
use cad_types::{Declared, DeclaredTypes, Sort, is_closed};
use std::alloc::{AllocError, Global};
use std::time::Instant;

fn id(alloc: Global, number: u64) -> Result<TypeId, AllocError> {
    let text = format!(in alloc; "T{number}")?;
    let mut names = Names::new(alloc);
    names.push(Name(Text::from_str(alloc, "Zoo")?))?;
    names.push(Name(Text::from_str(alloc, text.as_str())?))?;
    Ok(TypeId { address: Address(1), names })
}

fn field(alloc: Global, chain: &str, number: u64, count: u64) -> Result<CadType, AllocError> {
    let next = match chain {
        "fields" if number < count.saturating_sub(1) => number.saturating_add(1),
        "backwards" if number > 0 => number - 1,
        "ring" => number.saturating_add(1).checked_rem(count).unwrap_or(0),
        _ => return Ok(CadType::Reference(Authorization::Unauthorized, Box::new(alloc, CadType::Basic(Basic::String))?)),
    };
    Ok(CadType::Array(Box::new(alloc, CadType::Declared(id(alloc, next)?))?))
}

fn declaration(alloc: Global, chain: &str, number: u64, count: u64) -> Result<Declared, AllocError> {
    let mut fields = Types::new(alloc);
    let mut interfaces = TypeIds::new(alloc);
    let mut sort = Sort::Struct;
    if chain == "interfaces" {
        sort = Sort::StructInterface;
        for step in 0..20 - number % 20 {
            interfaces.push(id(alloc, number.saturating_add(step))?)?;
        }
    } else {
        fields.push(field(alloc, chain, number, count)?)?;
    }
    Ok(Declared { id: id(alloc, number)?, sort, fields, interfaces })
}

fn look_up(types: &DeclaredTypes, ids: &[TypeId]) -> usize {
    let mut found = 0usize;
    for id in ids {
        found = found.saturating_add(types.interfaces(id).len());
    }
    found
}

fn run(rt: &HostRuntime) -> Result<()> {
    let alloc = rt.alloc();
    let mut words = std::env::args(rt)?;
    let _program = words.next();
    let chain = words.next().context("a chain")?;
    let count = words.next().context("a count")?.as_str().parse::<u64>().context("a count")?;
    for _ in 0..9 {
        let mut declared = Vec::new(alloc);
        let mut ids = Vec::new(alloc);
        for number in 0..count {
            declared.push(declaration(alloc, chain.as_str(), number, count)?)?;
            ids.push(id(alloc, number)?)?;
        }
        if !is_closed(declared.as_slice()) {
            bail!("interfaces");
        }
        let start = Instant::now(rt)?;
        let types = DeclaredTypes::new(alloc, declared)?;
        let made = start.elapsed(rt)?.as_nanos();
        let start = Instant::now(rt)?;
        let found = look_up(&types, ids.as_slice());
        let looked = start.elapsed(rt)?.as_nanos();
        println!(rt; "{made} {looked} {found}")?;
    }
    Ok(())
}

fn main(rt: HostRuntime) -> Result<()> {
    run(&rt)
}
"""

CHAINS = ["fields", "backwards", "ring", "interfaces"]


def times(program, chain, count):
    """The least times of making the table and of looking all up, in milliseconds."""
    done = subprocess.run([str(program), chain, str(count)], check=True, capture_output=True, text=True)
    lines = [line.split() for line in done.stdout.splitlines() if line[:1].isdigit()]
    assert len(lines) == 9, done.stdout + done.stderr
    return [min(int(line[i]) for line in lines) / 1e6 for i in (0, 1)]


def main():
    with tempfile.TemporaryDirectory() as name:
        program = build(pathlib.Path(name), ["cad_syntax", "cad_auth", "cad_types"], "chained", ["anyhow"], SOURCE, {}, ["fields", "2"])
        slow = grows(CHAINS, ["table", "look-ups"], lambda kind, count: times(program, kind, count))
    sys.exit(1 if slow else 0)


if __name__ == "__main__":
    main()
