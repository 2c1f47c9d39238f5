#!/usr/bin/env python3
"""Times `build` on a contract with n declarations, or on one with a declaration of n members, and 10,000 look-ups of members in
its tables, for n = 1,000 and 2,000.

The contracts: n structs with a function each; a struct with n functions; n structs that have one interface of 10 in a row; n
interfaces of one that has one function. The program stands on copies of the crates below cad_tables in a temporary repository,
and `rt run` proves and builds it there. Processor time, the least of five runs; 10 more builds or rounds of look-ups count.

usage: bench/building.py
"""
import pathlib, resource, subprocess, sys, tempfile

from proved import build, grows

SOURCE = r"""//! Times tables of programs.
#![tactic(auto)]

use anyhow::{Context, Result, bail};
use cad_declarations::Tables;
use cad_grammar::{Access, Composite, CompositeKind, CompositeMember, Contract, ContractMember, Decl, Dotted, Function, Interface, InterfaceMember, Program, TypeAnnotation, TypeExpr};
use cad_syntax::{Address, CadType, Items, Name, Names, Text, TypeId};
use cad_tables::{build, no_contracts};
use std::alloc::{AllocError, Global};

fn named(alloc: Global, letter: &str, number: u64) -> Result<Name, AllocError> {
    let text = format!(in alloc; "{letter}{number}")?;
    Ok(Name(Text::from_str(alloc, text.as_str())?))
}

fn written(alloc: Global, name: Name) -> Result<Dotted, AllocError> {
    let mut names = Names::new(alloc);
    names.push(name)?;
    Ok(names)
}

fn function(alloc: Global, number: u64) -> Result<Function, AllocError> {
    let result = TypeAnnotation {
        is_resource: false,
        written: TypeExpr::Named { name: written(alloc, Name(Text::from_str(alloc, "Int")?))?, arguments: Vec::new(alloc) },
    };
    Ok(Function { access: Access::All, is_view: false, name: named(alloc, "f", number)?, parameters: Vec::new(alloc), result: Some(result), block: None })
}

fn members(alloc: Global, count: u64) -> Result<Vec<CompositeMember>, AllocError> {
    let mut all = Vec::new(alloc);
    for number in 0..count {
        all.push(CompositeMember::Function(function(alloc, number)?))?;
    }
    Ok(all)
}

fn composite(alloc: Global, number: u64, count: u64, conformances: Items<Dotted>) -> Result<ContractMember, AllocError> {
    Ok(ContractMember::Composite(Composite {
        access: Access::All,
        kind: CompositeKind::Struct,
        name: named(alloc, "S", number)?,
        conformances,
        members: members(alloc, count)?,
    }))
}

fn interface(alloc: Global, number: u64, parent: Option<u64>) -> Result<ContractMember, AllocError> {
    let mut conformances = Items::new(alloc);
    if let Some(above) = parent {
        conformances.push(written(alloc, named(alloc, "I", above)?)?)?;
    }
    let mut members = Vec::new(alloc);
    members.push(InterfaceMember::Function(function(alloc, number)?))?;
    Ok(ContractMember::Interface(Interface { access: Access::All, kind: CompositeKind::Struct, name: named(alloc, "I", number)?, conformances, members }))
}

fn declared(alloc: Global, kind: &str, count: u64) -> Result<Vec<ContractMember>, AllocError> {
    let mut all = Vec::new(alloc);
    if kind == "members" {
        all.push(composite(alloc, 0, count, Items::new(alloc))?)?;
        return Ok(all);
    }
    if kind == "conforming" {
        for number in 0..10u64 {
            let parent = if number < 9 { Some(number + 1) } else { None };
            all.push(interface(alloc, number, parent)?)?;
        }
    }
    for number in 0..count {
        match kind {
            "structs" => all.push(composite(alloc, number, 1, Items::new(alloc))?)?,
            "conforming" => {
                let mut conformances = Items::new(alloc);
                conformances.push(written(alloc, named(alloc, "I", 0)?)?)?;
                all.push(composite(alloc, number, 1, conformances)?)?;
            }
            _ => all.push(interface(alloc, number, if number > 0 { Some(0) } else { None })?)?,
        }
    }
    Ok(all)
}

fn program(alloc: Global, kind: &str, count: u64) -> Result<Program, AllocError> {
    let mut declarations = Vec::new(alloc);
    declarations.push(Decl::Contract(Contract { access: Access::All, name: Name(Text::from_str(alloc, "C")?), members: declared(alloc, kind, count)? }))?;
    Ok(Program { imports: Vec::new(alloc), declarations })
}

fn looked_at(kind: &str) -> &'static str {
    match kind {
        "interfaces" => "I",
        _ => "S",
    }
}

/// How many of 10,000 members are there.
fn look_up(alloc: Global, tables: &Tables, kind: &str, count: u64) -> Result<u64, AllocError> {
    let mut found = 0u64;
    for number in 0..10_000u64 {
        let place = number.checked_rem(count).unwrap_or(0);
        let is_members = kind == "members";
        let mut names = Names::new(alloc);
        names.push(Name(Text::from_str(alloc, "C")?))?;
        names.push(named(alloc, looked_at(kind), if is_members { 0 } else { place })?)?;
        let of = CadType::Declared(TypeId { address: Address(1), names });
        let name = named(alloc, "f", if is_members || kind == "interfaces" { place } else { 0 })?;
        if tables.member(&of, &name).is_some() {
            found = found.saturating_add(1);
        }
    }
    Ok(found)
}

fn tables_of(alloc: Global, program: &Program) -> Result<Tables> {
    let deployed = no_contracts(alloc);
    match build(alloc, program, Some(Address(1)), &deployed)? {
        Ok(tables) => Ok(tables),
        Err(_) => bail!("refused"),
    }
}

fn run(rt: &HostRuntime) -> Result<()> {
    let alloc = rt.alloc();
    let mut words = std::env::args(rt)?;
    let _program = words.next();
    let kind = words.next().context("a kind")?;
    let count = words.next().context("a count")?.as_str().parse::<u64>().context("a count")?;
    let builds = words.next().context("how many builds")?.as_str().parse::<u64>().context("how many builds")?;
    let looks = words.next().context("how many times the look-ups")?.as_str().parse::<u64>().context("how many times the look-ups")?;
    let program = program(alloc, kind.as_str(), count)?;
    for _ in 1..builds {
        let again = tables_of(alloc, &program)?;
    }
    let tables = tables_of(alloc, &program)?;
    let mut found = 0u64;
    for _ in 0..looks {
        found = found.saturating_add(look_up(alloc, &tables, kind.as_str(), count)?);
    }
    println!(rt; "{found}")?;
    Ok(())
}

fn main(rt: HostRuntime) -> Result<()> {
    run(&rt)
}
"""

KINDS = ["structs", "members", "conforming", "interfaces"]
BELOW = ["cad_syntax", "cad_auth", "cad_types", "cad_grammar", "cad_declarations", "cad_scopes", "cad_contracts", "cad_stop_points", "cad_entries", "cad_tables"]


def seconds(program, kind, count, builds, looks):
    """The least processor time of five runs with so many builds and rounds of look-ups."""
    best = None
    for _ in range(5):
        before = resource.getrusage(resource.RUSAGE_CHILDREN).ru_utime
        done = subprocess.run([str(program), kind, *map(str, (count, builds, looks))], check=True, capture_output=True, text=True)
        taken = resource.getrusage(resource.RUSAGE_CHILDREN).ru_utime - before
        assert done.stdout.strip() == str(looks * 10_000), done.stdout + done.stderr
        best = taken if best is None else min(best, taken)
    return best


def times(program, kind, count):
    """The times of one build and of one round of look-ups, in milliseconds."""
    one = seconds(program, kind, count, 1, 0)
    return [(seconds(program, kind, count, 11, 0) - one) * 100, (seconds(program, kind, count, 1, 10) - one) * 100]


def main():
    with tempfile.TemporaryDirectory() as name:
        program = build(pathlib.Path(name), BELOW, "built", ["anyhow"], SOURCE, {}, ["structs", "2", "1", "1"])
        slow = grows(KINDS, ["build", "look-ups"], lambda kind, count: times(program, kind, count))
    sys.exit(1 if slow else 0)


if __name__ == "__main__":
    main()
