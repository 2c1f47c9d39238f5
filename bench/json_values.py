#!/usr/bin/env python3
"""Times JSON-Cadence both ways: of an array of numbers, dictionaries and an array of structs, and of ones of twice the size.

The program stands on copies of the crates in a temporary repository, and `rt run` proves and builds it there. A run makes a
text, reads it as JSON, and does as often as it is told each of: reading the text, `import`, `export`. The difference between
two runs counts, so that making the text doesn't. Each is made several times, and the least time of the processor counts.
Beside it stands `jq -c .` on the same text (Python's json where there is no jq), by the sum of the three. At last, structs
of more fields, as many fields in all.

usage: bench/json_values.py [PARTS]
"""
import json, pathlib, resource, shutil, subprocess, sys, tempfile, time

from proved import build

LIBRARIES = ["cad_syntax", "cad_wire", "cad_auth", "cad_types", "cad_num", "cad_text", "cad_values", "cad_shapes", "cad_number_codec", "cad_codec",
             "cad_fits", "cad_json", "cad_json_export", "cad_json_read", "cad_json_import"]
USES = ["anyhow", "serde_json", "json", "unicode_segmentation", "unicode_normalization", "hex"]

SOURCE = r"""//! Reads a text as JSON, imports the value that it stands for, and exports it.
#![tactic(auto)]

use anyhow::{Context, Result};
use cad_json_export::export;
use cad_json_import::import;
use cad_shapes::{DeclaredShapes, Shape, ShapeField, all_names_differ, are_closed};
use cad_syntax::{Address, Basic, CadType, Kind, Name, Names, Text, TypeId, TypeIds};
use cad_types::Sort;
use cad_values::Value;
use serde_json::Value as Json;
use std::alloc::{AllocError, Global};

fn name(alloc: Global, text: &str) -> Result<Name, AllocError> {
    Ok(Name(Text::from_str(alloc, text)?))
}

fn id(alloc: Global) -> Result<TypeId, AllocError> {
    let mut names = Names::new(alloc);
    names.push(name(alloc, "C")?)?;
    names.push(name(alloc, "S")?)?;
    Ok(TypeId { address: Address(1), names })
}

fn fields(alloc: Global, width: u32) -> Result<Vec<ShapeField>> {
    let mut fields = Vec::new(alloc);
    fields.push(ShapeField { name: name(alloc, "t")?, is: CadType::Basic(Basic::String) })?;
    for number in 1..width {
        let text = format!(in alloc; "f{number}")?;
        fields.push(ShapeField { name: name(alloc, text.as_str())?, is: CadType::Basic(Basic::Number(Kind::Int)) })?;
    }
    Ok(fields)
}

fn shapes(alloc: Global, width: u32) -> Result<Option<DeclaredShapes>> {
    let mut all = Vec::new(alloc);
    all.push(Shape { id: id(alloc)?, sort: Sort::Struct, fields: fields(alloc, width)?, interfaces: TypeIds::new(alloc), raw: Kind::UInt8, cases: 0 })?;
    if !are_closed(alloc, all.as_slice())? {
        return Ok(None);
    }
    if !all_names_differ(all.as_slice()) {
        return Ok(None);
    }
    Ok(Some(DeclaredShapes::new(alloc, all, TypeIds::new(alloc))?))
}

fn part(alloc: Global, form: &str) -> Result<CadType, AllocError> {
    match form {
        "structs" => Ok(CadType::Declared(id(alloc)?)),
        _ => Ok(CadType::Basic(Basic::Number(Kind::Int))),
    }
}

fn wanted(alloc: Global, form: &str) -> Result<CadType, AllocError> {
    let inner = part(alloc, form)?;
    match form {
        "entries" => Ok(CadType::Dictionary(Box::new(alloc, CadType::Basic(Basic::String))?, Box::new(alloc, inner)?)),
        "addresses" => Ok(CadType::Dictionary(Box::new(alloc, CadType::Basic(Basic::Number(Kind::Address)))?, Box::new(alloc, inner)?)),
        _ => Ok(CadType::Array(Box::new(alloc, inner)?)),
    }
}

fn push_struct(text: &mut String, n: u32, width: u32) -> Result<()> {
    text.push_str("{\"type\":\"Struct\",\"value\":{\"fields\":[{\"name\":\"t\",\"value\":{\"type\":\"String\",\"value\":\"abc\"}}")?;
    for number in 1..width {
        write!(text, ",{{\"name\":\"f{number}\",\"value\":{{\"type\":\"Int\",\"value\":\"{n}\"}}}}")?;
    }
    text.push_str("],\"id\":\"A.0000000000000001.C.S\"}}")?;
    Ok(())
}

fn push_part(text: &mut String, form: &str, n: u32, width: u32) -> Result<()> {
    match form {
        "entries" => write!(text, "{{\"key\":{{\"type\":\"String\",\"value\":\"\u{e9}{n}\"}},\"value\":{{\"type\":\"Int\",\"value\":\"{n}\"}}}}")?,
        "addresses" => write!(text, "{{\"key\":{{\"type\":\"Address\",\"value\":\"0x{n:016x}\"}},\"value\":{{\"type\":\"Int\",\"value\":\"{n}\"}}}}")?,
        "structs" => push_struct(text, n, width)?,
        _ => write!(text, "{{\"type\":\"Int\",\"value\":\"{n}\"}}")?,
    }
    Ok(())
}

fn made(alloc: Global, form: &str, count: u32, width: u32) -> Result<String> {
    let mut text = String::new(alloc);
    match form {
        "entries" | "addresses" => text.push_str("{\"type\":\"Dictionary\",\"value\":[")?,
        _ => text.push_str("{\"type\":\"Array\",\"value\":[")?,
    }
    for n in 0..count {
        if n > 0 {
            text.push_str(",")?;
        }
        push_part(&mut text, form, n, width)?;
    }
    text.push_str("]}")?;
    Ok(text)
}

fn exported(alloc: Global, shapes: &DeclaredShapes, value: &Value, text: &str) -> Result<bool> {
    match export(alloc, shapes.types(), value)? {
        Some(told) => Ok(told.as_str() == text),
        None => Ok(false),
    }
}

fn imported(alloc: Global, shapes: &DeclaredShapes, want: &CadType, json: &Json) -> Result<bool> {
    Ok(import(alloc, shapes, want, json)?.is_some())
}

fn read(alloc: Global, text: &str) -> bool {
    Json::from_str(alloc, text).is_ok()
}

fn number(word: Option<String>) -> Result<u32> {
    Ok(word.context("a number")?.as_str().parse::<u32>().context("a number")?)
}

fn run(rt: &HostRuntime) -> Result<()> {
    let alloc = rt.alloc();
    let mut words = std::env::args(rt)?;
    let _program = words.next();
    let form = words.next().context("a form")?;
    let count = number(words.next())?;
    let width = number(words.next())?;
    let reads = number(words.next())?;
    let imports = number(words.next())?;
    let exports = number(words.next())?;
    let text = made(alloc, form.as_str(), count, width)?;
    let json = Json::from_str(alloc, text.as_str()).ok().context("no JSON")?;
    let shapes = shapes(alloc, width)?.context("no shapes")?;
    let want = wanted(alloc, form.as_str())?;
    let value = import(alloc, &shapes, &want, &json)?.context("no value")?;
    let mut done = true;
    for _ in 0..reads {
        done = done && read(alloc, text.as_str());
    }
    for _ in 0..imports {
        done = done && imported(alloc, &shapes, &want, &json)?;
    }
    for _ in 0..exports {
        done = done && exported(alloc, &shapes, &value, text.as_str())?;
    }
    rt.println(done)?;
    if reads == 0 {
        rt.println(text.as_str())?;
    }
    Ok(())
}

fn main(rt: HostRuntime) -> Result<()> {
    run(&rt)
}
"""

TIMES = 20
PARTS = ["reading", "import", "export"]
WIDTHS = [2, 10, 40, 160]


def seconds(words):
    start = resource.getrusage(resource.RUSAGE_CHILDREN).ru_utime
    done = subprocess.run([str(word) for word in words], check=True, capture_output=True, text=True).stdout
    return resource.getrusage(resource.RUSAGE_CHILDREN).ru_utime - start, done


def least(program, form, count, width=2):
    """The least times of reading, importing and exporting once."""
    best = [None] * len(PARTS)
    for _ in range(5):
        few, done = seconds([program, form, count, width, 1, 1, 1])
        assert done.startswith("true"), (form, done)
        for i in range(len(PARTS)):
            many, _ = seconds([program, form, count, width, *(1 + TIMES if i == j else 1 for j in range(len(PARTS)))])
            taken = (many - few) / TIMES
            best[i] = taken if best[i] is None else min(best[i], taken)
    return best


def text_of(program, form, count):
    """The text of so many parts."""
    return seconds([program, form, count, 2, 0, 0, 0])[1].splitlines()[1]


def jq_seconds(text, folder):
    """The least time of `jq -c .` on a text."""
    one, many = folder / "one.json", folder / "many.json"
    one.write_text(text + "\n")
    many.write_text((text + "\n") * (1 + TIMES))
    return min((seconds(["jq", "-c", ".", many])[0] - seconds(["jq", "-c", ".", one])[0]) / TIMES for _ in range(5))


def python_seconds(text):
    """The least time of Python's reading and writing of a text."""
    best = None
    for _ in range(5):
        start = time.process_time()
        json.dumps(json.loads(text), separators=(",", ":"))
        taken = time.process_time() - start
        best = taken if best is None else min(best, taken)
    return best


def beside(program, form, count, ours, folder):
    """Prints the sum of our three times by that of another program on the same text."""
    text = text_of(program, form, count)
    name, theirs = ("jq", jq_seconds(text, folder)) if shutil.which("jq") else ("Python's json", python_seconds(text))
    print(f"{form}: {sum(ours) / max(theirs, 1e-9):.2f} times the {1e3 * theirs:.2f} ms of {name}, {1e-6 * len(text) / max(sum(ours), 1e-9):.0f} MB a second of all three", flush=True)


def main():
    count = int(sys.argv[1]) if len(sys.argv) > 1 else 10_000
    with tempfile.TemporaryDirectory() as name:
        folder = pathlib.Path(name)
        program = str(build(folder, LIBRARIES, "json_values", USES, SOURCE, {}, ["numbers", "1", "1", "1", "1", "1"]))
        for form in ["numbers", "entries", "addresses", "structs"]:
            one = least(program, form, count)
            two = least(program, form, 2 * count)
            for part, a, b in zip(PARTS, one, two):
                print(f"{form}, {part}: {1e3 * a:.2f} ms for {count} parts, {b / max(a, 1e-9):.2f} times that for twice as many", flush=True)
            beside(program, form, count, one, folder)
        for width in WIDTHS:
            taken = least(program, "structs", count // width, width)
            print(f"structs of {width} fields: {1e9 * taken[1] / (count // width * width):.0f} ns a field for import", flush=True)


if __name__ == "__main__":
    main()
