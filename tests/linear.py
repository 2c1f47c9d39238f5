#!/usr/bin/env python3
"""Tries that what holds resources can't be forgotten: small libraries that let a value go by its scope, or overwrite one, must
not compile, and those that hand it to the call that ends it must.

    tests/linear.py

It reads the front end's verdict alone, over the libraries of crates/*/out/rlib, which have to be built (rt ci, rt lib).
"""
import pathlib, subprocess, sys, tempfile

ROOT = pathlib.Path(__file__).resolve().parent.parent
KIT = pathlib.Path(subprocess.run(["rt", "doc"], capture_output=True, text=True, check=True).stdout.strip()).parent
REFUSED = "error[linear-value-let-go]"

# by crates, the types of these values, and the calls that end them
VALUES = {
    "cad_rows": [("Tree", "discard_tree"), ("Place", "discard_place")],
    "cad_state": [("Call", "discard_call"), ("Account", "discard_account"), ("Contract", "discard_contract"), ("RunState", "discard_state")],
    "cad_worlds": [("World", "discard_world")],
}


def needs():
    """What each crate uses, by crates.txt."""
    lines = [it.split("#")[0].partition(":") for it in (ROOT / "crates.txt").read_text().splitlines()]
    return {head.split()[0]: tail.split() for head, colon, tail in lines if colon}


def below(crate, used, found):
    """The crate behind all that it stands on."""
    for it in used.get(crate, []):
        if it not in found:
            below(it, used, found)
    found.append(crate)
    return found


def words(crate):
    """How a library that uses the crate is read."""
    used, said = needs(), []
    for it in dict.fromkeys(["core", "std", *below(crate, used, [])]):
        rlib = ROOT / "crates" / it / "out" / "rlib" / f"{it}.rlib" if it in used else KIT / "rlibs" / f"{it}.rlib"
        said += ["--extern", f"{it}={rlib}", "-L", f"dependency={rlib.parent}"]
    logic = ["--antt-project", str(KIT / "rattle/logic/antt-project.json"), "--logic-built", str(KIT / "logic_built")]
    return [str(KIT / "bin/rattle"), "check", "--crate-name", "tried", "src/lib.rt", *said, *logic, "--links", "tried=", "--only", ""]


def tried(crate, functions, names):
    """What the front end says of a library with these functions, and where each of them begins."""
    code = f"//! A library.\n#![tactic(auto)]\n\nuse {crate}::{{{', '.join(names)}}};\n\n"
    begun = []
    for function in functions:
        begun.append(code.count("\n") + 1)
        code += function + "\n"
    with tempfile.TemporaryDirectory() as folder:
        (pathlib.Path(folder) / "src").mkdir()
        (pathlib.Path(folder) / "src/lib.rt").write_text(code)
        done = subprocess.run(words(crate), cwd=folder, capture_output=True, text=True)
    return done.stdout + done.stderr, begun


def wrong_of(crate, values):
    """What isn't as it must be of the values of a crate."""
    types = [name for name, _ in values]
    said, _ = tried(crate, [f"pub fn end_{i}(value: {name}) {{ {end}(value) }}" for i, (name, end) in enumerate(values)], [*types, *(end for _, end in values)])
    wrong = [] if "only=0 proved=0" in said else [f"{crate}: values can't be ended: {said[-400:]}"]
    losses = [(name, f"pub fn {what}_{i}({body}") for i, name in enumerate(types) for what, body in (("forget", f"_value: {name}) {{}}"), ("overwrite", f"place: &mut {name}, value: {name}) {{ *place = value }}"))]
    said, begun = tried(crate, [loss for _, loss in losses], types)
    for (name, loss), line in zip(losses, begun):
        if not any(it.startswith(f"src/lib.rt:{line}:") and REFUSED in it for it in said.splitlines()):
            wrong.append(f"{crate}::{name} can be lost: {loss}")
    return wrong


def main():
    wrong = [line for crate, values in VALUES.items() for line in wrong_of(crate, values)]
    for line in wrong:
        print(line)
    print(f"linear: {sum(map(len, VALUES.values()))} types of values, {len(wrong)} wrong")
    sys.exit(1 if wrong else 0)


main()
