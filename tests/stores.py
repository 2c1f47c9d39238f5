#!/usr/bin/env python3
"""Opens folders whose file `a` has one record that is written here, by the rules of docs/FORMATS.md ("Files", "Values as
bytes") alone: registers of contracts that stand for accounts have to be opened, and all others refused with status 7. Where the
last identity, or the last number of a controller, was given, no other is.

    tests/stores.py PROGRAM
"""
import json
import pathlib
import subprocess
import sys
import tempfile

EMPTY = "access(all) contract C {}"
NUMBER = "access(all) contract C { access(all) let n: Int\n init() { self.n = 1 } }"
TWO = "access(all) contract C { access(all) let n: Int\n access(all) let m: Int\n init() { self.n = 1\n self.m = 2 } }"
TRUTH = "access(all) contract C { access(all) let n: Bool\n init() { self.n = true } }"
ANY = "access(all) contract C { access(all) var x: AnyStruct\n init() { self.x = 1 } }"
KEEPER = "access(all) contract C { access(all) resource R {} access(all) var r: @R?\n init() { self.r <- nil } }"
EVENT = "access(all) contract C { access(all) event E() }"
NOTHING = "access(all) fun main() {}"
VOID = {"type": "Void"}
MAKER = "access(all) contract C { access(all) resource R {} access(all) fun make(): @R { return <-create R() } }"
LAST = 2**64 - 1


# ---- bytes


def number(n):
    return n.to_bytes(8, "big")


def length(n):
    return n.to_bytes(4, "big")


def string(text):
    return length(len(text)) + text


def integer(n):
    """A positive Int."""
    return b"\x04\x00\x00" + n.to_bytes(16, "big")


def composite(address, names, fields=(), identity=0):
    parts = b"".join(string(name) + value for name, value in fields)
    return b"\x0d" + number(address) + length(len(names)) + b"".join(map(string, names)) + number(identity) + length(len(fields)) + parts


def tape(registers):
    entries = b"".join(string(key) + b"\x01" + string(value) for key, value in sorted(registers.items()))
    body = b"\x01" + length(len(registers)) + entries
    return b"\x01" + number(len(body)) + body + b"\x00"


def accounts(count=1, identity=1):
    return {b"\x00": number(count) + number(identity), **{b"\x01" + number(n): number(1) for n in range(1, count + 1)}}


def contract(code, name=b"C", address=1, value=None):
    code = code if isinstance(code, bytes) else code.encode()
    value = composite(address, [name]) if value is None else value
    return {b"\x02" + number(address) + name: code, b"\x03" + number(address) + name: value}


def fields(*pairs):
    return composite(1, [b"C"], pairs)


def resource(identity):
    return composite(1, [b"C", b"R"], (), identity)


def stored(value):
    return {b"\x04" + number(1) + b"x": value}


# ---- cases: what it is, the registers, and the script with its result where they stand for accounts


def opened():
    imports = contract("import B from 0x1\naccess(all) contract A {}", b"A")
    yield "one contract", accounts() | contract(EMPTY), NOTHING, VOID
    yield "an import behind", accounts() | imports | contract("access(all) contract B {}", b"B"), NOTHING, VOID
    read = "import C from 0x1\naccess(all) fun main(): Int { return C.n }"
    yield "a field", accounts() | contract(NUMBER, value=fields((b"n", integer(5)))), read, {"type": "Int", "value": "5"}
    identity = "import C from 0x1\naccess(all) fun main(): UInt64 { return C.r?.uuid! }"
    held = contract(KEEPER, value=fields((b"r", b"\x02" + resource(3))))
    yield "a resource in a contract", accounts(identity=4) | held, identity, {"type": "UInt64", "value": "3"}
    yield "nil as AnyStruct", accounts() | contract(ANY, value=fields((b"x", b"\x01"))), NOTHING, VOID
    yield "a field that makes 256 levels", accounts() | contract(ANY, value=fields((b"x", b"\x02" * 254 + b"\x01"))), NOTHING, VOID


def refused_codes():
    yield "the code of another name", contract("access(all) contract D {}")
    yield "two contracts", contract("access(all) contract C {} access(all) contract D {}")
    yield "no contract", contract("")
    yield "an import that isn't there", contract("import B from 0x1\naccess(all) contract C {}")
    yield "an import of itself", contract("import C from 0x1\naccess(all) contract C {}")
    yield "an ill-typed function", contract("access(all) contract C { access(all) fun f(): Int { return true } }")
    yield "a code that isn't UTF-8", contract(b"access(all) contract C {} // \xff")
    yield "a name that is none", contract(EMPTY, b"1C")
    yield "an empty name", contract(EMPTY, b"")
    yield "an account that isn't there", contract(EMPTY, address=2)
    yield "account 0", contract(EMPTY, address=0)
    first = contract("import B from 0x1\naccess(all) contract A {}", b"A")
    yield "imports in a circle", first | contract("import A from 0x1\naccess(all) contract B {}", b"B")


def refused_values():
    yield "a field that isn't there", contract(NUMBER)
    yield "a field of another type", contract(TRUTH, value=fields((b"n", integer(5))))
    yield "a field of another name", contract(NUMBER, value=fields((b"m", integer(5))))
    yield "fields in another order", contract(TWO, value=fields((b"m", integer(5)), (b"n", integer(5))))
    yield "an identity", contract(EMPTY, value=composite(1, [b"C"], (), 1))
    yield "the value of another contract", contract(EMPTY, value=composite(1, [b"D"]))
    yield "a value of another address", contract(EMPTY, value=composite(2, [b"C"]))
    yield "a value in an optional", contract(EMPTY, value=b"\x02" + composite(1, [b"C"]))
    yield "a value of two names", contract(EMPTY, value=composite(1, [b"C", b"D"]))
    yield "a value of no name", contract(EMPTY, value=composite(1, []))
    yield "a byte behind the value", contract(EMPTY, value=composite(1, [b"C"]) + b"\x00")
    yield "Void", contract(ANY, value=fields((b"x", b"\x00")))
    yield "257 levels", contract(ANY, value=fields((b"x", b"\x02" * 255 + b"\x01")))
    yield "a contract in a field", contract(ANY, value=fields((b"x", fields((b"x", b"\x01")))))
    yield "a contract that is stored", contract(EMPTY) | stored(composite(1, [b"C"]))
    yield "an event that is stored", contract(EVENT) | stored(composite(1, [b"C", b"E"]))


def refused():
    for what, registers in (*refused_codes(), *refused_values()):
        yield what, accounts() | registers
    held = contract(KEEPER, value=fields((b"r", b"\x02" + resource(3))))
    yield "an identity that wasn't given", accounts(identity=3) | held
    yield "an identity in a contract and in storage", accounts(identity=4) | held | stored(resource(3))
    yield "a resource without an identity", accounts() | contract(KEEPER, value=fields((b"r", b"\x02" + resource(0))))
    yield "the next identity 0", accounts(identity=0) | contract(EMPTY)


def spent():
    """What there is no more of: the registers with the last number, and the one before it, a transaction, and its error."""
    make = "import C from 0x1\ntransaction { execute { destroy C.make() } }"
    made = [accounts(identity=number) | contract(MAKER) for number in (LAST, LAST - 1)]
    yield "identities", *made, {"kind": "transaction", "code": make}, 128
    issue = "transaction { prepare(a: auth(Capabilities) &Account) { let c = a.capabilities.storage.issue<&Int>(/storage/x) } }"
    issued = [accounts() | {b"\x01" + number(1): number(next)} for next in (LAST, LAST - 1)]
    yield "controllers", *issued, {"kind": "transaction", "code": issue, "signers": ["0x1"]}, 135


# ---- runs


def run(program, registers, *requests):
    text = "".join(json.dumps(request) + "\n" for request in requests)
    with tempfile.TemporaryDirectory() as folder:
        (pathlib.Path(folder) / "a").write_bytes(tape(registers))
        (pathlib.Path(folder) / "pick").write_bytes(b"\x01")
        done = subprocess.run([program, "run", folder], input=text.encode(), capture_output=True, timeout=600)
    return done.returncode, done.stdout.decode()


def main():
    if len(sys.argv) != 2:
        sys.exit(__doc__)
    program = str(pathlib.Path(sys.argv[1]).resolve())
    wrong, tried = [], 0
    for what, registers, code, result in opened():
        tried += 1
        reply = json.dumps({"reply": "ok", "result": result}, separators=(",", ":")) + "\n"
        got = run(program, registers, {"kind": "script", "code": code})
        if got != (0, reply):
            wrong.append(f"{what}: {got}, and {(0, reply)} is wanted")
    for what, registers in refused():
        tried += 1
        got = run(program, registers, {"kind": "script", "code": NOTHING})
        if got != (7, ""):
            wrong.append(f"{what}: {got}, and status 7 is wanted")
    for what, none, one, request, error in spent():
        tried += 2
        failed = f'{{"error":"{error}","reply":"failed"}}\n'
        got = run(program, none, request)
        if got != (0, failed):
            wrong.append(f"no {what}: {got}, and {(0, failed)} is wanted")
        status, out = run(program, one, request, request)
        if status or '"reply":"ok"' not in out.split("\n")[0] or not out.endswith("\n" + failed):
            wrong.append(f"one of the {what}: {status}, {out!r}, and ok and {failed!r} are wanted")
    for line in wrong:
        print(line)
    print(f"stores: {tried} folders, {len(wrong)} wrong")
    sys.exit(1 if wrong else 0)


if __name__ == "__main__":
    main()
