#!/usr/bin/env python3
"""Runs rows of request lines with the exact reply of each: values as JSON, as they are read and as they are written; what a line
asks for; and the text of a rejection. The replies are worked out from docs/FORMATS.md and docs/ERRORS.md; none was taken from a
program.

    tests/json_rows.py PROGRAM
"""
import itertools
import json
import pathlib
import subprocess
import sys
import tempfile

from stores import LAST, accounts, composite as composite_bytes, contract, number, stored, tape
from worked import ACCOUNT, LIMIT, account, bad, done, failed, rejected

# Rows of a type and the JSON of an argument of it, which is also that of the result; or with the JSON of the result behind it.
READ = """
Bool~{"type":"Bool","value":true}
Bool~{"type":"Bool","value":false}
String~{"type":"String","value":""}
String~{"type":"String","value":"a\\"\\\\\\né😀"}
Character~{"type":"Character","value":"é"}
Character~{"type":"Character","value":"e\u0301"}
Address~{"type":"Address","value":"0x1"}~{"type":"Address","value":"0x0000000000000001"}
Address~{"value":"0x1","type":"Address"}~{"type":"Address","value":"0x0000000000000001"}
Address~{"type":"Address","value":"0xFfffffffffffffff"}~{"type":"Address","value":"0xffffffffffffffff"}
Path~{"type":"Path","value":{"domain":"storage","identifier":"x"}}
StoragePath~{"type":"Path","value":{"domain":"storage","identifier":""}}
PublicPath~{"type":"Path","value":{"domain":"public","identifier":"a b"}}
Int~{"type":"Int","value":"-170141183460469231731687303715884105728"}
Int~{"type":"Int","value":"170141183460469231731687303715884105727"}
Int8~{"type":"Int8","value":"-128"}
Int8~{"type":"Int8","value":"127"}
Int16~{"type":"Int16","value":"-32768"}
Int16~{"type":"Int16","value":"32767"}
Int32~{"type":"Int32","value":"-2147483648"}
Int32~{"type":"Int32","value":"2147483647"}
Int64~{"type":"Int64","value":"-9223372036854775808"}
Int64~{"type":"Int64","value":"9223372036854775807"}
Int128~{"type":"Int128","value":"-170141183460469231731687303715884105728"}
Int128~{"type":"Int128","value":"170141183460469231731687303715884105727"}
UInt~{"type":"UInt","value":"0"}
UInt~{"type":"UInt","value":"340282366920938463463374607431768211455"}
UInt8~{"type":"UInt8","value":"0"}
UInt8~{"type":"UInt8","value":"255"}
UInt16~{"type":"UInt16","value":"0"}
UInt16~{"type":"UInt16","value":"65535"}
UInt32~{"type":"UInt32","value":"0"}
UInt32~{"type":"UInt32","value":"4294967295"}
UInt64~{"type":"UInt64","value":"0"}
UInt64~{"type":"UInt64","value":"18446744073709551615"}
UInt128~{"type":"UInt128","value":"0"}
UInt128~{"type":"UInt128","value":"340282366920938463463374607431768211455"}
Word8~{"type":"Word8","value":"0"}
Word8~{"type":"Word8","value":"255"}
Word16~{"type":"Word16","value":"0"}
Word16~{"type":"Word16","value":"65535"}
Word32~{"type":"Word32","value":"0"}
Word32~{"type":"Word32","value":"4294967295"}
Word64~{"type":"Word64","value":"0"}
Word64~{"type":"Word64","value":"18446744073709551615"}
Word128~{"type":"Word128","value":"0"}
Word128~{"type":"Word128","value":"340282366920938463463374607431768211455"}
Int~{"type":"Int","value":"007"}~{"type":"Int","value":"7"}
Int~{"type":"Int","value":"-0"}~{"type":"Int","value":"0"}
Fix64~{"type":"Fix64","value":"-92233720368.54775808"}
Fix64~{"type":"Fix64","value":"92233720368.54775807"}
Fix64~{"type":"Fix64","value":"-0.1"}~{"type":"Fix64","value":"-0.10000000"}
UFix64~{"type":"UFix64","value":"184467440737.09551615"}
UFix64~{"type":"UFix64","value":"007.5"}~{"type":"UFix64","value":"7.50000000"}
Int~{"value":"5","type":"Int"}~{"type":"Int","value":"5"}
Int~ { "type" : "Int" , "value" : "5" } ~{"type":"Int","value":"5"}
Int?~{"type":"Optional","value":null}
Int?~{"type":"Optional","value":{"type":"Int","value":"5"}}
Int??~{"type":"Optional","value":{"type":"Optional","value":null}}
Int??~{"type":"Optional","value":null}
[Int]~{"type":"Array","value":[]}
[Int]~{"type":"Array","value":[{"type":"Int","value":"1"},{"type":"Int","value":"2"}]}
[Bool?]~{"type":"Array","value":[{"type":"Optional","value":{"type":"Bool","value":true}}]}
{String: Int}~{"type":"Dictionary","value":[{"key":{"type":"String","value":"b"},"value":{"type":"Int","value":"1"}},{"key":{"type":"String","value":"a"},"value":{"type":"Int","value":"2"}}]}
{String: [Bool]}~{"type":"Dictionary","value":[]}
AnyStruct~{"type":"Bool","value":false}
AnyStruct~{"type":"Optional","value":null}
AnyStruct~{"type":"Optional","value":{"type":"Int","value":"1"}}
AnyStruct~{"type":"Array","value":[{"type":"Int","value":"1"},{"type":"Array","value":[]}]}
AnyStruct?~{"type":"Optional","value":{"type":"Int","value":"1"}}
{String: AnyStruct}~{"type":"Dictionary","value":[{"key":{"type":"String","value":"b"},"value":{"type":"Int","value":"1"}}]}
"""

# Rows of a type and the JSON of an argument that is no value of it.
REFUSED = """
Int~{"type":"Int","value":"-170141183460469231731687303715884105729"}
Int~{"type":"Int","value":"170141183460469231731687303715884105728"}
Int8~{"type":"Int8","value":"-129"}
Int8~{"type":"Int8","value":"128"}
Int16~{"type":"Int16","value":"-32769"}
Int16~{"type":"Int16","value":"32768"}
Int32~{"type":"Int32","value":"-2147483649"}
Int32~{"type":"Int32","value":"2147483648"}
Int64~{"type":"Int64","value":"-9223372036854775809"}
Int64~{"type":"Int64","value":"9223372036854775808"}
Int128~{"type":"Int128","value":"-170141183460469231731687303715884105729"}
Int128~{"type":"Int128","value":"170141183460469231731687303715884105728"}
UInt~{"type":"UInt","value":"-1"}
UInt~{"type":"UInt","value":"340282366920938463463374607431768211456"}
UInt8~{"type":"UInt8","value":"-1"}
UInt8~{"type":"UInt8","value":"256"}
UInt16~{"type":"UInt16","value":"-1"}
UInt16~{"type":"UInt16","value":"65536"}
UInt32~{"type":"UInt32","value":"-1"}
UInt32~{"type":"UInt32","value":"4294967296"}
UInt64~{"type":"UInt64","value":"-1"}
UInt64~{"type":"UInt64","value":"18446744073709551616"}
UInt128~{"type":"UInt128","value":"-1"}
UInt128~{"type":"UInt128","value":"340282366920938463463374607431768211456"}
Word8~{"type":"Word8","value":"-1"}
Word8~{"type":"Word8","value":"256"}
Word16~{"type":"Word16","value":"-1"}
Word16~{"type":"Word16","value":"65536"}
Word32~{"type":"Word32","value":"-1"}
Word32~{"type":"Word32","value":"4294967296"}
Word64~{"type":"Word64","value":"-1"}
Word64~{"type":"Word64","value":"18446744073709551616"}
Word128~{"type":"Word128","value":"-1"}
Word128~{"type":"Word128","value":"340282366920938463463374607431768211456"}
Bool~{"type":"Bool","value":"true"}
Bool~{"type":"Bool","value":1}
String~{"type":"String","value":5}
Character~{"type":"Character","value":""}
Character~{"type":"Character","value":"ab"}
Character~{"type":"String","value":"a"}
String~{"type":"Character","value":"a"}
Address~{"type":"Address","value":"1"}
Address~{"type":"Address","value":"0x"}
Address~{"type":"Address","value":"0X1"}
Address~{"type":"Address","value":"0xg"}
Address~{"type":"Address","value":""}
Address~{"type":"Address","value":"0x00000000000000001"}
Address~{"type":"Address","value":1}
UInt64~{"type":"Address","value":"0x1"}
Address~{"type":"UInt64","value":"1"}
Int~{"type":"Int","value":""}
Int~{"type":"Int","value":"+1"}
Int~{"type":"Int","value":"1.0"}
Int~{"type":"Int","value":" 1"}
Int~{"type":"Int","value":"1 "}
Int~{"type":"Int","value":"--1"}
Int~{"type":"Int","value":"0x1"}
Int~{"type":"Int","value":"1e3"}
UInt8~{"type":"UInt8","value":"-0"}
Int~{"type":"Int","value":5}
Int~{"type":"Int8","value":"5"}
UFix64~{"type":"UFix64","value":"1"}
UFix64~{"type":"UFix64","value":"1."}
UFix64~{"type":"UFix64","value":".5"}
UFix64~{"type":"UFix64","value":"1.123456789"}
UFix64~{"type":"UFix64","value":"1,0"}
UFix64~{"type":"UFix64","value":"-1.0"}
Fix64~{"type":"Fix64","value":"92233720368.54775808"}
Int?~{"type":"Int","value":"5"}
Int~{"type":"Optional","value":{"type":"Int","value":"5"}}
Int?~{"type":"Optional","value":{"type":"Int8","value":"5"}}
[Int]~{"type":"Array","value":{}}
[Int]~{"type":"Array","value":[{"type":"Bool","value":true}]}
{String: Int}~{"type":"Dictionary","value":[{"key":{"type":"String","value":"a"},"value":{"type":"Int","value":"1"}},{"key":{"type":"String","value":"a"},"value":{"type":"Int","value":"2"}}]}
{String: Int}~{"type":"Dictionary","value":[{"key":{"type":"String","value":"é"},"value":{"type":"Int","value":"1"}},{"key":{"type":"String","value":"e\u0301"},"value":{"type":"Int","value":"2"}}]}
{String: Int}~{"type":"Dictionary","value":[{"key":{"type":"String","value":"a"},"value":{"type":"Int","value":"1"},"x":1}]}
{String: Int}~{"type":"Dictionary","value":[{"key":{"type":"String","value":"a"}}]}
StoragePath~{"type":"Path","value":{"domain":"public","identifier":"x"}}
Path~{"type":"Path","value":{"domain":"private","identifier":"x"}}
Path~{"type":"Path","value":{"domain":"storage","identifier":5}}
Path~{"type":"Path","value":{"domain":"storage"}}
AnyStruct~{"type":"Dictionary","value":[]}
AnyStruct~{"type":"Void","value":null}
AnyStruct~{"type":"Void"}
AnyStruct~{"type":"Type","value":{"staticType":""}}
Int~5
Int~null
Int~[]
Int~{"type":"Int"}
Int~{"value":"5"}
Int~{"type":"Int","value":"5","more":0}
Int~{"type":5,"value":"5"}
Int~{"type":"int","value":"5"}
"""

# Arguments that aren't JSON, so that the line isn't.
NO_JSON = "{", '{"type":"Int","value":"5"} 1'

# Rows of the bytes of a value that is stored, and its JSON.
STORED = """
0d00000000000000010000000200000001430000000153000000000000000000000002000000016e040001000000000000000000000000000000010000000174050000000761225c0a01c3a9~{"type":"Struct","value":{"fields":[{"name":"n","value":{"type":"Int","value":"-1"}},{"name":"t","value":{"type":"String","value":"a\\"\\\\\\n\\u0001é"}}],"id":"A.0000000000000001.C.S"}}
0d000000000000000100000002000000014300000001450000000000000000000000010000000872617756616c756504070000000000000000000000000000000001~{"type":"Enum","value":{"fields":[{"name":"rawValue","value":{"type":"UInt8","value":"1"}}],"id":"A.0000000000000001.C.E"}}
0c001800000000000105000000016b04000000000000000000000000000000000001~{"type":"Dictionary","value":[{"key":{"type":"String","value":"k"},"value":{"type":"Int","value":"1"}}]}
04110100000000000000000000000000000001~{"type":"Fix64","value":"-0.00000001"}
04120000000000000000000000000008f0d180~{"type":"UFix64","value":"1.50000000"}
060000000365cc81~{"type":"Character","value":"e\u0301"}
08010000000178~{"type":"Path","value":{"domain":"public","identifier":"x"}}
"""

# Bytes of values with a part that has no JSON: a type, a capability.
WITHOUT_JSON = """
090000
0a000000000000000100000000000000070600000000000000
0b001c00000001090000
02090000
0c0018001c0000000105000000016b090000
0c001c00180000000109000005000000016b
"""


def split(rows):
    return [row.split("~") for row in rows.strip("\n").split("\n")]


# ---- lines and replies, as texts


def asks(kind, code, given=None, **others):
    """A line; the text that is given stands as it is between the brackets of its arguments."""
    line = json.dumps({"kind": kind, "code": code, **others}, ensure_ascii=False)
    return line if given is None else f'{line[:-1]},"arguments":[{given}]}}'


def script(result, statements, given=None, parameters="", **others):
    return asks("script", f"import C from 0x1\naccess(all) fun main({parameters}): {result} {{\n{statements}\n}}", given, **others)


def same(kind, given):
    """A script that returns its argument."""
    return script(kind, "return x", given, f"x: {kind}")


def deploy(code, given=None, **others):
    return asks("deploy", code, given, **{"address": "0x1", "name": "C", **others})


def result(value):
    return f'{{"reply":"ok","result":{value}}}'


FIRST = (json.dumps(ACCOUNT), account(1))


# ---- the JSON of values


def typed(kind, value):
    return f'{{"type":"{kind}","value":{value}}}'


def composite(sort, name, *fields, address="0000000000000001"):
    told = ",".join(f'{{"name":"{field}","value":{value}}}' for field, value in fields)
    return typed(sort, f'{{"fields":[{told}],"id":"A.{address}.C.{name}"}}')


def enum(value, field="rawValue", sort="Enum"):
    return composite(sort, "E", (field, typed("UInt8", f'"{value}"')))


N, T = ("n", typed("Int", '"1"')), ("t", typed("String", '"x"'))
S, HARD = composite("Struct", "S", N, T), composite("Struct", "Hard", ("c", typed("Int", '"1"')))
UUID = "uuid", typed("UInt64", '"1"')

# Types and values as above, of the contract OF_ARGUMENTS.
READ_COMPOSITES = [
    ("C.S", S),
    ("C.S", composite("Struct", "S", T, N), S),
    ("C.E", enum(1)),
    ("AnyStruct", S),
    ("AnyStruct", enum(0)),
]
REFUSED_COMPOSITES = [
    ("AnyStruct", composite("Resource", "R", UUID)),
    ("C.S", composite("Struct", "S", N)),
    ("C.S", composite("Struct", "S", N, N)),
    ("C.S", composite("Struct", "S", N, T, ("u", typed("Int", '"1"')))),
    ("C.S", composite("Enum", "S", N, T)),
    ("C.S", composite("Struct", "S", N, T, address="1")),
    ("C.S", composite("Struct", "S", ("n", typed("Int8", '"1"')), T)),
    ("C.E", enum(2)),
    ("C.E", enum(1, sort="Struct")),
    ("C.E", enum(1, field="raw")),
    ("AnyStruct", HARD),
]

# Parameters whose types arguments can't have: those of an initializer may be of any type, those of `main` may not.
NO_ARGUMENTS = [("C.Hard", HARD), ("Void", '{"type":"Void"}')]

OF_ARGUMENTS = """access(all) contract C {
    access(all) struct S {
        access(all) let n: Int
        access(all) let t: String
        init(n: Int, t: String) { self.n = n
            self.t = t }
    }
    access(all) enum E: UInt8 {
        access(all) case a
        access(all) case b
    }
    access(all) struct Hard {
        access(all) let c: Capability
        init(c: Capability) { self.c = c }
    }
}
"""


def arguments():
    """Arguments that are read and returned, and those that are refused."""
    for kind, given, *told in [*split(READ), *READ_COMPOSITES]:
        yield same(kind, given), result(told[0] if told else given)
    for kind, given in [*split(REFUSED), *REFUSED_COMPOSITES]:
        yield same(kind, given), bad(24)
    for given in NO_JSON:
        yield same("Int", given), bad(21)
    for kind, given in NO_ARGUMENTS:
        yield deploy(f"import C from 0x1\naccess(all) contract D {{ init(x: {kind}) {{}} }}", given, name="D"), failed(125)


# ---- arguments as deep as a line may nest


# The JSON in front of a content, that of the innermost, and what stands behind a content.
AROUND = {"Optional": ('{"type":"Optional","value":', "null", "}"), "Array": ('{"type":"Array","value":[', "", "]}")}


def nested(level, height):
    """The JSON of nil or an empty array in optionals or arrays, which is so high."""
    front, content, end = AROUND[level]
    return front * height + content + end * height


def type_of(level, height):
    return "Int" + "?" * height if level == "Optional" else "[" * height + "Int" + "]" * height


def deep():
    """An optional is an object, an array an object and a list, and an argument stands in an object and a list: 127 in all."""
    for level, height in (("Optional", 125), ("Array", 62)):
        given, higher = nested(level, height), nested(level, height + 1)
        yield same(type_of(level, height), given), result(given)
        yield same("AnyStruct", given), result(given)
        yield same(type_of(level, height + 1), higher), bad(21)
        yield same("AnyStruct", higher), bad(21)


# ---- values that stand in storage by their bytes


OF_STORED = """access(all) contract C {
    access(all) struct S {
        access(all) let n: Int
        access(all) let t: String
        init(n: Int, t: String) { self.n = n
            self.t = t }
    }
    access(all) enum E: UInt8 {
        access(all) case a
        access(all) case b
    }
    access(all) resource R {
        access(all) let n: Int
        init(n: Int) { self.n = n }
    }
    access(all) fun value(): AnyStruct { return self.account.storage.copy<AnyStruct>(from: /storage/x)! }
    access(all) fun taken(): @R { let r <- self.account.storage.load<@R>(from: /storage/x)!
        return <-r }
}
"""
VALUE = script("AnyStruct", "return C.value()")


def storing(value, next_identity=1):
    """Registers of one account, with the contract and this value at /storage/x; the account has given seven capabilities."""
    return accounts(1, next_identity) | {b"\x01" + number(1): number(8)} | contract(OF_STORED) | stored(value)


def stored_resource(identity, next_identity):
    value = composite_bytes(1, [b"C", b"R"], [(b"n", bytes.fromhex("04000000000000000000000000000000000001"))], identity)
    told = composite("Resource", "R", ("uuid", typed("UInt64", f'"{identity}"')), N)
    return storing(value, next_identity), [], [(script("@C.R", "return <-C.taken()"), result(told))]


# The bytes in front of a content, and those of the innermost; the arrays are of AnyStruct.
BYTES_AROUND = {"Optional": (b"\x02", b"\x01"), "Array": (bytes.fromhex("0b001d00000001"), bytes.fromhex("0b001d00000000"))}


def from_storage():
    """Values that are read from their bytes: their JSON, also where they are as high as a value may be, or 134."""
    for digits, told in split(STORED):
        yield storing(bytes.fromhex(digits)), [], [(VALUE, result(told))]
    for level, (front, end) in BYTES_AROUND.items():
        rows = [(VALUE, result(nested(level, 256))), (script("AnyStruct", "return [C.value()]"), failed(123))]
        yield storing(front * 255 + end), [], rows
    yield stored_resource(7, 8)
    yield stored_resource(LAST - 1, LAST)
    for (digits,) in split(WITHOUT_JSON):
        yield storing(bytes.fromhex(digits)), [], [(VALUE, failed(134))]


# ---- values that can't be stored


OF_RESULTS = """access(all) contract C {
    access(all) event V(n: Int, to: Address?)
    access(all) struct S {
        access(all) let n: Type
        access(all) let t: AnyStruct
        init(n: Type, t: AnyStruct) { self.n = n
            self.t = t }
    }
    access(all) fun nothing() {}
    access(all) fun tell() { emit V(n: 1, to: 0x2) }
}
"""


def results():
    """Void, an event, and a struct in which Void and a type stand."""
    void = '{"type":"Void"}'
    yield script("Void", ""), result(void)
    yield script("AnyStruct", "let x: AnyStruct? = C.nothing()\nreturn x"), result(typed("Optional", void))
    yield script("AnyStruct", "let x: [AnyStruct] = [C.nothing()]\nreturn x"), result(typed("Array", f"[{void}]"))
    event = composite("Event", "V", N, ("to", typed("Optional", typed("Address", '"0x0000000000000002"'))))
    yield asks("transaction", "import C from 0x1\ntransaction { execute { C.tell() } }"), done(events=event)
    yield script("AnyStruct", "return C.S(n: Type<Int>(), t: C.nothing())"), failed(134)


# ---- what lines ask for


# `c` alone is no program, so these lines get as far as their code.
FORMS = """
{"kind":"deploy","address":"0x1F","name":"N","code":"c","arguments":[1,[]],"limit":1000000}
{"kind":"transaction","code":"c","signers":["0x1","0x2"],"limit":1}
{"kind":"script","code":"c","signers":1}
"""

# Lines that ask for nothing, with the number.
BAD = """
hello~21
{"code":"c"}~22
{"kind":"dance"}~23
{"kind":"script"}~22
{"kind":"script","code":"c","arguments":{},"limit":0}~22
{"kind":"transaction","code":"c","signers":["1"],"limit":0}~22
{"kind":"script","code":"c","limit":1.0}~22
{"kind":"script","code":"c","limit":0}~28
"""

COUNTING = """access(all) contract N {
    access(all) let a: Int
    access(all) let b: [Int]
    init(a: Int, b: [Int]) {
        self.a = a
        self.b = b
%s
    }
}
"""
SEVEN = typed("Int", '"7"')
TWO = f'{SEVEN},{typed("Array", "[]")}'


def counting(units):
    """Statements that take so many units: one each for the first two, two for each turn, and one more where that is odd."""
    return f"var i = 0\nwhile i < {(units - 2) // 2} {{ i = i + 1 }}\n" + "i = 0\n" * (units % 2)


def limits():
    """The limits of a deploy, a transaction and a script, each with what takes all units and with what takes one more."""
    most = {"address": "0x1F", "name": "N", "limit": 1000000}
    # A call, and two statements before the others.
    yield deploy(COUNTING % counting(999998), TWO, **most), LIMIT
    yield deploy(COUNTING % counting(999997), TWO, **most), done()
    signed = {"signers": ["0x1", "0x2"], "limit": 1}
    two = "transaction { prepare(a: &Account, b: &Account) {%s} }"
    yield asks("transaction", two % "", **signed), done()
    yield asks("transaction", two % " let n = 1 ", **signed), LIMIT
    # A call and the return.
    loop = "access(all) fun main(): Int {\n%sreturn 1 }"
    yield asks("script", loop % counting(9997), signers=1), result(N[1])
    yield asks("script", loop % counting(9998), signers=1), LIMIT


def forms():
    """Each kind, and each refusal, where there are 31 accounts."""
    yield '{"kind":"account","limit":0}', account(32)
    for (line,) in split(FORMS):
        yield line, rejected(0, "", "parse")
    for line, error in split(BAD):
        yield line, bad(error)
    yield deploy(COUNTING % "", "1,[]", address="0x1F", name="N"), failed(125)
    yield deploy(COUNTING % "", SEVEN, address="0x1F", name="N"), failed(125)
    yield from limits()
    read = "import N from 0x1f\naccess(all) fun main(): Int { return N.a + N.b.length }"
    yield asks("script", read), result(SEVEN)
    order = "transaction { prepare(a: &Account, b: &Account) { assert(a.address == 0x1 && b.address == 0x2) } }"
    yield asks("transaction", order, signers=["0x1", "0x2"]), done()
    yield asks("transaction", order, signers=["0x2", "0x1"]), failed(110)


# ---- rejections


LOST = """access(all) contract Token {
    access(all) resource Vault {}
    init() {
        let v <- create Vault()
        let w <- v
        destroy w
        destroy v
    }
}
"""


def rejections():
    yield deploy(LOST, name="Token"), '{"at":"3","in":"Token.init","phase":"moves","reply":"rejected"}'


# ---- runs: each session is the registers of a folder, if it isn't new, lines before the rows, and the rows


def sessions():
    deployed = [FIRST, (deploy(OF_ARGUMENTS), done())]
    yield None, deployed, list(arguments())
    yield None, deployed, list(deep())
    yield from from_storage()
    yield None, [FIRST, (deploy(OF_RESULTS), done())], list(results())
    yield None, [(json.dumps(ACCOUNT), account(n)) for n in range(1, 32)], list(forms())
    yield None, [FIRST], list(rejections())


def run(program, registers, lines):
    with tempfile.TemporaryDirectory() as folder:
        if registers:
            (pathlib.Path(folder) / "a").write_bytes(tape(registers))
            (pathlib.Path(folder) / "pick").write_bytes(b"\x01")
        given = "".join(line + "\n" for line in lines)
        return subprocess.run([program, "run", folder], input=given.encode(), capture_output=True, timeout=600)


def wrong(program, registers, before, rows):
    """The rows of a session that don't hold, and the lines before them."""
    pairs = [*before, *rows]
    ran = run(program, registers, [line for line, _ in pairs])
    replies = ran.stdout.decode().split("\n")[:-1]
    for (line, wanted), reply in itertools.zip_longest(pairs, replies, fillvalue=("", "")):
        if reply != wanted:
            yield f"{line[:300]}: {reply!r:.300}, and not {wanted[:300]}"
    if ran.returncode or ran.stderr:
        yield f"{pairs[0][0][:300]}: status {ran.returncode}, {ran.stderr!r}"


def main():
    if len(sys.argv) != 2:
        sys.exit(__doc__)
    program = str(pathlib.Path(sys.argv[1]).resolve())
    count, faults = 0, []
    for registers, before, rows in sessions():
        count += len(rows)
        faults += wrong(program, registers, before, rows)
    for fault in faults:
        print(fault)
    print(f"json_rows: {count} rows, {len(faults)} wrong")
    sys.exit(1 if faults else 0)


if __name__ == "__main__":
    main()
