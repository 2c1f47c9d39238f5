#!/usr/bin/env python3
"""Runs worked sessions, each on a new folder: every reply has to be the one that stands here, byte for byte. The replies were
worked out by hand from the rules (docs/FORMATS.md, docs/ERRORS.md, docs/DEFINITIONS.md); none was taken from a program.

Each session runs twice: all its lines in one run, and each line in a run of its own, which finds what those before it left.

    tests/worked.py PROGRAM
"""
import itertools
import json
import pathlib
import subprocess
import sys
import tempfile

from generate import PUBLISH, SETUP, TOKEN, TRANSFER

# ---- lines, as objects; a text stands for itself, with the line feed that it has


ACCOUNT = {"kind": "account"}


def script(code, *arguments, **others):
    given = {"arguments": list(arguments)} if arguments else {}
    return {"kind": "script", "code": code, **given, **others}


def transaction(code, *signers, arguments=()):
    return {"kind": "transaction", "code": code, "signers": list(signers), "arguments": list(arguments)}


def prepared(code, *signers):
    """A transaction whose whole prepare is this, with all rights on the account."""
    return transaction("transaction { prepare(a: auth(Storage, Capabilities) &Account) {\n" + code + "\n} }", *signers)


def deploy(name, code):
    return {"kind": "deploy", "address": "0x1", "name": name, "code": code}


def value(kind, of):
    return {"type": kind, "value": of}


def gives(kind, expression):
    """A script of one statement."""
    return script("access(all) fun main(): " + kind + " { return " + expression + " }")


def tokens(kind, expression):
    """A script of one statement that imports the token."""
    return script("import Token from 0x1\naccess(all) fun main(): " + kind + " { return " + expression + " }")


# ---- replies


def account(number):
    return f'{{"address":"0x{number:016x}","reply":"ok"}}'


def result(kind, of):
    return f'{{"reply":"ok","result":{{"type":"{kind}","value":{json.dumps(of, separators=(",", ":"))}}}}}'


def done(made="", destroyed="", events=""):
    return f'{{"destroyed":[{destroyed}],"events":[{events}],"made":[{made}],"reply":"ok"}}'


def rejected(at, within, phase):
    return f'{{"at":"{at}","in":"{within}","phase":"{phase}","reply":"rejected"}}'


def failed(number):
    return f'{{"error":"{number}","reply":"failed"}}'


def bad(number):
    return f'{{"error":"{number}","reply":"bad"}}'


TRUE, FALSE, LIMIT = result("Bool", True), result("Bool", False), '{"reply":"limit"}'


# ---- numbers and texts


def numbers():
    sum_of = "access(all) fun main(): %s { let a: %s = %s; return a + 1 }"
    yield "a sum over the greatest Int8", [(script(sum_of % ("Int8", "Int8", "127")), failed(101))]
    yield "a sum of words wraps", [(script(sum_of % ("Word8", "Word8", "255")), result("Word8", "0"))]
    yield "a product is cut behind its eighth decimal", [(gives("UFix64", "0.00000001 * 0.5"), result("UFix64", "0.00000000"))]
    greatest = "340282366920938463463374607431768211455"
    yield "the greatest whole literal", [(gives("UInt", greatest), result("UInt", greatest))]
    yield "a literal above it", [(gives("UInt", greatest[:-1] + "6"), rejected(38, "", "lex"))]
    yield "a sum over the greatest Int", [(gives("Int", "170141183460469231731687303715884105727 + 1"), failed(101))]
    least = "access(all) fun main(): Int8 { let a: Int8 = -128; return a }"
    yield "a literal with its sign is the least Int8", [(script(least), result("Int8", "-128"))]


def texts():
    yield "texts are equal by their composed form", [(gives("Bool", r'"\u{65}\u{301}" == "\u{E9}"'), TRUE)]
    for text in (r'"\u{65}\u{301}"', r'"\u{E9}"'):
        yield f"{text} has one character", [(gives("Int", text + ".length"), result("Int", "1"))]
    yield "what is no hexadecimal", [(gives("[UInt8]", '"zz".decodeHex()'), failed(122))]
    yield "a slice past the end", [(gives("String", '"abc".slice(from: 1, upTo: 4)'), failed(105))]
    yield "two texts in one", [(gives("String", '"a".concat("b")'), result("String", "ab"))]
    yield "a byte in hexadecimal", [(gives("String", "String.encodeHex([255])"), result("String", "ff"))]
    yield "a text below another", [(gives("Bool", '"a" < "b"'), TRUE)]


def containers():
    yield "a value under its key", [(gives("Int", '{"a": 1}["a"]!'), result("Int", "1"))]
    same = "access(all) fun main(): Int { var a = [1, 2]; a[0] <-> a[0]; return a[0] }"
    yield "a swap of a place with itself", [(script(same), result("Int", "1"))]
    wider = 'access(all) fun main() { let a: [Int] = [1, 2]; let b: [AnyStruct] = a; b.append("x") }'
    yield "a copy in a wider place keeps its element type", [(script(wider), failed(129))]


# ---- lines that ask for nothing, and bounds on a run


SEVEN = gives("Int", "1 + 2 * 3")


def requests():
    yield "no JSON, no kind, another kind, no code", [
        ("hello\n", bad(21)),
        ("{}\n", bad(22)),
        ('{"kind":"dance"}\n', bad(23)),
        ('{"kind":"script"}\n', bad(22)),
    ]
    yield "no line feed behind the last line", [(json.dumps(SEVEN), result("Int", "7"))]
    yield "blank lines have no reply", [("\n", None), (" \t\r\n", None), (SEVEN, result("Int", "7"))]
    endless = "access(all) fun main() { while true {} }"
    yield "five units of an endless loop", [(script(endless, limit=5), LIMIT)]
    yield "a limit of no unit", [(script(endless, limit=0), bad(28))]
    yield "an argument and no parameter", [(script(SEVEN["code"], value("Int", "1")), bad(25))]
    same = "access(all) fun main(a: Address): Address { return a }"
    yield "an address without 0x", [(script(same, value("Address", "1")), bad(24))]
    turned = script(same, {"value": "0x1", "type": "Address"})
    yield "an argument with its type behind its value", [(turned, result("Address", "0x0000000000000001"))]
    one = "transaction { prepare(a: &Account) {} }"
    yield "a signer without an account", [(transaction(one, "0x9"), bad(26))]
    yield "no signer for a prepare with one", [(transaction(one), bad(26))]


# ---- the token: an account with 1000.0, and one that gets 10.5 of it


BALANCE = tokens("UFix64", "getAccount(0x2).capabilities.borrow<&Token.Vault>(/public/token)!.balance")
MOVED = (
    '{"type":"Event","value":{"fields":[{"name":"id","value":{"type":"UInt64","value":"2"}},'
    '{"name":"amount","value":{"type":"UFix64","value":"10.50000000"}}],"id":"A.0000000000000001.Token.Moved"}}'
)
SENT = [
    (ACCOUNT, account(1)),
    (ACCOUNT, account(2)),
    (deploy("Token", TOKEN), done('"1"')),
    (transaction(SETUP, "0x2"), done('"2"')),
    (transaction(PUBLISH, "0x2"), done()),
    (transaction(TRANSFER, "0x1", arguments=[value("UFix64", "10.5"), value("Address", "0x2")]), done('"3"', '"3"', MOVED)),
    (BALANCE, result("UFix64", "10.50000000")),
]


def token():
    yield "a token is sent", SENT
    main = "import Token from 0x1\naccess(all) fun main(c: Bool) {\n%s\n}"
    lost = script(main % "let v <- Token.empty()\nif c { destroy v }", value("Bool", True))
    yield "a vault that one branch loses", [*SENT, (lost, rejected(0, "main", "moves"))]
    twice = script(main % "let v <- Token.empty()\nwhile c { destroy v }\ndestroy v", value("Bool", True))
    yield "a vault that a loop destroys in its second turn", [*SENT, (twice, rejected(2, "main", "moves"))]
    stopped = """import Token from 0x1
    transaction { prepare(a: auth(SaveValue) &Account) {
      let v <- Token.empty()
      let w <- Token.empty()
      a.storage.save(<-v, to: /storage/x)
      panic("stop") } }"""
    yield "a failed transaction takes no identities", [
        *SENT,
        (transaction(stopped, "0x2"), failed(109)),
        (gives("Bool", "getAccount(0x2).storage.type(at: /storage/x) == nil"), TRUE),
        (ACCOUNT, account(3)),
        (transaction(SETUP, "0x3"), done('"4"')),
    ]
    again = [(transaction(SETUP, "0x2"), failed(111)), (BALANCE, result("UFix64", "10.50000000"))]
    yield "a second vault on the same path", [*SENT, *again]


# ---- capabilities and their controllers, over the token


def capabilities():
    more = "getAccount(0x2).capabilities.get<auth(Token.Withdraw) &Token.Vault>(/public/token)"
    yield "more rights than are published", [
        *SENT,
        (tokens("UInt64", more + ".id"), result("UInt64", "0")),
        (tokens("Bool", more + ".borrow() == nil"), TRUE),
    ]
    published = "getAccount(0x2).capabilities.get<&Token.Vault>(/public/token)"
    controller = "let c = a.capabilities.storage.getController(byCapabilityID: 1)!\n"
    yield "the controller is deleted", [
        *SENT,
        (tokens("Bool", published + ".check()"), TRUE),
        (prepared(controller + "c.delete()", "0x2"), done()),
        (tokens("Bool", published + ".check()"), FALSE),
    ]
    yield "the controller is turned to an Int", [
        *SENT,
        (tokens("Bool", published + ".borrow() == nil"), FALSE),
        (prepared(controller + "a.storage.save(7, to: /storage/n)\nc.retarget(/storage/n)", "0x2"), done()),
        (tokens("Bool", published + ".borrow() == nil"), TRUE),
    ]
    asked = """import Token from 0x1
    transaction { prepare(a: auth(GetStorageCapabilityController, UnpublishCapability) &Account) {
      let c = a.capabilities.storage.getController(byCapabilityID: 1)!
      assert(c.capabilityID == 1 && c.tag == "")
      c.setTag("shop")
      assert(c.tag == "shop")
      assert(a.capabilities.unpublish(/public/token)!.id == 1)
      assert(!a.capabilities.exists(/public/token))
      assert(a.storage.check<@Token.Vault>(from: /storage/token))
      assert(a.storage.type(at: /storage/token)! == Type<@Token.Vault>()) } }"""
    yield "a controller by its number, a tag, what is published and stored", [*SENT, (transaction(asked, "0x2"), done())]


# ---- references


NEST = """access(all) contract Nest {
  access(all) resource Inner {
    access(all) let n: Int
    init() { self.n = 1 }
  }
  access(all) resource Outer {
    access(all) let m: Int
    access(all) let inner: @Inner
    init() {
      self.m = 2
      self.inner <- create Inner()
    }
  }
  access(all) fun make(): @Outer { return <-create Outer() }
}"""
TURNED = """import Nest from 0x1
transaction { prepare(a: auth(Storage) &Account) {
  let o = a.storage.borrow<&Nest.Outer>(from: /storage/outer)!
  let i = o.inner
  assert(i.n == 1)
  let outer <- a.storage.load<@Nest.Outer>(from: /storage/outer)!
  a.storage.save(<-outer, to: /storage/outer)
  assert(o.m == 2)
  %s } }"""
GATE = """access(all) contract Gate {
  access(all) entitlement E
  access(all) entitlement F
  access(all) resource R {
    access(E) fun one(): Int { return 1 }
    access(E | F) fun either(): Int { return 2 }
  }
  access(all) fun make(): @R { return <-create R() }
}"""
EITHER = """import Gate from 0x1
access(all) fun main(): Int {
  let r <- Gate.make()
  let f = &r as auth(Gate.E | Gate.F) &Gate.R
  let n = f.%s()
  destroy r
  return n
}"""
RETYPED = """a.storage.save(1, to: /storage/x)
let r = a.storage.borrow<&AnyStruct>(from: /storage/x)!
let s = r as! &Int
a.storage.load<Int>(from: /storage/x)
a.storage.save("t", to: /storage/x)
assert(r.isInstance(Type<String>()))
"""


def references():
    stored = "import Nest from 0x1\ntransaction { prepare(a: auth(Storage) &Account) {\na.storage.save(<-Nest.make(), to: /storage/outer) } }"
    nest = [(ACCOUNT, account(1)), (deploy("Nest", NEST), done()), (transaction(stored, "0x1"), done('"1","2"'))]
    yield "a stored reference serves after its resource came back", [*nest, (transaction(TURNED % "", "0x1"), done())]
    yield "a reference to a resource inside doesn't serve after that", [*nest, (transaction(TURNED % "let n = i.n", "0x1"), failed(113))]
    gate = [(ACCOUNT, account(1)), (deploy("Gate", GATE), done())]
    yield "one of two rights isn't the first of them", [*gate, (script(EITHER % "one"), rejected(2, "main", "types"))]
    yield "one of two rights is enough for either", [*gate, (script(EITHER % "either"), result("Int", "2"))]
    first = [(ACCOUNT, account(1))]
    yield "a stored reference to AnyStruct serves what came to its path", [*first, (prepared(RETYPED, "0x1"), done())]
    yield "a reference cast to Int doesn't serve a text at its path", [*first, (prepared(RETYPED + "let n = *s", "0x1"), failed(114))]
    kept = "let n = 1\nlet f: AnyStruct = &n as &Int\na.storage.save(f, to: /storage/f)"
    yield "a reference that is saved", [*first, (prepared(kept, "0x1"), failed(133))]
    yield "a type as a result", [(gives("AnyStruct", "Type<Int>()"), failed(134))]


# ---- accounts: each program reaches others than those that sign


SHARE = """a.storage.save(%d, to: /storage/n)
a.capabilities.publish(a.capabilities.storage.issue<&Int>(/storage/n), at: /public/n)"""
LIST = """a.storage.save([0], to: /storage/all)
a.capabilities.publish(a.capabilities.storage.issue<auth(Mutate) &[Int]>(/storage/all), at: /public/all)"""


def shared(count):
    """So many accounts, each of which publishes its own number."""
    yield from [(ACCOUNT, account(n)) for n in range(1, count + 1)]
    yield from [(prepared(SHARE % n, hex(n)), done()) for n in range(1, count + 1)]


def listed(count):
    """So many accounts, each of which publishes a list that holds 0, to which everybody may append."""
    yield from [(ACCOUNT, account(n)) for n in range(1, count + 1)]
    yield from [(prepared(LIST, hex(n)), done()) for n in range(1, count + 1)]


def addresses(last):
    return "[" + ", ".join(hex(n) for n in range(1, last + 1)) + "]"


def total(last):
    """A script: the sum of what the accounts up to this one publish, where they are there and publish a number."""
    return script(
        "access(all) fun main(): Int { let all: [Address] = " + addresses(last) + "\nvar sum = 0\nfor each in all {"
        " if let n = getAccount(each).capabilities.borrow<&Int>(/public/n) { sum = sum + *n } }\nreturn sum }"
    )


def appended(last, what, *signers, end=""):
    """A transaction that appends a number to the lists of the accounts up to this one, and then ends so."""
    given = ", ".join(f"a{n}: &Account" for n in range(len(signers)))
    code = "transaction { " + (f"prepare({given}) {{}} " if signers else "") + "execute { let all: [Address] = " + addresses(last) + "\nfor each in all {"
    code += f" getAccount(each).capabilities.borrow<auth(Mutate) &[Int]>(/public/all)!.append({what}) }}\n{end} }} }}"
    return transaction(code, *signers)


def lists(last):
    """A script: the last numbers of the lists of the accounts up to this one, one behind the other, and how many there are in all."""
    return script(
        "access(all) fun main(): String { let all: [Address] = " + addresses(last) + "\nvar text = \"\"\nvar count = 0\nfor each in all {"
        " let list = getAccount(each).capabilities.borrow<&[Int]>(/public/all)!\ncount = count + list.length\n"
        "text = text.concat(list[list.length - 1].toString()).concat(\" \") }\nreturn text.concat(count.toString()) }"
    )


def told(*numbers):
    return result("String", " ".join(map(str, numbers)))


NOWHERE = """access(all) fun main(): Bool {
  let a = getAccount(%s)
  let c = a.capabilities.get<&Int>(/public/n)
  assert(a.address == %s && c.address == %s && c.id == 0)
  assert(a.storage.type(at: /storage/n) == nil && !a.storage.check<Int>(from: /storage/n))
  assert(!a.capabilities.exists(/public/n) && a.capabilities.borrow<&Int>(/public/n) == nil)
  return c.borrow() == nil && !c.check()
}"""
BOX = """access(all) contract Box {
  access(all) fun put(_ n: Int) {
    let old = self.account.storage.load<Int>(from: /storage/n) ?? 0
    self.account.storage.save(old + n, to: /storage/n)
  }
  access(all) fun get(): Int? { return self.account.storage.copy<Int>(from: /storage/n) }
}"""
TAKE = """let v <- b.storage.load<@Token.Vault>(from: /storage/token)!
a.storage.save(<-v, to: /storage/other)"""
OWNER = "getAccount(%s).capabilities.borrow<&Token.Vault>(/public/token)!.owner!.address"


def both(code, *signers, before=""):
    """A transaction whose prepare has all rights on two accounts."""
    return transaction(before + "transaction { prepare(a: auth(Storage) &Account, b: auth(Storage) &Account) {\n" + code + "\n} }", *signers)


def accounts():
    for number in "0x0", "0x3", "0xffffffffffffffff":
        yield f"an account that isn't there looks empty: {number}", [*shared(2), (script(NOWHERE % (number, number, number)), TRUE)]
    sums = (2, 3), (15, 120), (16, 136), (17, 153), (20, 210), (25, 210)
    yield "what the first of 20 accounts publish", [*shared(20), *[(total(last), result("Int", str(sum_of))) for last, sum_of in sums]]
    reached = "access(all) fun main(): Bool { return getAccount(0x1).capabilities.exists(/public/n) && getAccount(0x2).capabilities.exists(/public/n) }"
    yield "units are those of one run, however often it begins", [*shared(2), (script(reached, limit=5), LIMIT), (script(reached, limit=6), TRUE)]
    yield "transactions that nobody or others sign change up to 18 accounts", [
        *listed(18),
        (appended(18, 1), done()),
        (lists(18), told(*[1] * 18, 36)),
        (appended(17, 2), done()),
        (lists(18), told(*[2] * 17, 1, 53)),
        (appended(16, 3, "0x11"), done()),
        (lists(18), told(*[3] * 16, 2, 1, 69)),
        (appended(2, 4, "0x5", "0x12"), done()),
        (lists(18), told(4, 4, *[3] * 14, 2, 1, 71)),
        (appended(1, 5), done()),
        (lists(18), told(5, 4, *[3] * 14, 2, 1, 72)),
    ]
    stopped = appended(3, 7, "0x1", end='panic("stop")')
    yield "a transaction that fails changes none of the accounts that it reached", [
        *listed(3),
        (stopped, failed(109)),
        (lists(3), told(0, 0, 0, 3)),
        (appended(4, 7), failed(106)),
        (lists(3), told(0, 0, 0, 3)),
    ]
    names = [f"a{n}" for n in range(1, 19)]
    given = ", ".join(f"{name}: auth(Storage) &Account" for name in names)
    loaded = " + ".join(f"{name}.storage.load<Int>(from: /storage/n)!" for name in names)
    gathered = "transaction { prepare(" + given + ") { a18.storage.save(" + loaded + ", to: /storage/n) } }"
    signers = [hex(n) for n in range(1, 19)]
    yield "18 signers", [
        *shared(20),
        (transaction(gathered, *signers), done()),
        (total(17), result("Int", "0")),
        (total(18), result("Int", "171")),
        (transaction(gathered, *signers), failed(106)),
        (total(20), result("Int", "210")),
        (transaction(gathered, *signers[:-1]), bad(26)),
        (transaction(gathered, *signers[:-1], "0x15"), bad(26)),
    ]
    yield "an account that signs twice, or more often than there are parameters", [
        *shared(1),
        (transaction("transaction { prepare(a: &Account) {} }", *["0x1"] * 100000), bad(26)),
        (both("a.storage.save(5, to: /storage/m)\nassert(b.storage.load<Int>(from: /storage/m)! == 5)", "0x1", "0x1"), done()),
        (gives("Bool", "getAccount(0x1).storage.type(at: /storage/m) == nil"), TRUE),
    ]
    kept = "a.storage.save(getAccount(0x2).capabilities.get<&Int>(/public/n), to: /storage/c)"
    lent = "let c = a.storage.copy<Capability<&Int>>(from: /storage/c)!\n%s"
    gone = "a.capabilities.storage.getController(byCapabilityID: 1)!.delete()"
    yield "a capability of another account, stored, used and taken back", [
        *shared(3),
        (prepared(kept, "0x3"), done()),
        (prepared(lent % "assert(c.address == 0x2 && c.id == 1 && c.check() && *(c.borrow()!) == 2)", "0x3"), done()),
        (prepared(lent % "a.capabilities.publish(c, at: /public/c)", "0x3"), failed(117)),
        (prepared(gone, "0x2"), done()),
        (prepared(lent % "assert(c.address == 0x2 && c.id == 1 && !c.check() && c.borrow() == nil)", "0x3"), done()),
        (total(3), result("Int", "4")),
    ]
    put = "import Box from 0x1\ntransaction { prepare(a: &Account) { Box.put(%d) } }"
    get = script("import Box from 0x1\naccess(all) fun main(): Int? { return Box.get() }")
    some = '{"reply":"ok","result":{"type":"Optional","value":{"type":"Int","value":"%d"}}}'
    yield "a contract stores in its account, whoever signs", [
        (ACCOUNT, account(1)),
        (ACCOUNT, account(2)),
        (deploy("Box", BOX), done()),
        (get, '{"reply":"ok","result":{"type":"Optional","value":null}}'),
        (transaction(put % 3, "0x2"), done()),
        (transaction(put % 4, "0x1"), done()),
        (get, some % 7),
        (gives("Bool", "getAccount(0x2).storage.type(at: /storage/n) == nil"), TRUE),
    ]
    seven = 'a.contracts.add(name: "Seven", code: "access(all) contract Seven { access(all) fun n(): Int { return 7 } }".utf8)'
    adds = "transaction { prepare(a: auth(Contracts) &Account) {\n" + seven + "\n} execute { let all: [Address] = " + addresses(3)
    adds += "\nfor each in all { getAccount(each).capabilities.borrow<auth(Mutate) &[Int]>(/public/all)!.append(9) }%s } }"
    use = script("import Seven from 0x2\naccess(all) fun main(): Int { return Seven.n() }")
    yield "a contract is added by a transaction that reaches other accounts", [
        *listed(3),
        (transaction(adds % '\npanic("stop")', "0x2"), failed(109)),
        (use, rejected(0, "Seven", "resolve")),
        (lists(3), told(0, 0, 0, 3)),
        (transaction(adds % "", "0x2"), done()),
        (use, result("Int", "7")),
        (lists(3), told(9, 9, 9, 6)),
        (transaction(adds % "", "0x2"), failed(118)),
        (lists(3), told(9, 9, 9, 6)),
    ]
    yield "a vault goes from one account to another", [
        *SENT,
        (tokens("Address", OWNER % "0x2"), result("Address", "0x0000000000000002")),
        (ACCOUNT, account(3)),
        (both(TAKE, "0x3", "0x2", before="import Token from 0x1\n"), done()),
        (gives("Bool", "getAccount(0x2).storage.type(at: /storage/token) == nil"), TRUE),
        (tokens("Bool", "getAccount(0x2).capabilities.borrow<&Token.Vault>(/public/token) == nil"), TRUE),
        (tokens("Bool", "getAccount(0x3).storage.check<@Token.Vault>(from: /storage/other)"), TRUE),
        (transaction(SETUP, "0x3"), done('"4"')),
        (transaction(PUBLISH, "0x3"), done()),
        (tokens("Address", OWNER % "0x3"), result("Address", "0x0000000000000003")),
        (transaction(TRANSFER, "0x1", arguments=[value("UFix64", "1.0"), value("Address", "0x2")]), failed(109)),
        (transaction(TRANSFER, "0x1", arguments=[value("UFix64", "1.0"), value("Address", "0x4")]), failed(109)),
        (transaction(SETUP, "0x2"), done('"5"')),
        (tokens("Address", OWNER % "0x2"), result("Address", "0x0000000000000002")),
    ]


# ---- contracts


KNOT = """access(all) contract Knot {
  access(all) resource R {
    access(all) var child: @R?
    init() { self.child <- nil }
    access(all) fun %s
  }
  access(all) fun make(): @R { return <-create R() }
}"""
TIED = """import Knot from 0x1
transaction { execute {
  let a <- Knot.make()
  let b <- Knot.make()
  a.tie(r: <-b)
  destroy a } }"""
ADDED = """access(all) contract C {
  init() { self.account.contracts.add(name: "C", code: "access(all) contract C {}".utf8) }
}"""
UNSET = """access(all) contract D {
  access(all) let n: Int
  access(all) struct S {
    access(all) let m: Int
    init() { self.m = D.n }
  }
  init() {
    %s
  }
}"""


def contracts():
    first = [(ACCOUNT, account(1))]
    moved = KNOT % "knot(r: @R) { let c <- r; r.child <-! c }"
    yield "a place in what was moved", [*first, (deploy("Knot", moved), rejected(1, "Knot.R.knot", "moves"))]
    tie = KNOT % "tie(r: @R) { r.child <-! r }"
    yield "a resource into itself", [*first, (deploy("Knot", tie), done()), (transaction(TIED), failed(113))]
    yield "a contract that adds itself", [*first, (deploy("C", ADDED), failed(118))]
    yield "a field before it was set", [
        *first,
        (deploy("D", UNSET % "let s = S(); self.n = 1"), failed(132)),
        (deploy("D", UNSET % "self.n = 1; let s = S()"), done()),
    ]


# ---- runs


def difference(program, folder, pairs):
    """What is wrong where these lines run in one run over the folder; nothing where all is as it has to be."""
    text = "".join(line if isinstance(line, str) else json.dumps(line) + "\n" for line, _ in pairs)
    wanted = "".join(reply + "\n" for _, reply in pairs if reply).encode()
    ran = subprocess.run([program, "run", folder], input=text.encode(), capture_output=True, timeout=600)
    if (ran.returncode, ran.stdout, ran.stderr) == (0, wanted, b""):
        return None
    first = next((pair for pair in itertools.zip_longest(ran.stdout.splitlines(True), wanted.splitlines(True)) if pair[0] != pair[1]), None)
    return f"status {ran.returncode}, {ran.stderr!r} on standard error, first difference and what is wanted: {first}"


def differences(program, pairs):
    """What is wrong with a session: in one run, and with a run for each line."""
    for runs in [pairs], [[pair] for pair in pairs]:
        with tempfile.TemporaryDirectory() as folder:
            for run in runs:
                wrong = difference(program, folder, run)
                if wrong:
                    yield wrong
                    break


def main():
    if len(sys.argv) != 2:
        sys.exit(__doc__)
    program = str(pathlib.Path(sys.argv[1]).resolve())
    tried, wrong = 0, 0
    for part in numbers, texts, containers, requests, token, capabilities, references, accounts, contracts:
        for what, pairs in part():
            tried += 1
            found = list(differences(program, pairs))
            wrong += bool(found)
            for line in found:
                print(f"{what}: {line}")
    print(f"worked: {tried} sessions, {wrong} wrong")
    sys.exit(1 if wrong else 0)


if __name__ == "__main__":
    main()
