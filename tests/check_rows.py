#!/usr/bin/env python3
"""Gives cadence_check rows of small programs: where fields are set and used, which names are there, which interfaces are met. Each
is accepted, or refused in a phase, in a declaration or function, at the number of a statement. The expected places are those of the
language's definition and of docs/ERRORS.md; none was taken from a program.

    tests/check_rows.py PROGRAM           PROGRAM is cadence_check
"""
import json
import pathlib
import subprocess
import sys

# ---- rows: what is asked, and the reply


def compact(value):
    """A value as the program writes it: compact JSON with its keys in byte order."""
    return json.dumps(value, ensure_ascii=False, separators=(",", ":"), sort_keys=True)


def contract(code, name="A"):
    """A contract of account 0x1."""
    return {"address": "0x1", "name": name, "code": code}


def script(code, *beside):
    return {"kind": "script", "code": code, "contracts": list(beside)}


def transaction(code, *beside):
    return {"kind": "transaction", "code": code, "contracts": list(beside)}


def deployed(code, *beside, name="C"):
    return {"kind": "contract", **contract(code, name), "contracts": list(beside)}


def accepted(asked):
    return asked, {"reply": "accepted"}


def refused(asked, phase, inside, at=0):
    return asked, {"reply": "rejected", "phase": phase, "in": inside, "at": str(at)}


def unresolved(asked, inside, at=0):
    return refused(asked, "resolve", inside, at)


# ---- fields

# What sets the field `n`, what uses it, and what ends a path.
SET, USE, RETURN = "self.n = 1", "self.n", "return"

# Statements of an initializer, and the number of the one at which the field is misused: that of the statements where a path ends
# without it.
OF_LET = [
    ([SET, USE], None),
    ([], 0),
    ([USE, SET], 0),
    ([SET, USE, SET], 2),
    ([RETURN, SET], 2),
]
OF_VAR = [([SET, USE, SET], None)]

# What sets a field `n`, with the names by which it is told.
SETTERS = {
    "C.init": "access(all) contract C { access(all) %s n: Int\ninit() {\n%s\n} }",
    "C.S.init": "access(all) contract C { access(all) struct S { access(all) %s n: Int\ninit() {\n%s\n} } }",
    "C.R.init": "access(all) contract C { access(all) resource R { access(all) %s n: Int\ninit() {\n%s\n} } }",
}
PREPARE = "transaction { %s n: Int\nprepare() {\n%s\n} }"


def misused(asked, inside, at):
    """A row of a program in which a field is misused at a statement, if it is."""
    return accepted(asked) if at is None else refused(asked, "initialisation", inside, at)


def of_fields():
    """Rows of a field that each kind of setter sets."""
    for variable, cases in (("let", OF_LET), ("var", OF_VAR)):
        for statements, at in cases:
            for inside, code in SETTERS.items():
                yield misused(deployed(code % (variable, "\n".join(statements))), inside, at)
    for statements, at in OF_LET:
        yield misused(transaction(PREPARE % ("let", "\n".join(statements))), "prepare", at)


# A resource with a field of each kind, what sets each of them, and whether that may be done but once.
FIELDS = """access(all) contract C { access(all) resource Q {}
access(all) resource R { access(all) let a: Int
access(all) var b: Int
access(all) var c: @AnyResource
init() {
%s
} } }"""
SETTINGS = [("self.a = 1", True), ("self.b = 1", False), ("self.c <- create Q()", True)]


def setting(statements, at):
    return misused(deployed(FIELDS % "\n".join(statements)), "C.R.init", at)


def of_settings():
    """Rows of the three fields: all set, each left out, and each set again."""
    whole = [statement for statement, is_once in SETTINGS]
    yield setting(whole, None)
    for number, (again, is_once) in enumerate(SETTINGS):
        yield setting(whole[:number] + whole[number + 1 :], len(whole) - 1)
        yield setting([*whole, again], len(whole) if is_once else None)
    # the fields of one type are none of another
    for inner in ("", "init() {}"):
        for own in ("let n: Int\ninit() { self.n = 1 }", "fun f() {}"):
            yield accepted(deployed(f"access(all) contract C {{ access(all) struct T {{ {inner} }}\naccess(all) {own} }}"))


# ---- declarations

# A contract with a function.
A = contract("access(all) contract A { access(all) fun f() {} }")

PLACES = [
    unresolved(script("access(all) contract C {}"), "C"),
    unresolved(deployed("access(all) fun f() {}"), "f"),
    unresolved(deployed("access(all) contract C {}\naccess(all) contract D {}"), "D"),
    unresolved(deployed("access(all) contract C {}\ntransaction {}"), "transaction"),
]

DOUBLED = [
    unresolved(script("access(all) fun main() {}\naccess(all) fun f() {}\naccess(all) fun f() {}"), "f"),
    unresolved(deployed("""access(all) contract C {
access(all) struct S {
access(all) fun f() {}
access(all) fun f() {}
}
}"""), "C.S.f"),
    unresolved(transaction("transaction { let a: Int\nlet a: Int\nprepare() { self.a = 1 } }"), "transaction"),
    unresolved(deployed("""access(all) contract C {
access(all) enum E: Int { access(all) case a
access(all) case a }
}"""), "C.E"),
]

MISSING = [
    unresolved(script("access(all) fun main() {\nif true {\nlet a = 1\nlet x: [Nope] = []\n}\n}"), "main", 2),
    unresolved(transaction("transaction { execute { let a = 1\nlet b: Nope = 2 } }"), "execute", 1),
    unresolved(transaction("transaction { prepare(a: Nope) {} }"), "prepare"),
    unresolved(deployed("""access(all) contract C {
access(all) fun f() { let x: Nope = 1 }
access(all) let a: Nope
init() {}
}"""), "C"),
]

INTERFACES = [
    unresolved(deployed("""access(all) contract C {
access(all) struct interface K: I {}
access(all) struct interface I: J {}
access(all) struct interface J: I {}
}"""), "C.I"),
    unresolved(deployed("""access(all) contract C {
access(all) struct interface I {}
access(all) resource interface J: I {}
}"""), "C.J"),
    unresolved(deployed("""access(all) contract C {
access(all) entitlement E
access(all) entitlement mapping M { E -> Nope }
}"""), "C.M"),
]

# A contract that imports `A`, and one of the name `A` that imports it.
B = contract("import A from 0x1\naccess(all) contract B { access(all) fun f() { A.f() } }", "B")
CIRCLE = "import B from 0x1\naccess(all) contract A {}"

IMPORTS = [
    unresolved(script("import A, Nope from 0x1\naccess(all) fun main() {}", A), "Nope"),
    unresolved(script("import A from 0x1\nimport A from 0x1\naccess(all) fun main() {}", A), "A"),
    unresolved(script("import A from 0x10000000000000001\naccess(all) fun main() {}", A), "A"),
    unresolved(deployed(CIRCLE, A, B, name="A"), "B"),
]

# A contract with each kind of declaration.
ALL = contract("""access(all) contract A {
access(all) entitlement E
access(all) entitlement mapping M { E -> E }
access(all) struct interface I {}
access(all) resource R { access(mapping M) let s: S
event ResourceDestroyed()
init() { self.s = S() } }
access(all) struct S: I { access(E) fun f() {} }
access(all) enum C: UInt8 { access(all) case red }
access(all) event Ev(a: Int)
}""")


ACCEPTED = [
    accepted(deployed(ALL["code"], name="A")),
    accepted(script("import A from 0x1\naccess(all) fun main() { let x: A.S? = nil\nlet y: {A.I}? = nil }", ALL)),
    unresolved(script("import A from 0x1\naccess(all) fun main() {\nlet x: A.I? = nil\n}", ALL), "main"),
    accepted(transaction("transaction {}")),
]

# ---- a token, under the name that the other programs here import

TOKEN = contract("""access(all) contract A {
  access(all) entitlement Withdraw
  access(all) event Moved(id: UInt64, amount: UFix64)
  access(all) var supply: UFix64
  access(all) resource interface Receiver {
    access(all) fun deposit(from: @Vault)
  }
  access(all) resource Vault: Receiver {
    access(all) var balance: UFix64
    init(balance: UFix64) { self.balance = balance }
    access(Withdraw) fun withdraw(amount: UFix64): @Vault {
      pre { self.balance >= amount: "too little" }
      self.balance = self.balance - amount
      return <-create Vault(balance: amount)
    }
    access(all) fun deposit(from: @Vault) {
      self.balance = self.balance + from.balance
      emit Moved(id: self.uuid, amount: from.balance)
      destroy from
    }
  }
  access(all) fun empty(): @Vault { return <-create Vault(balance: 0.0) }
  init() {
    self.supply = 1000.0
    self.account.storage.save(<-create Vault(balance: 1000.0), to: /storage/token)
  }
}""")

SETUP = """import A from 0x1
transaction { prepare(a: auth(SaveValue) &Account) {
  a.storage.save(<-A.empty(), to: /storage/token) } }"""

PUBLISH = """import A from 0x1
transaction { prepare(a: auth(IssueStorageCapabilityController, PublishCapability) &Account) {
  let c = a.capabilities.storage.issue<&A.Vault>(/storage/token)
  a.capabilities.publish(c, at: /public/token) } }"""

TRANSFER = """import A from 0x1
transaction(amount: UFix64, to: Address) {
  let vault: @A.Vault
  prepare(a: auth(BorrowValue) &Account) {
    let own = a.storage.borrow<auth(A.Withdraw) &A.Vault>(from: /storage/token) ?? panic("none")
    self.vault <- own.withdraw(amount: amount)
  }
  execute {
    let into = getAccount(to).capabilities.borrow<&A.Vault>(/public/token) ?? panic("none")
    into.deposit(from: <-self.vault)
  }
}"""

OF_TOKEN = [
    accepted(deployed(TOKEN["code"], name="A")),
    accepted(transaction(SETUP, TOKEN)),
    accepted(transaction(PUBLISH, TOKEN)),
    accepted(transaction(TRANSFER, TOKEN)),
]

# ---- types, and what else is declared, which is no type


def named(beside, written):
    """A script with a variable of a type, which is nil."""
    sign = "<-" if written.startswith("@") else "="
    end = "destroy x" if written.startswith("@") else ""
    return script(f"import A from 0x1\naccess(all) fun main() {{\nlet x: {written} {sign} nil\n{end}\n}}", beside)


DESTROYED = "event ResourceDestroyed()\n"


def of_types():
    """Rows of all types that two contracts declare, and of other names."""
    for written in ("A?", "{A.I}?", "@A.R?", "A.S?", "A.C?", "A.Ev?"):
        yield accepted(named(ALL, written))
    for written in ("A.E?", "A.M?", "A.I?", "A.R.ResourceDestroyed?", "A.red?"):
        yield unresolved(named(ALL, written), "main")
    twice = ALL["code"].replace(DESTROYED, DESTROYED + DESTROYED)
    yield unresolved(deployed(twice, name="A"), "A.R.ResourceDestroyed")
    for written in ("A?", "A.Moved?", "@{A.Receiver}?", "@A.Vault?"):
        yield accepted(named(TOKEN, written))
    for written in ("A.Withdraw?", "A.supply?", "A.empty?"):
        yield unresolved(named(TOKEN, written), "main")


# ---- defaults of interfaces

# Two interfaces that have a third one's default.
DIAMOND = """access(all) contract A {
access(all) struct interface D { access(all) fun f() { log(1) } }
access(all) struct interface I: D {}
access(all) struct interface J: D {}
access(all) struct S: I, J {}
}"""

# Two interfaces with a default each.
TWO = """access(all) contract A {
access(all) struct interface I { access(all) fun f() { log(1) } }
access(all) struct interface J { access(all) fun f() { log(2) } }
access(all) struct S: I, J {}
}"""

DEFAULTS = [
    accepted(deployed(DIAMOND, name="A")),
    refused(deployed(TWO, name="A"), "conformance", "A.S"),
]

ROWS = {
    "fields are set once and before use": list(of_fields()),
    "let fields and resources are set once": list(of_settings()),
    "declarations have their places": PLACES,
    "names are new": DOUBLED,
    "types are there": MISSING,
    "interfaces are there": INTERFACES,
    "imports are there": IMPORTS,
    "types are named": list(of_types()),
    "programs are accepted": ACCEPTED,
    "a token is accepted": OF_TOKEN,
    "a default is inherited once": DEFAULTS,
}

# ---- what a program replies


def replies(program, lines):
    """The reply lines to lines, all in one run."""
    given = "".join(line + "\n" for line in lines)
    ran = subprocess.run([program], input=given.encode(), capture_output=True, timeout=600)
    said = ran.stdout.decode(errors="replace").split("\n")
    if ran.returncode or len(said) != len(lines) + 1 or said[-1]:
        sys.exit(f"check_rows: status {ran.returncode}, {len(said) - 1} replies to {len(lines)} lines: {ran.stderr.decode(errors='replace')}")
    return said[:-1]


def main():
    if len(sys.argv) != 2:
        sys.exit(__doc__)
    rows = [(kind, compact(asked), compact(reply)) for kind, all_rows in ROWS.items() for asked, reply in all_rows]
    said = replies(str(pathlib.Path(sys.argv[1]).resolve()), [line for _, line, _ in rows])
    faults = [f"{kind}: {line}\n  {got}, and not {wanted}" for (kind, line, wanted), got in zip(rows, said) if got != wanted]
    for fault in faults:
        print(fault)
    print(f"check_rows: {len(rows)} rows, {len(faults)} wrong")
    sys.exit(1 if faults else 0)


main()
