#!/usr/bin/env python3
"""Runs rows of statements over a contract `C` of account 0x1, each on a new folder: scripts, transactions of the accounts 0x1 and 0x2,
and what stands behind a transaction. The expected numbers and errors are those of the language's definition and of docs/ERRORS.md;
none was taken from a program.

    tests/rows.py PROGRAM
"""
import json
import subprocess
import sys
import tempfile

# The contract beside which scripts run.
OF_SCRIPTS = """access(all) contract C {
    access(all) entitlement E
    access(all) entitlement F
    access(all) event Told(n: Int)
    access(all) struct S {
        access(all) var n: Int
        init(n: Int) { self.n = n }
        access(all) fun set(n: Int) { self.n = n }
    }
    access(all) resource R {
        access(all) event ResourceDestroyed(n: Int = self.n)
        access(all) var n: Int
        access(all) var child: @R?
        init(n: Int) { self.n = n
            self.child <- nil }
        access(all) fun adopt(r: @R) { self.child <-! r }
        access(all) fun tie(r: @R) { r.child <-! r }
        access(E | F) fun either(): Int { return 2 }
        access(all) fun add(n: Int): Int {
            pre { n > 0: "no" }
            post { self.n == before(self.n) + n: "sum"
                result == self.n: "result" }
            self.n = self.n + (n == 5 ? 4 : n)
            return self.n
        }
    }
    access(all) resource Outer {
        access(all) event ResourceDestroyed(n: Int = self.n)
        access(all) let n: Int
        access(all) var inner: @R
        access(all) var more: @[R]
        access(all) var named: @{String: R}
        init(n: Int) { self.n = n
            self.inner <- create R(n: n + 1)
            self.more <- [<-create R(n: n + 2), <-create R(n: n + 3)]
            self.named <- {"z": <-create R(n: n + 4), "a": <-create R(n: n + 5)} }
    }
    access(all) fun make(n: Int): @R { return <-create R(n: n) }
    access(all) fun outer(n: Int): @Outer { return <-create Outer(n: n) }
    access(all) fun tell(n: Int) { emit Told(n: n) }
}
"""

# Functions beside `main`.
FUNCTIONS = """access(all) fun deep(n: Int): Int { if n == 0 { return 0 }
        return deep(n: n - 1) + 1 }
    access(all) fun more(x: Int): Int { pre { x > 0: "no" } post { result == before(x) + 1: "more" }
        return x == 7 ? 0 : x + 1 }
"""

# The contract beside which transactions run.
OF_TRANSACTIONS = """access(all) contract C {
    access(all) entitlement E
    access(all) entitlement F
    access(all) event Told(n: Int)
    access(all) struct S {
        access(all) var n: Int
        init(n: Int) { self.n = n }
        access(all) fun set(n: Int) { self.n = n }
    }
    access(all) resource R {
        access(all) var n: Int
        init(n: Int) { self.n = n }
        access(all) fun set(n: Int) { self.n = n }
        access(E) fun entitled(): Int { return self.n + 1 }
        access(all) fun place(): Address? { return self.owner?.address }
    }
    access(all) resource Outer {
        access(all) let n: Int
        access(all) var inner: @R
        access(all) var all: @[R]
        init(n: Int) { self.n = n
            self.inner <- create R(n: n + 1)
            self.all <- [<-create R(n: n + 2)] }
    }
    access(all) fun make(n: Int): @R { return <-create R(n: n) }
    access(all) fun outer(n: Int): @Outer { return <-create Outer(n: n) }
    access(all) fun tell(n: Int) { emit Told(n: n) }
    access(all) fun say(b: Bool) { emit Told(n: b ? 1 : 0) }
    access(all) fun keep(n: Int) { self.account.storage.save(n, to: /storage/kept) }
    access(all) fun replace(a: auth(Storage) &Account): Int { let x = a.storage.load<[Int]>(from: /storage/e)!
        a.storage.save([9], to: /storage/e)
        return 7 }
    access(all) fun take(a: auth(Storage) &Account): Int { let x = a.storage.load<[Int]>(from: /storage/e)!
        return 7 }
}
"""

# A transaction that issues a capability, publishes it, and stores it in another account too.
ISSUED = """
a.storage.save(<-C.make(n: 6), to: /storage/r)
let c = a.capabilities.storage.issue<&C.R>(/storage/r)
a.capabilities.storage.getController(byCapabilityID: 1)!.setTag("t")
a.capabilities.publish(c, at: /public/r)
b.storage.save(c, to: /storage/c)"""

TRANSACTION = """import C from 0x1
transaction { prepare(a: auth(Storage, Capabilities) &Account, b: auth(Storage, Capabilities) &Account) {
%s
} }"""

# ---- rows: the lines behind two accounts and the contract, and what the last one is to come to


def failed(number):
    return {"reply": "failed", "error": str(number)}


LIMIT = {"reply": "limit"}


def script(statements, functions="", **others):
    code = f"import C from 0x1\n{functions}\naccess(all) fun main(): Int {{\n{statements}\n}}"
    return {"kind": "script", "code": code, **others}


def transaction(statements, **others):
    return {"kind": "transaction", "code": TRANSACTION % statements, "signers": ["0x1", "0x2"], **others}


def of_script(statements, wanted, **others):
    return OF_SCRIPTS, [script(statements, FUNCTIONS, **others)], wanted


def of_ends(statements, events, destroyed):
    """A transaction of no account, the numbers of its events, and the identities that it destroys."""
    code = f"import C from 0x1\ntransaction {{ prepare() {{\n{statements}\n}} }}"
    return OF_SCRIPTS, [{"kind": "transaction", "code": code}], (events, destroyed)


def of_transaction(statements, wanted, **others):
    return OF_TRANSACTIONS, [transaction(statements, **others)], wanted


def behind(first, statements, wanted):
    return OF_TRANSACTIONS, [transaction(first), transaction(statements)], wanted


def read_behind(first, statements, wanted):
    return OF_TRANSACTIONS, [transaction(first), script(statements)], wanted


SAVE = "a.storage.save([1, 2, 3], to: /storage/x)\n"
LOAD = SAVE + "let l = a.storage.load<[Int]>(from: /storage/x)!"
COPY = SAVE + "let l = a.storage.copy<[Int]>(from: /storage/x)!"
BORROW = SAVE + "let l = a.storage.borrow<&[Int]>(from: /storage/x)!"

ROWS = {
    "programs fail by their errors": [
        of_script("let a: Int8 = 127; return Int(a + 1)", failed(101)),
        of_script("let a: UInt8 = 0; return Int(a - 1)", failed(102)),
        of_script("let a = [1]; return a[1]", failed(104)),
        of_script("let a: Int? = nil; return a!", failed(106)),
        of_script("panic(\"x\")", failed(109)),
        of_script("assert(1 == 2, message: \"x\"); return 0", failed(110)),
        of_script("return more(x: 1)", 2),
        of_script("return more(x: 0)", failed(108)),
        of_script("return more(x: 7)", failed(108)),
    ],
    "containers keep their types": [
        of_script("var a = [1, 2]; a.append(3); a[0] <-> a[2]; a[1] <-> a[1]; return a[0] * 100 + a.length", 303),
        of_script("let a = [1, 2]; let b: [AnyStruct] = a; b.append(\"x\"); return 0", failed(129)),
        of_script("let a: AnyStruct = [1, 2]; return (a as? [String]) == nil ? (a as! [Int])[1] : 0", 2),
        of_script("let a: [AnyStruct] = [3]; return (a as! [Int])[0]", failed(107)),
        of_script("""
            let d: {Int: Int} = {}; var i = 0; while i < 40 { d[7 * i] = i; i = i + 1 }
            d[0] = 1000; d[7] = nil; d.remove(key: 273); d[273] = 5; var sum = 0; i = 0
            while i < 40 { sum = sum + (d[7 * i] ?? 0); i = i + 1 }
            return sum * 100 + d.length""", 174539),
        of_script("let d = {3: 1, 2: 2, 1: 4}; d.remove(key: 2); d[9] = 5; let k = d.keys; return k[0] * 100 + k[1] * 10 + k[2]", 319),
        of_script("let d: {String: Int} = {\"a\": 1, \"b\": 2}; d[\"b\"] = 3; d[\"a\"] = nil; return d.length * 10 + d[\"b\"]!", 13),
    ],
    "resources move": [
        of_script("""
            let a <- [<-C.make(n: 1), <-C.make(n: 2)]; let x <- a.remove(at: 0); a.append(<-x)
            let n = a[0].n * 10 + a[1].n; destroy a; return n""", 21),
        of_script("""
            let d <- {"x": <-C.make(n: 1)}; let old <- d["x"] <- C.make(n: 2); let x <- d.remove(key: "x")!
            let n = x.n * 100 + (old?.n ?? 0) * 10 + d.length; destroy old; destroy d; destroy x; return n""", 210),
        of_script("let d <- {\"x\": <-C.make(n: 1), \"x\": <-C.make(n: 2)}; destroy d; return 0", failed(115)),
        of_script("var r: @C.R? <- nil; r <-! C.make(n: 2); let n = r?.n!; destroy r; return n", 2),
        of_script("var r: @C.R? <- C.make(n: 1); r <-! C.make(n: 2); destroy r; return 0", failed(115)),
        of_script("var a <- C.make(n: 1); var b <- C.make(n: 2); a <-> b; let n = a.n * 10 + b.n; destroy a; destroy b; return n", 21),
        of_script("""
            let a: @AnyResource <- C.make(n: 6); var n = 0
            if let r <- a as? @C.Outer { destroy r } else { if let r <- a as? @C.R { n = r.n; destroy r } else { destroy a } }
            return n""", 6),
        of_script("let a <- C.make(n: 1); let b <- C.make(n: 2); a.adopt(r: <-b); let n = a.child?.n!; destroy a; return n", 2),
        of_script("let a <- C.make(n: 1); let b <- C.make(n: 2); a.tie(r: <-b); destroy a; return 0", failed(113)),
        of_script("let a <- C.make(n: 1); let b <- C.make(n: 1); let n = a.uuid * 10 + b.uuid; destroy b; destroy a; return Int(n)", 12),
        of_script("let r <- C.make(n: 1); let n = r.add(n: 3); destroy r; return n", 4),
        of_script("let r <- C.make(n: 1); let n = r.add(n: 0); destroy r; return n", failed(108)),
        of_script("let r <- C.make(n: 1); let n = r.add(n: 5); destroy r; return n", failed(108)),
    ],
    "references end with what they name": [
        of_script("let r <- C.make(n: 1); let f = &r as auth(C.E | C.F) &C.R; let n = f.add(n: 2) * 10 + f.either(); destroy r; return n", 32),
        of_script("""
            let r <- C.make(n: 1); let f: AnyStruct = &r as &C.R; let a = (f as? &C.R) == nil; let b = (f as? auth(C.E) &C.R) == nil
            destroy r; return (a ? 0 : 10) + (b ? 1 : 0)""", 11),
        of_script("let r <- C.make(n: 1); let f = &r as &C.R; let s <- r; let n = f.n; destroy s; return n", failed(113)),
        of_script("let r <- C.make(n: 1); let f = &r as &C.R; destroy r; return f.n", failed(113)),
        of_script("var r: @C.R? <- C.make(n: 1); let f = (&r as &C.R?)!; let a <- r <- nil; r <-! a; let n = f.n; destroy r; return n", failed(113)),
        of_script("let a <- [<-C.make(n: 1)]; let f = &a[0] as &C.R; let x <- a.remove(at: 0); a.append(<-x); let n = f.n; destroy a; return n", failed(113)),
        of_script("let o <- C.outer(n: 1); let f = &o.inner as &C.R; let p <- o; let n = f.n; destroy p; return n", failed(113)),
        of_script("var a = [1]; let f = &a as auth(Mutate) &[Int]; f.append(2); return a.length", 2),
        of_script("var a = [1]; let f = &a as &[Int]; a = [2]; return f.length", failed(113)),
        of_script("var s = C.S(n: 4); let t = s; let f = &s as &C.S; f.set(n: 9); return s.n * 10 + t.n", 94),
        of_script("var s = C.S(n: 4); let f = &s as &C.S; s = C.S(n: 5); return f.n", failed(113)),
    ],
    "what is saved is loaded once": [
        of_transaction("""
            a.storage.save(7, to: /storage/x)
            C.tell(n: a.storage.load<Int>(from: /storage/x)!)
            C.say(b: a.storage.load<Int>(from: /storage/x) == nil)""", [7, 1]),
        of_transaction("""
            a.storage.save([1, 2], to: /storage/x)
            let c = a.storage.copy<[Int]>(from: /storage/x)!
            C.tell(n: c[1])
            C.tell(n: a.storage.load<[Int]>(from: /storage/x)!.length)
            C.say(b: a.storage.copy<[Int]>(from: /storage/x) == nil)""", [2, 2, 1]),
        of_transaction("""
            a.storage.save(1, to: /storage/x)
            a.storage.save(2, to: /storage/y)
            b.storage.save(3, to: /storage/x)
            C.tell(n: a.storage.load<Int>(from: /storage/y)!)
            C.tell(n: b.storage.load<Int>(from: /storage/x)!)
            C.tell(n: a.storage.load<Int>(from: /storage/x)!)""", [2, 3, 1]),
        of_transaction("""
            a.storage.save(<-C.make(n: 3), to: /storage/r)
            let r <- a.storage.load<@C.R>(from: /storage/r)!
            C.tell(n: r.n)
            destroy r""", [3]),
        of_transaction("""
            let s = C.S(n: 1)
            a.storage.save(s, to: /storage/s)
            a.storage.borrow<&C.S>(from: /storage/s)!.set(n: 2)
            C.tell(n: s.n)
            C.tell(n: a.storage.copy<C.S>(from: /storage/s)!.n)""", [1, 2]),
        of_transaction("""
            C.keep(n: 8)
            C.tell(n: a.storage.load<Int>(from: /storage/kept)!)""", [8]),
    ],
    "what is saved stays": [
        behind("a.storage.save(7, to: /storage/x)", """
            C.tell(n: a.storage.load<Int>(from: /storage/x)!)
            C.say(b: a.storage.load<Int>(from: /storage/x) == nil)""", [7, 1]),
        behind("a.storage.save(<-C.outer(n: 5), to: /storage/o)", """
            let o = a.storage.borrow<&C.Outer>(from: /storage/o)!
            C.tell(n: o.n)
            C.tell(n: o.inner.n)
            C.tell(n: o.all[0].n)""", [5, 6, 7]),
        behind("a.storage.save(1, to: /storage/x)", "a.storage.save(2, to: /storage/x)", failed(111)),
        behind("""
            a.storage.save(1, to: /storage/b)
            a.storage.save(2, to: /storage/a)
            a.storage.save(3, to: /storage/c)""", """
            C.tell(n: a.storage.load<Int>(from: /storage/a)!)
            C.tell(n: a.storage.load<Int>(from: /storage/c)!)
            C.tell(n: a.storage.load<Int>(from: /storage/b)!)""", [2, 3, 1]),
    ],
    "storage fails by its errors": [
        of_transaction("""
            a.storage.save(1, to: /storage/x)
            a.storage.save(2, to: /storage/x)""", failed(111)),
        of_transaction("""
            a.storage.save(<-C.make(n: 1), to: /storage/x)
            a.storage.save(<-C.make(n: 2), to: /storage/x)""", failed(111)),
        of_transaction("""
            a.storage.save(1, to: /storage/x)
            let t = a.storage.load<String>(from: /storage/x)""", failed(112)),
        of_transaction("""
            a.storage.save(1, to: /storage/x)
            let t = a.storage.copy<String>(from: /storage/x)""", failed(112)),
        of_transaction("""
            a.storage.save(1, to: /storage/x)
            let t = a.storage.borrow<&String>(from: /storage/x)""", failed(112)),
        of_transaction("""
            a.storage.save(<-C.make(n: 1), to: /storage/x)
            let o <- a.storage.load<@C.Outer>(from: /storage/x)
            destroy o""", failed(112)),
        of_transaction("""
            let n = 1
            let f: AnyStruct = &n as &Int
            a.storage.save(f, to: /storage/f)""", failed(133)),
        of_transaction("""
            let n = 1
            let f: AnyStruct = &n as &Int
            a.storage.save(f, to: /storage/f)
            let g = a.storage.load<AnyStruct>(from: /storage/f)! as! &Int
            C.tell(n: *g)""", [1]),
    ],
    "storage tells what stands there": [
        of_transaction("""
            C.say(b: a.storage.check<Int>(from: /storage/x))
            C.say(b: a.storage.type(at: /storage/x) == nil)
            a.storage.save(1, to: /storage/x)
            C.say(b: a.storage.check<Int>(from: /storage/x))
            C.say(b: a.storage.check<AnyStruct>(from: /storage/x))
            C.say(b: a.storage.check<String>(from: /storage/x))
            C.say(b: a.storage.type(at: /storage/x)!.identifier == "Int")""", [0, 1, 1, 1, 0, 1]),
        of_transaction("""
            a.storage.save(<-C.make(n: 1), to: /storage/r)
            C.say(b: a.storage.check<@C.R>(from: /storage/r))
            C.say(b: a.storage.check<@C.Outer>(from: /storage/r))
            C.say(b: a.storage.type(at: /storage/r)!.identifier == "A.0000000000000001.C.R")""", [1, 0, 1]),
        of_transaction("""
            C.say(b: a.storage.borrow<&Int>(from: /storage/x) == nil)
            a.storage.save(<-C.make(n: 4), to: /storage/r)
            C.tell(n: a.storage.borrow<auth(C.E) &C.R>(from: /storage/r)!.entitled())""", [1, 5]),
        of_transaction("""
            C.say(b: a.address == 0x1)
            C.say(b: b.address == 0x2)
            C.say(b: getAccount(0x7).address == 0x7)
            C.say(b: getAccount(0x2).storage.check<Int>(from: /storage/x))
            b.storage.save(1, to: /storage/x)
            C.say(b: getAccount(0x2).storage.check<Int>(from: /storage/x))
            C.say(b: getAccount(0x7).storage.check<Int>(from: /storage/x))""", [1, 1, 1, 0, 1, 0]),
    ],
    "a borrowed reference follows what is stored": [
        of_transaction("""
            a.storage.save(<-C.make(n: 3), to: /storage/r)
            let r = a.storage.borrow<&C.R>(from: /storage/r)!
            r.set(n: 4)
            C.tell(n: r.n)
            let old <- a.storage.load<@C.R>(from: /storage/r)!
            a.storage.save(<-C.make(n: 9), to: /storage/r)
            C.tell(n: r.n)
            C.tell(n: old.n)
            destroy old""", [4, 9, 4]),
        of_transaction("""
            a.storage.save(<-C.make(n: 3), to: /storage/r)
            let r = a.storage.borrow<&C.R>(from: /storage/r)!
            let old <- a.storage.load<@C.R>(from: /storage/r)!
            C.tell(n: r.n)
            destroy old""", failed(114)),
        of_transaction("""
            a.storage.save(1, to: /storage/x)
            let r = a.storage.borrow<&AnyStruct>(from: /storage/x)!
            let s = r as! &Int
            C.tell(n: *s)
            let i = a.storage.load<Int>(from: /storage/x)
            a.storage.save("t", to: /storage/x)
            C.say(b: r.isInstance(Type<String>()))""", [1, 1]),
        of_transaction("""
            a.storage.save(1, to: /storage/x)
            let r = a.storage.borrow<&AnyStruct>(from: /storage/x)!
            let s = r as! &Int
            let i = a.storage.load<Int>(from: /storage/x)
            a.storage.save("t", to: /storage/x)
            let n = *s""", failed(114)),
        of_transaction("""
            a.storage.save(<-C.outer(n: 5), to: /storage/o)
            let o = a.storage.borrow<&C.Outer>(from: /storage/o)!
            let i = o.inner
            i.set(n: 8)
            C.tell(n: o.inner.n)
            let back <- a.storage.load<@C.Outer>(from: /storage/o)!
            a.storage.save(<-back, to: /storage/o)
            C.tell(n: o.n)
            C.tell(n: o.inner.n)""", [8, 5, 8]),
        of_transaction("""
            a.storage.save(<-C.outer(n: 5), to: /storage/o)
            let o = a.storage.borrow<&C.Outer>(from: /storage/o)!
            let i = o.inner
            let back <- a.storage.load<@C.Outer>(from: /storage/o)!
            a.storage.save(<-back, to: /storage/o)
            C.tell(n: i.n)""", failed(113)),
        of_transaction("""
            a.storage.save({"k": 1}, to: /storage/d)
            let d = a.storage.borrow<auth(Mutate) &{String: Int}>(from: /storage/d)!
            d["k"] = 5
            d["z"] = 2
            a.storage.save([1], to: /storage/e)
            let e = a.storage.borrow<auth(Mutate) &[Int]>(from: /storage/e)!
            e.append(6)
            e[0] = 3
            C.tell(n: d["k"]!)
            C.tell(n: a.storage.load<{String: Int}>(from: /storage/d)!["z"]!)
            C.tell(n: e[0])
            C.tell(n: a.storage.load<[Int]>(from: /storage/e)![1])""", [5, 2, 3, 6]),
    ],
    "what is stored is looked at again": [
        of_transaction("""
            a.storage.save([1], to: /storage/e)
            let e = a.storage.borrow<auth(Mutate) &[Int]>(from: /storage/e)!
            e.append(C.replace(a: a))
            C.tell(n: e[0])
            C.tell(n: e[1])""", [9, 7]),
        of_transaction("""
            a.storage.save([1], to: /storage/e)
            let e = a.storage.borrow<auth(Mutate) &[Int]>(from: /storage/e)!
            e[0] = C.replace(a: a)""", failed(113)),
        of_transaction("""
            a.storage.save([1], to: /storage/e)
            let e = a.storage.borrow<auth(Mutate) &[Int]>(from: /storage/e)!
            e.append(C.take(a: a))""", failed(114)),
        of_transaction("""
            a.storage.save([1], to: /storage/e)
            let e = a.storage.borrow<auth(Mutate) &[Int]>(from: /storage/e)!
            let n = C.take(a: a)
            e.append(C.take(a: a))""", failed(114)),
        of_transaction("""
            a.storage.save(1, to: /storage/x)
            let r: &AnyStruct = a.storage.borrow<&Int>(from: /storage/x)!
            let i = a.storage.load<Int>(from: /storage/x)
            a.storage.save("t", to: /storage/x)
            C.say(b: r.isInstance(Type<String>()))""", [1]),
        of_transaction("""
            a.storage.save(1, to: /storage/x)
            let r = a.storage.borrow<&Int>(from: /storage/x)!
            let i = a.storage.load<Int>(from: /storage/x)
            a.storage.save("t", to: /storage/x)
            C.say(b: r.isInstance(Type<String>()))""", failed(114)),
        of_transaction("""
            a.storage.save([C.S(n: 1)], to: /storage/l)
            a.storage.save({"k": C.S(n: 2)}, to: /storage/d)
            let l = a.storage.borrow<&[C.S]>(from: /storage/l)!
            let d = a.storage.borrow<&{String: C.S}>(from: /storage/d)!
            let s = l[0]
            s.set(n: 3)
            d["k"]!.set(n: 4)
            C.tell(n: l[0].n)
            C.tell(n: a.storage.load<{String: C.S}>(from: /storage/d)!["k"]!.n)
            C.tell(n: a.storage.borrow<&[C.S]>(from: /storage/l)?.length ?? 0)
            C.tell(n: a.storage.borrow<&[C.S]>(from: /storage/z)?.length ?? 5)""", [3, 4, 1, 5]),
    ],
    "optionals are stored as they are": [
        of_transaction("""
            let o: Int? = 5
            a.storage.save(o, to: /storage/o)
            C.say(b: a.storage.type(at: /storage/o)!.identifier == "Int?")
            C.say(b: a.storage.check<Int>(from: /storage/o))
            C.tell(n: a.storage.copy<Int?>(from: /storage/o)!!)
            let n = a.storage.load<Int>(from: /storage/o)""", failed(112)),
        of_transaction("""
            let z: Int? = nil
            a.storage.save(z, to: /storage/z)
            C.say(b: a.storage.check<Int?>(from: /storage/z))
            C.say(b: a.storage.check<String?>(from: /storage/z))
            C.say(b: a.storage.copy<Int?>(from: /storage/z) == nil)
            C.say(b: a.storage.load<Int?>(from: /storage/z)! == nil)
            C.say(b: a.storage.type(at: /storage/z) == nil)""", [1, 1, 0, 1, 1]),
        of_transaction("""
            let n = 1
            let l: [AnyStruct] = [2, &n as &Int]
            a.storage.save(l, to: /storage/l)""", failed(133)),
    ],
    "a resource knows the account that stores it": [
        of_transaction("""
            let r <- C.make(n: 1)
            C.say(b: r.owner == nil)
            C.say(b: r.place() == nil)
            a.storage.save(<-r, to: /storage/r)
            let s = a.storage.borrow<&C.R>(from: /storage/r)!
            C.say(b: s.owner!.address == 0x1)
            C.say(b: s.place()! == 0x1)""", [1, 1, 1, 1]),
        of_transaction("""
            b.storage.save(<-C.outer(n: 1), to: /storage/o)
            let o = b.storage.borrow<&C.Outer>(from: /storage/o)!
            C.say(b: o.owner!.address == 0x2)
            C.say(b: o.inner.owner!.address == 0x2)
            C.say(b: o.all[0].place()! == 0x2)""", [1, 1, 1]),
        of_transaction("""
            a.storage.save(<-C.make(n: 1), to: /storage/r)
            let r <- a.storage.load<@C.R>(from: /storage/r)!
            C.say(b: r.owner == nil)
            b.storage.save(<-r, to: /storage/r)
            C.say(b: b.storage.borrow<&C.R>(from: /storage/r)!.owner!.address == 0x2)""", [1, 1]),
        of_transaction("""
            let l <- [<-C.make(n: 1)]
            b.storage.save(<-l, to: /storage/l)
            let s = b.storage.borrow<auth(Mutate) &[C.R]>(from: /storage/l)!
            C.say(b: s[0].owner!.address == 0x2)
            let r <- s.remove(at: 0)
            C.say(b: r.owner == nil)
            s.append(<-r)
            C.say(b: s[0].owner!.address == 0x2)""", [1, 1, 1]),
    ],
    "a capability lends what is stored": [
        of_transaction("""
            let c = a.capabilities.storage.issue<&C.R>(/storage/r)
            C.tell(n: Int(c.id))
            C.say(b: c.check())
            C.say(b: c.borrow() == nil)
            C.say(b: c.address == 0x1)
            a.storage.save(<-C.make(n: 6), to: /storage/r)
            C.say(b: c.check())
            C.tell(n: c.borrow()!.n)""", [1, 0, 1, 1, 1, 6]),
        of_transaction("""
            let c = a.capabilities.storage.issue<&C.R>(/storage/r)
            let d = a.capabilities.storage.issue<auth(C.E) &C.R>(/storage/r)
            let e = b.capabilities.storage.issue<&C.R>(/storage/r)
            a.storage.save(<-C.make(n: 6), to: /storage/r)
            C.tell(n: Int(c.id))
            C.tell(n: Int(d.id))
            C.tell(n: Int(e.id))
            C.tell(n: d.borrow()!.entitled())
            C.say(b: e.check())""", [1, 2, 1, 7, 0]),
        of_transaction("""
            let c = a.capabilities.storage.issue<&C.R>(/storage/r)
            a.storage.save(1, to: /storage/r)
            C.say(b: c.check())
            C.say(b: c.borrow() == nil)""", [0, 1]),
        of_transaction("""
            let c = a.capabilities.storage.issue<&C.R>(/storage/r)
            a.storage.save(<-C.make(n: 6), to: /storage/r)
            let r = c.borrow()!
            let old <- a.storage.load<@C.R>(from: /storage/r)!
            a.storage.save(<-C.make(n: 7), to: /storage/r)
            C.tell(n: r.n)
            destroy old""", [7]),
        of_transaction("""
            let c = a.capabilities.storage.issue<&C.R>(/storage/r)
            a.storage.save(<-C.make(n: 6), to: /storage/r)
            let r = c.borrow()!
            let old <- a.storage.load<@C.R>(from: /storage/r)!
            C.tell(n: r.n)
            destroy old""", failed(114)),
        of_transaction("""
            let c = a.capabilities.storage.issue<&AnyResource>(/storage/r)
            a.storage.save(<-C.make(n: 6), to: /storage/r)
            C.tell(n: (c.borrow()! as! &C.R).n)
            C.say(b: c.getType().identifier == "Capability<&AnyResource>")""", [6, 1]),
    ],
    "capabilities are published": [
        of_transaction("""
            a.storage.save(<-C.make(n: 6), to: /storage/r)
            a.capabilities.publish(a.capabilities.storage.issue<auth(C.E) &C.R>(/storage/r), at: /public/r)
            a.capabilities.publish(a.capabilities.get<&C.R>(/public/r), at: /public/q)
            C.tell(n: Int(a.capabilities.get<auth(C.E) &C.R>(/public/q).id))
            C.tell(n: Int(a.capabilities.get<&C.R>(/public/q).id))
            C.tell(n: Int(a.capabilities.get<auth(C.E, C.F) &C.R>(/public/r).id))
            C.say(b: a.capabilities.unpublish(/public/q)!.getType().identifier == "Capability<&A.0000000000000001.C.R>")""", [0, 1, 0, 1]),
        of_transaction("""
            a.storage.save(<-C.make(n: 6), to: /storage/r)
            a.capabilities.publish(a.capabilities.storage.issue<&AnyResource>(/storage/r), at: /public/r)
            C.tell(n: Int(a.capabilities.get<&C.R>(/public/r).id))
            C.tell(n: a.capabilities.borrow<&C.R>(/public/r)!.n)
            C.tell(n: Int(a.capabilities.get<&C.Outer>(/public/r).id))
            C.say(b: a.capabilities.borrow<&C.Outer>(/public/r) == nil)""", [1, 6, 1, 1]),
        of_transaction("""
            let c = a.capabilities.storage.issue<&C.R>(/storage/r)
            C.say(b: a.capabilities.exists(/public/r))
            a.capabilities.publish(c, at: /public/r)
            C.say(b: a.capabilities.exists(/public/r))
            C.say(b: b.capabilities.exists(/public/r))
            let u = a.capabilities.unpublish(/public/r)!
            C.tell(n: Int(u.id))
            C.say(b: a.capabilities.exists(/public/r))
            C.say(b: a.capabilities.unpublish(/public/r) == nil)""", [0, 1, 0, 1, 0, 1]),
        of_transaction("""
            let c = a.capabilities.storage.issue<&C.R>(/storage/r)
            a.capabilities.publish(c, at: /public/r)
            a.capabilities.publish(c, at: /public/r)""", failed(116)),
        of_transaction("""
            let c = a.capabilities.storage.issue<&C.R>(/storage/r)
            b.capabilities.publish(c, at: /public/r)""", failed(117)),
        of_transaction("""
            let c = a.capabilities.get<&C.R>(/public/none)
            a.capabilities.publish(c, at: /public/r)""", failed(117)),
        of_transaction("""
            let c = a.capabilities.storage.issue<&C.R>(/storage/r)
            let d = b.capabilities.storage.issue<&C.R>(/storage/r)
            b.capabilities.publish(d, at: /public/r)
            b.capabilities.publish(c, at: /public/r)""", failed(117)),
        of_transaction("""
            a.storage.save(<-C.make(n: 6), to: /storage/r)
            a.capabilities.publish(a.capabilities.storage.issue<&C.R>(/storage/r), at: /public/r)
            let c = getAccount(0x1).capabilities.get<auth(C.E) &C.R>(/public/r)
            C.tell(n: Int(c.id))
            C.say(b: c.borrow() == nil)
            C.say(b: c.check())
            C.say(b: getAccount(0x1).capabilities.borrow<auth(C.E) &C.R>(/public/r) == nil)
            C.tell(n: getAccount(0x1).capabilities.borrow<&C.R>(/public/r)!.n)""", [0, 1, 0, 1, 6]),
        of_transaction("""
            a.storage.save(<-C.make(n: 6), to: /storage/r)
            a.capabilities.publish(a.capabilities.storage.issue<auth(C.E) &C.R>(/storage/r), at: /public/r)
            let c: AnyStruct = a.capabilities.get<&C.R>(/public/r)
            C.say(b: c.isInstance(Type<Capability<auth(C.E) &C.R>>()))
            C.say(b: c.isInstance(Type<Capability<&C.R>>()))
            C.tell(n: Int(a.capabilities.get<&C.R>(/public/r).id))
            C.tell(n: Int(a.capabilities.get<&AnyResource>(/public/r).id))
            C.tell(n: Int(a.capabilities.get<&C.Outer>(/public/r).id))
            C.tell(n: a.capabilities.borrow<auth(C.E) &C.R>(/public/r)!.entitled())""", [0, 1, 1, 1, 0, 7]),
        of_transaction("""
            C.say(b: getAccount(0x7).capabilities.exists(/public/r))
            C.tell(n: Int(getAccount(0x7).capabilities.get<&C.R>(/public/r).id))
            C.say(b: getAccount(0x7).capabilities.borrow<&C.R>(/public/r) == nil)""", [0, 0, 1]),
        of_transaction("""
            let c = a.capabilities.storage.issue<&C.R>(/storage/r)
            a.capabilities.publish(c, at: /public/b)
            a.capabilities.publish(a.capabilities.storage.issue<&C.R>(/storage/q), at: /public/a)
            C.tell(n: Int(a.capabilities.get<&C.R>(/public/a).id))
            C.tell(n: Int(a.capabilities.get<&C.R>(/public/b).id))""", [2, 1]),
    ],
    "controllers lead capabilities": [
        of_transaction("""
            let c = a.capabilities.storage.issue<&C.R>(/storage/r)
            let k = a.capabilities.storage.getController(byCapabilityID: c.id)!
            C.tell(n: Int(k.capabilityID))
            C.say(b: k.borrowType.identifier == "&A.0000000000000001.C.R")
            C.say(b: k.tag == "")
            k.setTag("t")
            C.say(b: k.tag == "t")
            C.say(b: k.target() == /storage/r)
            C.say(b: a.capabilities.storage.getController(byCapabilityID: 9) == nil)
            C.say(b: b.capabilities.storage.getController(byCapabilityID: 1) == nil)""", [1, 1, 1, 1, 1, 1, 1]),
        of_transaction("""
            let c = a.capabilities.storage.issue<&C.R>(/storage/r)
            a.storage.save(<-C.make(n: 1), to: /storage/r)
            a.storage.save(<-C.make(n: 2), to: /storage/q)
            a.storage.save(3, to: /storage/i)
            let k = a.capabilities.storage.getController(byCapabilityID: 1)!
            C.tell(n: c.borrow()!.n)
            k.retarget(/storage/q)
            C.tell(n: c.borrow()!.n)
            C.say(b: k.target() == /storage/q)
            k.retarget(/storage/i)
            C.say(b: c.borrow() == nil)
            C.say(b: c.check())""", [1, 2, 1, 1, 0]),
        of_transaction("""
            let c = a.capabilities.storage.issue<&C.R>(/storage/r)
            a.storage.save(<-C.make(n: 1), to: /storage/r)
            a.capabilities.publish(c, at: /public/r)
            a.capabilities.storage.getController(byCapabilityID: 1)!.delete()
            C.say(b: c.check())
            C.say(b: c.borrow() == nil)
            C.say(b: a.capabilities.exists(/public/r))
            C.say(b: a.capabilities.borrow<&C.R>(/public/r) == nil)
            C.say(b: a.capabilities.storage.getController(byCapabilityID: 1) == nil)
            C.tell(n: Int(a.capabilities.storage.issue<&C.R>(/storage/r).id))""", [0, 1, 1, 1, 1, 2]),
        of_transaction("""
            let c = a.capabilities.storage.issue<&C.R>(/storage/r)
            let k = a.capabilities.storage.getController(byCapabilityID: 1)!
            k.delete()
            C.tell(n: Int(k.capabilityID))""", failed(113)),
        of_transaction("""
            let c = a.capabilities.storage.issue<&C.R>(/storage/r)
            let k = a.capabilities.storage.getController(byCapabilityID: 1)!
            k.delete()
            k.delete()""", failed(113)),
        of_transaction("""
            let c = a.capabilities.storage.issue<&C.R>(/storage/r)
            let k: AnyStruct = a.capabilities.storage.getController(byCapabilityID: 1)!
            C.say(b: k.isInstance(Type<StorageCapabilityController>()))
            C.say(b: k.isInstance(Type<String>()))
            C.say(b: ((getAccount(0x2) as &AnyStruct) as! &Account).address == 0x2)
            C.say(b: getAccount(0x2).storage.getType().identifier == "Account.Storage")""", [1, 0, 1, 1]),
        of_transaction("""
            let c = a.capabilities.storage.issue<&C.R>(/storage/r)
            let k: AnyStruct = a.capabilities.storage.getController(byCapabilityID: 1)!
            a.capabilities.storage.getController(byCapabilityID: 1)!.delete()
            C.say(b: k.isInstance(Type<StorageCapabilityController>()))""", failed(113)),
        of_transaction("""
            let c = a.capabilities.storage.issue<&C.R>(/storage/r)
            let k: AnyStruct = a.capabilities.storage.getController(byCapabilityID: 1)!
            a.storage.save(k, to: /storage/k)""", failed(133)),
    ],
    "capabilities stay": [
        behind(ISSUED, """
            let c = b.storage.load<Capability<&C.R>>(from: /storage/c)!
            C.tell(n: Int(c.id))
            C.tell(n: c.borrow()!.n)""", [1, 6]),
        behind(ISSUED, """
            let k = a.capabilities.storage.getController(byCapabilityID: 1)!
            C.say(b: k.tag == "t")
            C.tell(n: Int(a.capabilities.storage.issue<&C.R>(/storage/r).id))
            C.tell(n: Int(a.capabilities.unpublish(/public/r)!.id))
            C.say(b: a.capabilities.exists(/public/r))""", [1, 2, 1, 0]),
        behind(ISSUED, "a.capabilities.publish(a.capabilities.storage.issue<&C.R>(/storage/r), at: /public/r)", failed(116)),
    ],
    "capabilities stay, as scripts see it": [
        read_behind(ISSUED, "return getAccount(0x1).capabilities.borrow<&C.R>(/public/r)!.n", 6),
        read_behind(ISSUED, "return getAccount(0x1).capabilities.borrow<&C.R>(/public/q)?.n ?? 3", 3),
        read_behind(ISSUED, "return getAccount(0x2).storage.check<Capability<&C.R>>(from: /storage/c) ? 1 : 0", 1),
    ],
    "ends are told outer first": [
        of_ends("C.tell(n: 3); C.tell(n: 4)", [3, 4], []),
        of_ends("let o <- C.outer(n: 10); destroy o", [10, 11, 12, 13, 14, 15], [1, 2, 3, 4, 5, 6]),
        of_ends("let a <- C.make(n: 1); let b <- C.make(n: 2); let c <- [<-b, <-a]; destroy c", [2, 1], [2, 1]),
    ],
    "units and calls are counted": [
        of_script("while true {}; return 0", LIMIT, limit=5),
        of_script("return deep(n: 20)", 20, limit=65),
        of_script("return deep(n: 20)", LIMIT, limit=64),
    ],
    "storage takes its units": [
        row
        for statements, units in ((SAVE, 9), (LOAD, 17), (COPY, 17), (BORROW, 11))
        for row in (of_transaction(statements, [], limit=units), of_transaction(statements, LIMIT, limit=units - 1))
    ],
}

# ---- what a reply says


def told(reply):
    """The numbers of the events of a reply."""
    return [int(field["value"]["value"]) for event in reply["events"] for field in event["value"]["fields"]]


def says(reply, wanted):
    """Whether a reply says what is wanted: a number that a script gives, numbers of events, or how it ends."""
    if isinstance(wanted, dict):
        return all(reply.get(key) == wanted[key] for key in wanted)
    if reply["reply"] != "ok":
        return False
    if isinstance(wanted, int):
        return reply["result"] == {"type": "Int", "value": str(wanted)}
    if isinstance(wanted, tuple):
        return told(reply) == wanted[0] and reply["destroyed"] == [str(number) for number in wanted[1]]
    return told(reply) == wanted


def replies(program, lines):
    """The replies to lines over a new folder."""
    with tempfile.TemporaryDirectory() as folder:
        given = "".join(json.dumps(line) + "\n" for line in lines)
        ran = subprocess.run([program, "run", folder], input=given, capture_output=True, text=True, timeout=60)
        return [json.loads(line) for line in ran.stdout.splitlines()]


def wrong(program, row):
    """Why a row doesn't hold, if it doesn't."""
    contract, lines, wanted = row
    deploy = {"kind": "deploy", "address": "0x1", "name": "C", "code": contract}
    said = replies(program, [{"kind": "account"}, {"kind": "account"}, deploy, *lines])
    if len(said) != 3 + len(lines) or any(reply["reply"] != "ok" for reply in said[:-1]):
        return f"{lines}: {said}"
    return None if says(said[-1], wanted) else f"{lines[-1]['code']}: {said[-1]}, and not {wanted}"


def main():
    program = sys.argv[1]
    faults = [f"{name}: {fault}" for name, rows in ROWS.items() for row in rows if (fault := wrong(program, row))]
    for fault in faults:
        print(fault)
    print(f"rows: {sum(map(len, ROWS.values()))} rows of {len(ROWS)} kinds, {len(faults)} wrong")
    sys.exit(1 if faults else 0)


main()
