#!/usr/bin/env python3
"""Gives cadence_check lines of every kind, and compares what it writes: the reply lines, and with `--text` the lines for people.

The expected values are worked out from the rules. Each case is a line, its reply, and what people are told of it. All lines
go through one run of each form, so the order and the count of what is written are compared too.

    tests/check_lines.py PROGRAM
"""
import json
import pathlib
import subprocess
import sys

ACCEPTED = '{"reply":"accepted"}'
TOKEN = """access(all) contract Token {
    access(all) resource Vault {
        access(all) var balance: Int
        init(balance: Int) {
            self.balance = balance
        }
    }
    access(all) fun empty(): @Vault {
        return <-create Vault(balance: 0)
    }
}
"""
USER = """import Token from 0x1
access(all) contract User {
    access(all) fun drop() {
        let vault <- Token.empty()
        destroy vault
    }
}
"""
LOST = """access(all) contract Token {
    access(all) resource Vault {}
    init() {
        let v <- create Vault()
        let w <- v
        destroy w
        destroy v
    }
}
"""
LOSER = """import Token from 0x1
access(all) contract User {
    access(all) fun keep(flag: Bool) {
        if flag {
            self.log()
        } else if true {
            let vault <- Token.empty()
        }
    }
    access(all) fun log() {}
}
"""


def rejected(phase, inside, at, contract=None):
    numbered = "" if contract is None else f'"contract":{contract},'
    return f'{{"at":"{at}",{numbered}"in":"{inside}","phase":"{phase}","reply":"rejected"}}'


def bad(number):
    return f'{{"error":"{number}","reply":"bad"}}'


def asked(kind, code, contracts=None, **more):
    listed = {} if contracts is None else {"contracts": contracts}
    return json.dumps({**listed, "kind": kind, "code": code, **more}, ensure_ascii=False)


def contract(name, code, address="0x1"):
    return {"address": address, "name": name, "code": code}


def subject(name, code, contracts=None, address="0x2"):
    return asked("contract", code, contracts, address=address, name=name)


def shown(name, line, column, phase, where, text, mark):
    """The three lines of a diagnostic; the mark as the line in which it stands."""
    return f"{name}:{line}:{column}: {phase}: {where}\n{text}\n{mark}"


def shown_at(name, code, place, phase, where):
    """The same of a place in the code, counted in characters from 0."""
    start = code.rfind("\n", 0, place) + 1
    space = "".join("\t" if character == "\t" else " " for character in code[start:place])
    return shown(name, code.count("\n", 0, place) + 1, place - start + 1, phase, where, code[start:].split("\n")[0], space + "^")


MAIN = "access(all) fun main() {}"


def bad_lines():
    """Lines that ask for nothing, with the number."""
    deep = '{"kind":"script","code":"%s","x":%s}'
    yield 21, "hello"
    yield 21, '{"kind":"script","code":"' + MAIN + '"'
    yield 21, b'{"kind":"script","code":"\xff"}'
    yield 21, deep % (MAIN, "[" * 127 + "]" * 127)
    yield 22, "[]"
    yield 22, "7"
    yield 22, "null"
    yield 22, "{}"
    yield 22, '{"kind":1,"code":"' + MAIN + '"}'
    yield 22, json.dumps({"code": MAIN, "contracts": 1})
    yield 23, json.dumps({"kind": "dance"})
    yield 23, json.dumps({"kind": "Script", "code": MAIN})
    yield 23, json.dumps({"kind": "deploy", "code": MAIN})
    yield 23, json.dumps({"kind": "account", "contracts": 1})
    yield 22, json.dumps({"kind": "script"})
    yield 22, json.dumps({"kind": "transaction", "code": 1})
    yield 22, json.dumps({"kind": "script", "code": MAIN, "contracts": {}})
    yield 22, json.dumps({"kind": "script", "code": MAIN, "contracts": None})
    yield 22, json.dumps({"kind": "script", "code": MAIN, "contracts": [1]})
    for field in ("address", "name", "code"):
        whole = contract("Token", TOKEN)
        del whole[field]
        yield 22, json.dumps({"kind": "contract", **whole})
        yield 22, json.dumps({"kind": "script", "code": MAIN, "contracts": [contract("Token", TOKEN), whole]})
    for address in ("1", "0x", "0X1", "0x1g", "0x" + "1" * 17, "", 1):
        yield 22, subject("Token", TOKEN, address=address)
    # a fault of the line comes before a fault of a code
    yield 22, asked("script", "#", [contract("Token", "#"), {}])


def accepted():
    """Lines whose code is accepted, with the name that people are told."""
    yield "script", asked("script", MAIN)
    yield "script", asked("script", MAIN, [])
    yield "transaction", asked("transaction", "transaction {}")
    yield "Token", subject("Token", TOKEN)
    yield "Token", subject("Token", TOKEN, address="0x" + "f" * 16)
    yield "User", subject("User", USER, [contract("Token", TOKEN)])
    yield "script", asked("script", "import Token from 0xA\n" + MAIN, [contract("Token", TOKEN, "0x0a")])
    yield "script", asked("script", "import User from 0x2\n" + MAIN, [contract("Token", TOKEN), contract("User", USER, "0x2")])
    # other fields don't count, and of two of one name the last stands
    yield "script", '{"kind":"dance","kind":"script","code":"#","code":"' + MAIN + '","x":' + "[" * 126 + "]" * 126 + "}"


def programs():
    """Lines whose code is refused, with the reply and what people are told."""
    yield (
        asked("script", "access(all) fun main() { # }"),
        rejected("lex", "", 25),
        shown("script", 1, 26, "lex", "byte 25", "access(all) fun main() { # }", " " * 25 + "^"),
    )
    # a column is a character: `é` has two bytes
    yield (
        asked("script", 'access(all) fun main() {}\n\t/* é */ fun f() {}\n'),
        rejected("parse", "", 36),
        shown("script", 2, 10, "parse", "byte 36", "\t/* é */ fun f() {}", "\t" + " " * 8 + "^"),
    )
    yield (
        asked("script", "import Token from 0x9\n" + MAIN),
        rejected("resolve", "Token", 0),
        shown("script", 1, 8, "resolve", "in Token, statement 0", "import Token from 0x9", " " * 7 + "^"),
    )
    yield (
        asked("script", "access(all) fun main() {}\naccess(all) fun main() {}"),
        rejected("resolve", "main", 0),
        shown("script", 2, 17, "resolve", "in main, statement 0", "access(all) fun main() {}", " " * 16 + "^"),
    )
    # a function outside of a contract is misplaced where a contract is to stand, and a contract in a script
    yield (
        subject("main", MAIN),
        rejected("resolve", "main", 0),
        shown("main", 1, 17, "resolve", "in main, statement 0", MAIN, " " * 16 + "^"),
    )
    yield (
        asked("script", "access(all) contract C {}"),
        rejected("resolve", "C", 0),
        shown("script", 1, 22, "resolve", "in C, statement 0", "access(all) contract C {}", " " * 21 + "^"),
    )
    body = 'access(all) fun main() {\n    let a = 1\n    let b: Int? = a\n        as Int?\n    let c: Bool = a\n}'
    yield (
        asked("script", body),
        rejected("types", "main", 2),
        shown("script", 5, 5, "types", "in main, statement 2", "    let c: Bool = a", "    ^"),
    )
    yield (
        asked("script", "access(all) fun main(): Int {\n    let a = 1\n}"),
        rejected("types", "main", 1),
        shown("script", 3, 1, "types", "in main, statement 1", "}", "^"),
    )
    lacks = "access(all) contract C {\n    access(all) struct interface I { access(all) fun f() }\n    access(all) struct S: I {}\n}"
    yield (
        subject("C", lacks),
        rejected("conformance", "C.S", 0),
        shown("C", 3, 24, "conformance", "in C.S, statement 0", "    access(all) struct S: I {}", " " * 23 + "^"),
    )
    unset = "access(all) contract C {\n    access(all) var n: Int\n    init() {\n    }\n}"
    yield (
        subject("C", unset),
        rejected("initialisation", "C.init", 0),
        shown("C", 4, 5, "initialisation", "in C.init, statement 0", "    }", "    ^"),
    )
    impure = "access(all) contract C {\n    access(all) var n: Int\n    access(all) view fun f() {\n        let a = 1; self.n = a\n    }\n    init() { self.n = 0 }\n}"
    yield (
        subject("C", impure),
        rejected("purity", "C.f", 1),
        shown("C", 4, 20, "purity", "in C.f, statement 1", "        let a = 1; self.n = a", " " * 19 + "^"),
    )
    yield (
        subject("User", LOSER, [contract("Token", TOKEN)]),
        rejected("moves", "User.keep", 3),
        shown("User", 7, 13, "moves", "in User.keep, statement 3", "            let vault <- Token.empty()", " " * 12 + "^"),
    )
    used = "import Token from 0x1\ntransaction {\n    prepare() {\n        let a <- Token.empty()\n        destroy a\n        destroy a\n    }\n}"
    yield (
        asked("transaction", used, [contract("Token", TOKEN)]),
        rejected("moves", "prepare", 2),
        shown("transaction", 6, 9, "moves", "in prepare, statement 2", "        destroy a", "        ^"),
    )


# Statements in statements, with an expression over two lines and a statement in parentheses behind it.
NESTED = """if a.length > 1 { C.g() } else if true {
      let b = a["x"]
        ?? 2
      (b%s)
    }"""
OF_NESTED = """access(all) contract C {
  access(all) fun f(a: {String: Int})%s {
    %s
  }
  access(all) fun g() {}
}"""
LOSES_FIELD = """import Token from 0x1
import C from 0x2
transaction {
  let vault: @Token.Vault
  prepare() { self.vault <- Token.empty() }
  execute {
    let a = {"x": 1}
    %s
  }
}"""
LACKS_FUNCTION = """access(all) contract C {
  access(all) struct interface I { access(all) fun g() }
  access(all) struct S: I {
    access(all) fun f() {
      let a = 1
    }
  }
}"""


def statements():
    """Lines whose code is refused at a statement in others, behind all of them, and at a declaration; its place is found by its text."""
    code = "// ok\n\t/* é */ #"
    byte = code.encode().index(b"#")
    yield subject("C", code), rejected("lex", "", byte), shown_at("C", code, code.index("#"), "lex", f"byte {byte}")
    code = OF_NESTED % ("", NESTED % " as Bool")
    yield (
        subject("C", code),
        rejected("types", "C.f", 4),
        shown_at("C", code, code.index("(b as Bool)"), "types", "in C.f, statement 4"),
    )
    code = OF_NESTED % (": Int", NESTED % "")
    yield (
        subject("C", code),
        rejected("types", "C.f", 5),
        shown_at("C", code, code.index("}\n  access(all) fun g"), "types", "in C.f, statement 5"),
    )
    beside = [contract("Token", TOKEN), contract("C", OF_NESTED % ("", NESTED % ""), "0x2")]
    code = LOSES_FIELD % (NESTED % "")
    yield (
        asked("transaction", code, beside),
        rejected("moves", "execute", 6),
        shown_at("transaction", code, code.rindex("}\n}"), "moves", "in execute, statement 6"),
    )
    yield (
        subject("C", LACKS_FUNCTION),
        rejected("conformance", "C.S", 0),
        shown_at("C", LACKS_FUNCTION, LACKS_FUNCTION.index("S: I"), "conformance", "in C.S, statement 0"),
    )


def listed():
    """Lines where a contract of the list is refused, or stands under another name."""
    wrong = contract("User", LOSER, "0x2")
    told = shown("User", 7, 13, "moves", "in User.keep, statement 3", "            let vault <- Token.empty()", " " * 12 + "^")
    yield asked("script", MAIN, [contract("Token", TOKEN), wrong]), rejected("moves", "User.keep", 3, 1), told
    yield asked("script", "#", [contract("Token", TOKEN), wrong, contract("Third", "#")]), rejected("moves", "User.keep", 3, 1), told
    first = shown("Token", 7, 9, "moves", "in Token.init, statement 3", "        destroy v", "        ^")
    yield asked("script", MAIN, [contract("Token", LOST)]), rejected("moves", "Token.init", 3, 0), first
    # contracts are judged in order: the one that is imported has to stand first
    absent = shown("User", 1, 8, "resolve", "in Token, statement 0", "import Token from 0x1", " " * 7 + "^")
    yield asked("script", MAIN, [contract("User", USER, "0x2"), contract("Token", TOKEN)]), rejected("resolve", "Token", 0, 0), absent
    yield asked("script", MAIN, [contract("Coin", TOKEN)]), bad(26), "Coin: bad 26"
    yield subject("Coin", TOKEN), bad(26), "Coin: bad 26"
    yield subject("Coin", ""), bad(26), "Coin: bad 26"


def cases():
    """Each line with its reply and what people are told."""
    for number, line in bad_lines():
        yield line, bad(number), f"request: bad {number}"
    for name, line in accepted():
        yield line, ACCEPTED, f"{name}: accepted"
    yield from programs()
    yield from statements()
    yield from listed()


def run(program, words, lines):
    data = b"\n".join(line if isinstance(line, bytes) else line.encode() for line in lines)
    return subprocess.run([program, *words], input=data, capture_output=True, timeout=600)


def differences(program, words, lines, wanted):
    """What is wrong with one run over all lines, a line for each thing."""
    done = run(program, words, lines)
    whole = "".join(text + "\n" for text in wanted)
    if done.returncode:
        yield f"{words}: status {done.returncode}: {done.stderr.decode(errors='replace').strip()}"
    if done.stdout.decode(errors="replace") == whole:
        return
    for line, text in zip(lines, wanted):
        got = run(program, words, [line]).stdout.decode(errors="replace")
        if got != text + "\n":
            yield f"{line[:300]}\n  got  {got!r}\n  want {text!r}"
    yield f"{words}: what one run writes isn't what is wanted of its lines"


def words(program):
    """What is wrong with other words, and with no input."""
    for given in (["--help"], ["--text", "x"], ["x"], [""]):
        done = run(program, given, [])
        if (done.returncode, done.stdout) != (2, b""):
            yield f"{given}: status {done.returncode}, {done.stdout!r}"
    for given in ([], ["--text"]):
        done = run(program, given, [])
        if (done.returncode, done.stdout) != (0, b""):
            yield f"{given} without input: status {done.returncode}, {done.stdout!r}"


def main():
    if len(sys.argv) != 2:
        sys.exit(__doc__)
    program = str(pathlib.Path(sys.argv[1]).resolve())
    lines, replies, told = zip(*cases())
    wrong = [*differences(program, [], lines, replies), *differences(program, ["--text"], lines, told), *words(program)]
    for text in wrong:
        print(text)
    print(f"check_lines: {len(lines)} lines, {len(wrong)} wrong")
    sys.exit(1 if wrong else 0)


if __name__ == "__main__":
    main()
