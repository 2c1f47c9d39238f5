#!/usr/bin/env python3
"""Runs calls that nest as deep as the language allows, on the stack that most systems give.

    tests/stack.py PROGRAM

2,000 calls may be in progress, `main` among them, and one more fails by 124. Each form of a call is run at 2,000 and at 2,001 with
a stack of 8 MiB (of the dearest forms with 12), and the reply compared with what the rules say. Then 2,000 calls that each stand in an expression or a statement
that nests as deep as a text may, with the 512 MiB that ./cadence gives. `--measure` prints, for each form, the bytes of stack that
a call takes, found by trying limits.
"""
import json
import resource
import subprocess
import sys
import tempfile

USUAL, GIVEN = 8 << 20, 512 << 20

# Forms of which a call takes some 4 KB.
DEAREST = {"an index": 12 << 20, "a function of a struct": 12 << 20, "an initializer": 12 << 20}

# What stands round `f(n - 1)` in the function f, whose result is one more than that of the call inside; what else is declared.
FORMS = {
    "a sum": ("return f(n - 1) + 1", ""),
    "a result": ("count.add()\nlet x = f(n - 1)\nreturn x + 1", "COUNT"),
    "a statement": ("f(n - 1)\nreturn n", ""),
    "if": ("if n > 0 { return f(n - 1) + 1 } else { return 0 }", ""),
    "while": ("while n > 0 { return f(n - 1) + 1 }\nreturn 0", ""),
    "for": ("for x in [1] { return f(n - 1) + x }\nreturn 0", ""),
    "switch": ("switch n { case 0: return 0\ndefault: return f(n - 1) + 1 }\nreturn 0", ""),
    "if let": ("if let x = f(n - 1) as Int? { return x + 1 }\nreturn 0", ""),
    "an argument": ("return g(f(n - 1))", "access(all) fun g(_ n: Int): Int { return n + 1 }"),
    "a condition": ("return n > 0 ? f(n - 1) + 1 : 0", ""),
    "an element": ("return [f(n - 1)][0] + 1", ""),
    "an index": ("return [0, 1][f(n - 1) - n + 1] + n", ""),
    "a default": ("return (nil as Int?) ?? f(n - 1) + 1", ""),
    "a precondition": ("pre { f(n - 1) == n - 1 }\nreturn n", "", "view "),
    "a postcondition": ("post { f(n - 1) == n - 1 }\nreturn n", "", "view "),
}


def function(body, view=""):
    """The function f, which ends at 0, with this body above."""
    if body.startswith("pre") or body.startswith("post"):
        word, rest = body.split("\n", 1)
        inside = word[word.index("{") + 1:word.rindex("}")].strip()
        return f"access(all) {view}fun f(_ n: Int): Int {{ {word.split()[0]} {{ n < 1 || {inside} }}\n{rest} }}"
    return f"access(all) {view}fun f(_ n: Int): Int {{ if n < 1 {{ return 0 }}\n{body} }}"


def script(name, calls):
    """A script in which so many calls are in progress at last, `main` and the f that ends among them."""
    body, more, *view = FORMS[name]
    if more == "COUNT":
        body, more = body.split("\n", 1)[1], ""
    text = f"{function(body, *view)}\n{more}\naccess(all) fun main(): Int {{ return f({calls - 2}) }}"
    return json.dumps({"kind": "script", "code": text, "limit": 1_000_000})


def method(calls):
    """The same by functions of a struct, and by initializers, which a contract declares."""
    code = (
        "access(all) contract C { access(all) struct S { access(all) fun f(_ n: Int): Int { if n < 1 { return 0 }\nreturn self.f(n - 1) + 1 } }\n"
        "access(all) struct T { access(all) let n: Int\ninit(_ n: Int) { if n < 1 { self.n = 0 } else { self.n = C.T(n - 1).n + 1 } } } }"
    )
    before = [{"kind": "account"}, {"kind": "deploy", "address": "0x1", "name": "C", "code": code}]
    last = [f"import C from 0x1 access(all) fun main(): Int {{ return C.{it} }}" for it in (f"S().f({calls - 2})", f"T({calls - 2}).n")]
    return ["\n".join(map(json.dumps, [*before, {"kind": "script", "code": it, "limit": 1_000_000}])) for it in last]


# The same as deep as a text may nest: the count that follows is the greatest at which the text is a program.
DEEPEST = {
    "sums in brackets": (124, lambda n: "return ((f(n - 1)" + " + 0" * n + ")" + " + 0" * n + " + 1)"),
    "sums to the right": (62, lambda n: "return " + "(0 + " * n + "(f(n - 1) + 1)" + ")" * n),
    "arguments": (125, lambda n: "return " + "g(" * n + "f(n - 1)" + ")" * n + " + 1"),
    "conditions": (62, lambda n: "return " + "true ? (" * n + "f(n - 1) + 1" + ") : 0" * n),
    "defaults": (125, lambda n: "return " + "(nil as Int?) ?? " * n + "f(n - 1) + 1"),
    "casts": (125, lambda n: "return " + "(" * n + "f(n - 1)" + " as Int)" * n + " + 1"),
    "signs": (31, lambda n: "return " + "-(-(" * n + "f(n - 1)" + "))" * n + " + 1"),
    "contents": (124, lambda n: "return " + "(" * n + "f(n - 1)" + " as Int?)!" * n + " + 1"),
    "indices": (62, lambda n: "return " + "[0, 1][0 * " * n + "f(n - 1)" + "]" * n + " + n"),
    "ifs": (125, lambda n: "if true { " * n + "return f(n - 1) + 1" + " }" * n + "\nreturn 0"),
    "ifs that bind": (125, lambda n: "if let y = (n as Int?) { " * n + "return f(n - 1) + 1" + " }" * n + "\nreturn 0"),
    "loops": (125, lambda n: "for x in [1] { " * n + "return f(n - 1) + 1" + " }" * n + "\nreturn 0"),
    "switches": (125, lambda n: "switch 1 { case 1: " * n + "return f(n - 1) + 1" + " }" * n + "\nreturn 0"),
}


def deepest(name, calls, nestings=None):
    """A script in which so many calls are in progress at last, each in that many nestings of a form."""
    most, body = DEEPEST[name]
    text = f"{function(body(nestings or most))}\naccess(all) fun g(_ n: Int): Int {{ return n }}\naccess(all) fun main(): Int {{ return f({calls - 2}) }}"
    return json.dumps({"kind": "script", "code": text, "limit": 1_000_000})


def run(program, line, stack):
    """The reply, or the status of a program that gave none."""
    def limit():
        resource.setrlimit(resource.RLIMIT_STACK, (stack, resource.getrlimit(resource.RLIMIT_STACK)[1]))

    with tempfile.TemporaryDirectory() as folder:
        done = subprocess.run([program, "run", folder], input=line.encode() + b"\n", capture_output=True, preexec_fn=limit)
    return json.loads(done.stdout.splitlines()[-1]) if done.returncode == 0 and done.stdout else f"status {done.returncode}"


def right(calls):
    return {"reply": "ok", "result": {"type": "Int", "value": str(calls - 2)}} if calls <= 2000 else {"reply": "failed", "error": "124"}


def bytes_a_call(program, script_of, few, many):
    """Bytes of stack for each call of a script, by the least limits at which it gives a reply."""
    needs = []
    for calls in (few, many):
        low, high = 64 << 10, 1 << 30
        while high - low > 16 << 10:
            middle = (low + high) // 2
            if isinstance(run(program, script_of(calls), middle), dict):
                high = middle
            else:
                low = middle
        needs.append(high)
    return (needs[1] - needs[0]) // (many - few)


def measure(program):
    """The bytes of stack that a call of each form takes."""
    for name in FORMS:
        print(f"{name}: {bytes_a_call(program, lambda calls: script(name, calls), 500, 2000):,} bytes a call", flush=True)
    for name, at in (("a function of a struct", 0), ("an initializer", 1)):
        print(f"{name}: {bytes_a_call(program, lambda calls: method(calls)[at], 500, 2000):,} bytes a call", flush=True)
    for name in DEEPEST:
        print(f"{name}, nested: {bytes_a_call(program, lambda calls: deepest(name, calls), 200, 600):,} bytes a call", flush=True)


def main():
    program = sys.argv[-1]
    if "--measure" in sys.argv:
        return measure(program)
    wrong, count = 0, 0
    most = resource.getrlimit(resource.RLIMIT_STACK)[1]
    cases = [(name, script(name, calls), calls, DEAREST.get(name, USUAL)) for name in FORMS for calls in (2000, 2001)]
    cases += [(name, line, calls, DEAREST[name]) for calls in (2000, 2001) for name, line in zip(("a function of a struct", "an initializer"), method(calls))]
    cases += [(f"{name}, nested", deepest(name, 2000), 2000, GIVEN) for name in DEEPEST]
    for name, line, calls, stack in cases:
        if most != resource.RLIM_INFINITY and most < stack:
            print(f"{name}: not run, since this system gives no {stack >> 20} MiB of stack")
            continue
        count += 1
        reply = run(program, line, stack)
        if reply != right(calls):
            wrong += 1
            print(f"{name}: {calls} calls in {stack >> 20} MiB: {reply}, and not {right(calls)}")
    print(f"stack: {count} runs, {wrong} wrong")
    return 1 if wrong else 0


if __name__ == "__main__":
    sys.exit(main())
