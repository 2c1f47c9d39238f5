#!/usr/bin/env python3
"""Gives the program input of every kind, and shows that it ends with the right status and the right replies, and never hangs.

Random bytes; request lines cut anywhere; lines of 1,048,576 bytes and of one more; deep JSON; NUL bytes; each control
character; half surrogates; fields of every kind, order and number; programs at each bound on nesting, and as long as a line
may be; words of every form; folders that aren't there or can't be written, and files that are none; streams that are closed,
full, slow or fail; two runs one after another; and tapes that are cut, changed or made of noise. Around contracts the same
(contract_inputs.py): deploys that are cut, long, misnamed and of odd code, wrong arguments of initializers and transfers, and a
token's session on odd streams. A run that takes a minute counts as one that hangs.

Not tried: 2^40 bytes of input (status 8).

    tests/inputs.py PROGRAM              half a minute
    tests/inputs.py PROGRAM --long       some minutes: more random bytes, every bit of a tape changed, every cut
"""
import argparse
import contextlib
import json
import os
import pathlib
import random
import resource
import select
import shutil
import signal
import subprocess
import sys
import tempfile

import contract_inputs
import model
import nesting
from crashes import Wrong, hold
from model import LIMIT, STATUSES, bad, rejected, result

LONGEST = 1 << 20
ACCOUNT = model.line_of(("account",))
SCRIPT = model.line_of(("script", [[1], [2, 3]]))
SAVE = model.line_of(("save", 1, None, [[40], [2]], "x"))
MOVE = model.line_of(("save", 1, "x", [[2], [1]], "y"))
FIRST = b'{"address":"0x0000000000000001","reply":"ok"}\n'


class Tries:
    """Runs the program on folders of their own."""

    def __init__(self, options, base):
        self.program, self.base, self.long = options.program, base, options.long
        self.chance, self.count = random.Random(options.seed), 0

    def folder(self):
        folder = pathlib.Path(tempfile.mkdtemp(dir=self.base))
        folder.chmod(0o755)
        return folder

    def run(self, what, lines, status, replies, folder=None, **more):
        """One run: this status, or one of these, and these replies where they are told."""
        self.count += 1
        folder = folder or self.folder()
        try:
            done = model.run(self.program, folder, lines, **more)
        except subprocess.TimeoutExpired:
            raise Wrong(f"{what}: the program hangs") from None
        ends = [STATUSES[one] for one in ((status,) if isinstance(status, str) else status)]
        hold(done.returncode in ends, f"{what}: the status is", done.returncode, done.stderr[:200])
        hold((done.stderr == b"") == (done.returncode == STATUSES["done"]), f"{what}: standard error has", done.stderr[:200])
        hold(replies is None or done.stdout == replies, f"{what}: the replies are", done.stdout[:400])
        return done


def is_read(reply):
    """Whether a reply says that the code is a program: it is accepted, or a phase behind `parse` refuses it."""
    told = json.loads(reply)
    if told["reply"] == "rejected":
        return told["phase"] not in ("lex", "parse")
    return told["reply"] != "bad" or reply in (bad(25), bad(26))


def is_command(line):
    return line.strip(b" \t\r") != b""


def no_constant(word):
    raise ValueError(word)


def noise_reply(line):
    """The reply to a line that asks for nothing: it is too long, or no JSON, or no object with a kind of ours."""
    if len(line) > LONGEST:
        return bad(27)
    try:
        told = json.loads(line.decode(), parse_constant=no_constant)
    except (ValueError, RecursionError):
        return bad(21)
    if not isinstance(told, dict) or not isinstance(told.get("kind"), str):
        return bad(22)
    return bad(23)


def noise_replies(lines):
    return b"".join(noise_reply(line) for line in lines.split(b"\n") if is_command(line))


def random_bytes(tries):
    for _ in range(2000 if tries.long else 100):
        size = tries.chance.choice([1, 10, 1000, 100_000])
        alphabet = tries.chance.choice([bytes(range(256)), b"\n\r\t ", b'{}[]",:\n0e', b'{"kind":"account"\n'])
        noise = bytes(tries.chance.choices(alphabet, k=tries.chance.randint(0, size)))
        tries.run("random bytes", noise, "done", noise_replies(noise))


def changed_lines(tries):
    """Lines with a byte changed: each has one reply, and the accounts are sound."""
    folder = tries.folder()
    lines = []
    for _ in range(20_000 if tries.long else 1000):
        line = bytearray(tries.chance.choice([ACCOUNT, SCRIPT, SAVE, MOVE]))
        line[tries.chance.randrange(len(line) - 1)] = tries.chance.choice([b for b in range(256) if b not in b"\n"])
        lines.append(bytes(line))
    done = tries.run("changed lines", b"".join(lines), "done", None, folder)
    hold(done.stdout.count(b"\n") == len(lines), "changed lines: there are", done.stdout.count(b"\n"), "replies to", len(lines))
    accounts = model.accounts_in(folder)
    commands = model.questions(accounts)
    replies = b"".join(model.replies_to(commands, accounts)[0])
    tries.run("after changed lines", b"".join(map(model.line_of, commands)), "done", replies, folder)


def cut_lines(tries):
    for line in (ACCOUNT, SCRIPT, SAVE, MOVE):
        cuts = b"".join(line[:end] + b"\n" for end in range(len(line) - 1))
        tries.run("cut lines", cuts, "done", noise_replies(cuts))
        for end in range(1, len(line) - 1) if tries.long else (1, len(line) // 2, len(line) - 2):
            tries.run("a line that the end of the input cuts", SCRIPT + line[:end], "done", result(7) + bad(21))
    tries.run("no line feed at the end", ACCOUNT + SCRIPT[:-1], "done", FIRST + result(7))
    tries.run("nothing", b"", "done", b"")
    tries.run("blank lines", b"\n\r\n \t\n\n  ", "done", b"")
    tries.run("line ends of two bytes", SCRIPT[:-1] + b"\r\n" + ACCOUNT[:-1] + b"\r\n", "done", result(7) + FIRST)


def padded(line, size):
    """The same request in a line of so many bytes."""
    return line[:-2] + b" " * (size + 1 - len(line)) + b"}\n"


def long_lines(tries):
    for line, reply in ((SCRIPT, result(7)), (ACCOUNT, FIRST)):
        tries.run("a line of 2^20 bytes", padded(line, LONGEST) + SCRIPT, "done", reply + result(7))
        tries.run("a line of 2^20+1 bytes", padded(line, LONGEST + 1) + SCRIPT, "done", bad(27) + result(7))
        tries.run("such lines without a line feed", padded(line, LONGEST) + padded(line, LONGEST + 1)[:-1], "done", reply + bad(27))
    tries.run("noise of 2^20 bytes, and of one more", b"x" * LONGEST + b"\n" + b"x" * (LONGEST + 1), "done", bad(21) + bad(27))
    tries.run("a long blank line", b" " * (LONGEST + 1) + b"\n" + SCRIPT, "done", result(7))
    tries.run("a line of 64 MiB", b"y" * (1 << 26) + b"\n" + SCRIPT, "done", bad(27) + result(7))
    for many, reply in ((120, result), (150_000, lambda value: rejected("parse", 0))):
        tries.run(f"a sum of {many} terms", model.line_of(("script", [[1]] * many)), "done", reply(many))
        tries.run(f"a product of {many} factors", model.line_of(("script", [[1] * many])), "done", reply(1))
        saved = model.line_of(("save", 1, None, [[1]] * many, "x"))
        tries.run(f"a saved sum of {many} terms", ACCOUNT + saved, "done", FIRST + (model.DONE if many == 120 else reply(many)))
    digits = model.line_of(("script", [[1]])).replace(b" 1 ", b" " + b"0" * 500_000 + b"9 ")
    tries.run("a literal of many digits", digits, "done", result(9))


def deep_lines(tries):
    for depth, reply in ((126, FIRST), (127, bad(21)), (500_000, bad(21))):
        line = ACCOUNT[:-2] + b',"more":' + b"[" * depth + b"]" * depth + b"}\n"
        tries.run(f"JSON with {depth} arrays in it", line, "done", reply)
    for open_ in (b"[", b'{"a":', b"[[],"):
        tries.run("JSON that isn't closed", open_ * (1_000_000 // len(open_)) + b"\n" + SCRIPT, "done", bad(21) + result(7))
    deep = b"(" * 100_000 + b"1" + b")" * 100_000
    tries.run("a deep sum", SCRIPT.replace(b"1 +", deep + b" +"), "done", rejected("parse", 0))


def odd_lines(tries):
    for name, (line, number) in {
        "a NUL byte": (b"\0", 21),
        "a NUL byte in the text": (SCRIPT.replace(b"1 +", b"1\0 +"), 21),
        "a NUL behind the object": (ACCOUNT[:-1] + b"\0", 21),
        "bytes that aren't UTF-8": (SCRIPT.replace(b"script", b"scr\xffipt"), 21),
        "half a character's code": (SCRIPT.replace(b"1 +", b"\\ud800 +"), 21),
        "a mark of the byte order": (b"\xef\xbb\xbf" + ACCOUNT[:-1], 21),
        "two objects": (ACCOUNT[:-1] + ACCOUNT[:-1], 21),
        "a limit of 0": (SCRIPT.replace(b'{"kind"', b'{"limit":0,"kind"'), 28),
        "an argument": (SCRIPT.replace(b'{"kind"', b'{"arguments":[1],"kind"'), 25),
        "another kind": (SCRIPT.replace(b"script", b"scripts"), 23),
    }.items():
        tries.run(name, line.rstrip(b"\n") + b"\n" + SCRIPT, "done", bad(number) + result(7))
    for name, more in {"arguments": b'"arguments":[]', "signers": b'"signers":5', "a limit": b'"limit":1000000'}.items():
        tries.run(name, SCRIPT.replace(b'{"kind"', b"{" + more + b',"kind"'), "done", result(7))
    tries.run("a NUL character in the code", SCRIPT.replace(b"1 +", b"1\\u0000 +"), "done", rejected("lex", 38))
    tries.run("no account", SAVE, "done", bad(26))
    tries.run("the last of equal fields", ACCOUNT.replace(b"{", b'{"kind":"script",'), "done", FIRST)


def code_line(code, **more):
    kind = "transaction" if "transaction" in code[:12] else "script"
    return json.dumps({"kind": kind, "code": code, **more}).encode() + b"\n"


def control_characters(tries):
    """Each in code, as JSON writes it and by itself; and some that look like gaps and are none."""
    lines, replies = b"", b""
    for code in [*range(33), *range(127, 161), 0xAD, 0x200B, 0x2028, 0x2029, 0x3000, 0xFEFF, 0xFFFD, 0x1F600]:
        units = chr(code).encode("utf-16-be")
        written = b"".join(b"\\u%02x%02x" % (units[i], units[i + 1]) for i in range(0, len(units), 2))
        reply = result(7) if chr(code) in " \t\r\n" else rejected("lex", 38)
        lines += SCRIPT.replace(b"1 +", b"1" + written + b" +")
        replies += reply
        if code != 10:
            lines += SCRIPT.replace(b"1 +", b"1" + chr(code).encode() + b" +")
            replies += bad(21) if code < 32 else reply
    tries.run("control characters in code", lines, "done", replies)
    gaps = [chr(code) for code in (9, 10, 13, 32)]
    tries.run("gaps in JSON", ACCOUNT.replace(b":", b" \t\r: \t\r")[:-1] + b" \t\r\n", "done", FIRST)
    for gap in gaps:
        code = "access(all) fun main(): Int { return" + gap + "1 }"
        reply = rejected("types", 0, "main") if gap == "\n" else result(1)
        tries.run(f"the gap {gap!r} behind return", code_line(code), "done", reply)


def half_characters(tries):
    for half in ("\\ud800", "\\udfff", "\\udc00\\ud800", "\\ud800\\ud800", "\\ud83dx", "\\ud83d\\n", "\\ud83d\\u0041", "\\ud8", "\\uzzzz", "\\x41"):
        for line in (SCRIPT.replace(b"1 +", b"1" + half.encode() + b" +"), SCRIPT[:-3] + half.encode() + b'"}\n'):
            tries.run(f"{half} in code", line + SCRIPT, "done", bad(21) + result(7))
        tries.run(f"{half} in another field", SCRIPT.replace(b"{", b'{"a":"' + half.encode() + b'",', 1), "done", bad(21))
    for cut in (b"\xc3", b"\xe2\x82", b"\xf0\x9f\x98", b"\xc0\x80", b"\xed\xa0\x80", b"\xf4\x90\x80\x80", b"\x80", b"\xff"):
        tries.run(f"{cut} in code", SCRIPT.replace(b"1 +", b"1" + cut + b" +") + SCRIPT, "done", bad(21) + result(7))


def odd_fields(tries):
    """Whole numbers, lists and texts where they are wanted, and all else; names and values as JSON may write them."""
    refused = {"kind": "script", "code": "fun"}
    for field, kinds in {
        "limit": "1 9999 1000000",
        "arguments": "[] [1,2]",
        "signers": '[] ["0x1"] 5 null {}',
        "other": "1e2 -0 null 1.5e-300",
    }.items():
        for value in kinds.split():
            line = json.dumps(refused)[:-1].encode() + f',"{field}":{value}}}\n'.encode()
            tries.run(f"{field} is {value}", line, "done", rejected("parse", 0))
    for number, values in {
        21: "1e400 01 +1 .5 1. 0x10 1_0 NaN Infinity -",
        22: '18446744073709551616 1e2 1E2 1.0 -0 -1 -0.0 1e-400 99999999999999999999999999 true null [] {} "1"',
        28: "0 1000001 18446744073709551615",
    }.items():
        for value in values.split():
            line = json.dumps(refused)[:-1].encode() + f',"limit":{value}}}\n'.encode()
            tries.run(f"limit is {value}", line + SCRIPT, "done", bad(number) + result(7))
    for value in ("1", "null", "{}", '"[]"'):
        tries.run(f"arguments is {value}", json.dumps(refused)[:-1].encode() + b',"arguments":' + value.encode() + b"}\n", "done", bad(22))
    for value in ("1e400", "01", "+1", "[1,]", "{,}", "tru", "'a'"):
        tries.run(f"another field is {value}", ACCOUNT[:-2] + b',"more":' + value.encode() + b"}\n", "done", bad(21))
    for line in (b'[{"kind":"account"}]', b'"account"', b"null", b"7", b"{}", b'{"kind":["account"]}', b'{"Kind":"account"}'):
        tries.run(f"the line {line}", line + b"\n" + ACCOUNT, "done", bad(22) + FIRST)
    tries.run("a kind in capitals", b'{"kind":"Account"}\n' + ACCOUNT, "done", bad(23) + FIRST)
    for field in ("address", "name", "code"):
        line = {"kind": "deploy", "address": "0x1", "name": "C", "code": "fun"}
        del line[field]
        tries.run(f"a deploy without {field}", ACCOUNT + json.dumps(line).encode(), "done", FIRST + bad(22))


def equal_fields(tries):
    tries.run("names by their codes", b'{"\\u006bin\\u0064":"acc\\u006funt"}\n', "done", FIRST)
    first, second = (line[1:-2] for line in (SCRIPT, model.line_of(("script", [[9]]))))
    code = b'"code":' + second.partition(b'"code": ')[2]
    tries.run("the last of two codes", b"{" + first + b"," + code + b"}\n", "done", result(9))
    tries.run("the last of two codes, the first no text", b'{"code":5,' + first + b"}\n", "done", result(7))
    tries.run("the last of two limits", b'{"limit":"x","limit":-1,"code":"#","limit":3,"kind":"script"}\n', "done", rejected("lex", 0))
    tries.run("the last of two limits is wrong", b'{"limit":3,"code":"#","limit":-0,"kind":"script"}\n', "done", bad(22))
    tries.run("the last of two signers", ACCOUNT + SAVE.replace(b'"signers": ', b'"signers": [], "signers": '), "done", FIRST + model.DONE)
    fields = json.loads(SAVE)
    for order in (("code", "kind", "signers"), ("signers", "code", "kind"), ("kind", "code", "signers"), ("code", "signers", "kind")):
        line = json.dumps({name: fields[name] for name in order}).encode() + b"\n"
        tries.run(f"the order {order}", ACCOUNT + line, "done", FIRST + model.DONE)
    for more, reply in ((b'"limit": 9999', model.DONE), (b'"arguments": []', model.DONE), (b'"limit": 9998', model.DONE), (b'"limit": 1', LIMIT), (b'"arguments": [1]', bad(25))):
        tries.run(f"a save with {more}", ACCOUNT + SAVE.replace(b'{"kind"', b"{" + more + b', "kind"'), "done", FIRST + reply, preexec_fn=model.usual_stack)


def odd_signers(tries):
    for signers, reply in {
        '["0x1"]': model.DONE, '["0x0000000000000001"]': model.DONE, '["0x0001"]': model.DONE,
        '["0x0"]': bad(26), '["0x2"]': bad(26), '["0xFfFFffffFFFFffff"]': bad(26), '["0xabcdef"]': bad(26),
        '["0x00000000000000001"]': bad(22), '["0x"]': bad(22), '["0X1"]': bad(22), '["1"]': bad(22), '[""]': bad(22),
        '["0x1 "]': bad(22), '[" 0x1"]': bad(22), '["0xg"]': bad(22), '["0x-1"]': bad(22), '["0x1_0"]': bad(22),
        '["0x\u0661"]': bad(22), '["0x1\\u0000"]': bad(22), '["0x1","0x1"]': bad(26), "[]": bad(26), '"0x1"': bad(22),
        "[1]": bad(22), "[null]": bad(22), '[["0x1"]]': bad(22), "null": bad(22), "{}": bad(22),
    }.items():  # fmt: skip
        line = SAVE.replace(b'["0x1"]', signers.encode())
        tries.run(f"the signers {signers}", ACCOUNT + line, "done", FIRST + reply)


def nested_programs(tries):
    """Each bracket, sign and word that opens a nesting, 128 times, once more, and as often as a line has room for."""
    forms = list(nesting.forms())
    lines, read, names = [], [], []
    for form in forms:
        for count in (1, nesting.MOST - form[1], nesting.MOST - form[1] + 1):
            lines.append(code_line(nesting.text_of(form, count)))
            read.append(form[1] + count <= nesting.MOST)
            names.append(f"{form[0]}, {count} times")
    done = tries.run("programs that nest", b"".join(lines), "done", None, preexec_fn=model.usual_stack)
    for name, reply, wanted in zip(names, done.stdout.splitlines(keepends=True), read, strict=True):
        hold(is_read(reply) if wanted else reply == rejected("parse", 0), name, "gives", reply)
    for form in forms if tries.long else tries.chance.sample(forms, 10):
        head, _, tail = form[3]
        code = nesting.text_of(form, 900_000 // len(head + tail))
        tries.run(f"{form[0]}, as often as there is room", code_line(code), "done", rejected("parse", 0), preexec_fn=model.usual_stack)
        tries.run(f"{form[0]}, not closed", code_line(form[2] + head * 200), "done", rejected("parse", 0), preexec_fn=model.usual_stack)


def deploy_line(code, address="0x1", **more):
    return json.dumps({"kind": "deploy", "address": address, "name": "C", "code": code, **more}).encode() + b"\n"


CONTRACT = "access(all) contract C {", "}"
KNOT = "access(all) resource R { access(all) var child: @R? init() { self.child <- nil } access(all) fun knot(r: @R) {", "} }"
BAG = "access(all) resource R {} access(all) fun make(): @R { return <-create R() } access(all) fun f(c: Bool) {", "}"
# Code that a phase refuses first, with the phase, the number of the statement, and the declaration or function. All but
# those of contracts are scripts or transactions.
REFUSED = (
    ("import A from 0x1 access(all) fun main() {}", "resolve", 0, "A"),
    ("access(all) fun main() {} access(all) fun main() {}", "resolve", 0, "main"),
    ("access(all) fun f() { let a = 1; let b: T = 1 } access(all) fun main(): T { return 1 }", "resolve", 1, "f"),
    (CONTRACT[0] + CONTRACT[1], "resolve", 0, "C"),
    ("transaction(a: T) {} ", "resolve", 0, "transaction"),
    ("access(all) fun main() { let n: Int = true }", "types", 0, "main"),
    ("access(all) fun main(): Int { let a = 1; if a < 2 { return 3 } }", "types", 3, "main"),
    ("access(all) fun main(): Int { return 170141183460469231731687303715884105728 }", "types", 0, "main"),
    ("transaction { prepare(a: &Account) {} pre { 1 } execute {} }", "types", 0, "pre"),
    ("transaction { prepare(a: &Account) { let b = 1; a.storage.save(1, to: /storage/x) } }", "types", 1, "prepare"),
    ("access(all) fun g() {} access(all) view fun f() { let a = 1; g() } access(all) fun main() {}", "purity", 1, "f"),
    ("transaction { let n: Int prepare(a: &Account) { let b = 1 } }", "initialisation", 1, "prepare"),
)
REFUSED_CONTRACTS = (
    ("access(all) fun f() {}", "resolve", 0, "f"),
    ("access(all) struct interface I { access(all) fun f() } access(all) struct S: I {}", "conformance", 0, "C.S"),
    (KNOT[0] + "let c <- r; r.child <-! c" + KNOT[1], "moves", 1, "C.R.knot"),
    (BAG[0] + "let r <- self.make(); if c { destroy r }" + BAG[1], "moves", 0, "C.f"),
    (BAG[0] + "let r <- self.make(); while c { destroy r }; destroy r" + BAG[1], "moves", 2, "C.f"),
    ("access(all) var n: Int access(all) view fun f() { self.n = 1 } init() { self.n = 0 }", "purity", 0, "C.f"),
    ("access(all) var n: Int init() { let a = 1 }", "initialisation", 1, "C.init"),
    ("access(all) struct S { access(all) let n: Int }", "initialisation", 0, "C.S"),
    # the order of the phases
    ("access(all) fun f(): Int { let b: T = 1; return true }", "resolve", 0, "C.f"),
    (KNOT[0] + "let c <- r; r.child <-! c; let n: Int = true" + KNOT[1], "types", 2, "C.R.knot"),
    ("access(all) var n: Int access(all) view fun f() { self.n = 1 } init() {}", "purity", 0, "C.f"),
)


def refused_code(tries):
    """Code that breaks a rule: the first phase that refuses it, and where. A contract that is accepted is deployed."""
    for code, phase, at, inside in REFUSED:
        tries.run(f"the code {code!r}", code_line(code) + SCRIPT, "done", rejected(phase, at, inside) + result(7))
    for body, phase, at, inside in REFUSED_CONTRACTS:
        code = body if inside == "f" else body.join(CONTRACT)
        told = FIRST + rejected(phase, at, inside) + bad(26)
        tries.run(f"the contract {body!r}", ACCOUNT + deploy_line(code) + deploy_line(code, "0x2"), "done", told)
    accepted = BAG[0] + "let r <- self.make(); destroy r" + BAG[1]
    folder, lines = tries.folder(), deploy_line(accepted.join(CONTRACT))
    tries.run("a contract that nothing refuses", ACCOUNT + lines + lines, "done", FIRST + model.DONE + model.failed(118), folder)
    used = "import C from 0x1 access(all) fun main(): Int { let r <- C.make(); destroy r; return 7 }"
    tries.run("a contract that is there", code_line(used), "done", result(7), folder)
    for more in ({"name": 1}, {"address": "1"}, {"arguments": {}}, {"limit": -1}):
        tries.run(f"a deploy with {more}", ACCOUNT + deploy_line("fun", **{"address": "0x1", **more}), "done", FIRST + bad(22))


MANY = 1_000_000
SUM = "access(all) fun main(): Int { return 7 }"
HEAD = "access(all) fun main() { "
VOID = b'{"reply":"ok","result":{"type":"Void"}}\n'

# Scripts that nothing refuses: the code, the further fields of the line, and the reply.
RUNS = (
    (f"{HEAD}}}", {}, VOID),
    ("access(all) fun main(): Bool { return 1 < 2 }", {}, b'{"reply":"ok","result":{"type":"Bool","value":true}}\n'),
    ("access(all) fun main(a: Int8): Int8 { return a + 1 }", {"arguments": [{"type": "Int8", "value": "126"}]}, b'{"reply":"ok","result":{"type":"Int8","value":"127"}}\n'),
    ("access(all) fun main(a: Int8): Int8 { return a + 1 }", {"arguments": [{"type": "Int8", "value": "127"}]}, model.failed(101)),
    ("access(all) fun main(a: Int8): Int8 { return a + 1 }", {"arguments": [{"type": "Int", "value": "1"}]}, bad(24)),
    ("access(all) fun main(a: Int8): Int8 { return a + 1 }", {"arguments": [{"type": "Int8", "value": "128"}]}, bad(24)),
    ("access(all) fun main(a: Int8): Int8 { return a + 1 }", {}, bad(25)),
    ("access(all) fun main(a: Int8): Int8 { return a + 1 }", {"arguments": [1, 2]}, bad(25)),
    ("access(all) fun f() {}", {}, bad(26)),
    ("access(self) fun main() {}", {"arguments": [1]}, bad(26)),
    (f'{HEAD}panic("stop") }}', {}, model.failed(109)),
    (f"{HEAD}while true {{}} }}", {"limit": 5}, b'{"reply":"limit"}\n'),
    (f"{HEAD}while true {{}} }}", {}, b'{"reply":"limit"}\n'),
    (f"{HEAD}main() }}", {"limit": 100}, b'{"reply":"limit"}\n'),
    (f"{HEAD}main() }}", {}, model.failed(124)),
    ("access(all) fun main(): Address { return getAccount(0x1).address }", {}, b'{"reply":"ok","result":{"type":"Address","value":"0x0000000000000001"}}\n'),
    ("access(all) fun main(): AnyStruct { return Type<Int>() }", {}, model.failed(134)),
)


def scripts(tries):
    """Scripts that run: what they give, where they stop, and what is asked of their arguments. The accounts stay."""
    folder = tries.folder()
    for code, more, reply in RUNS:
        tries.run(f"the script {code!r} with {more}", code_line(code, **more) + SCRIPT, "done", reply + result(7), folder)
    tries.run("a script under another kind", json.dumps({"kind": "script", "code": "transaction {}"}).encode(), "done", bad(26), folder)
    hold(model.accounts_in(folder) == model.Accounts(), "scripts change the accounts")


def nested_code(tries):
    """Code that no phase refuses, as deep as it may nest, and once deeper: the walks of all phases have enough stack."""
    for name in nesting.RIGHT:
        lines = deploy_line(nesting.right_code(name, 1)) + deploy_line(nesting.right_code(name))
        refused = rejected("resolve" if name in nesting.HIGH else "parse", 0)
        tries.run(f"{name} in a contract", ACCOUNT + lines, "done", FIRST + refused + model.DONE, preexec_fn=model.usual_stack)
    for brackets, signs, reply in ((2, 120, model.DONE), (3, 120, rejected("resolve", 0)), (60, 60, rejected("resolve", 0))):
        lines = deploy_line(nesting.high_code(brackets, signs))
        tries.run(f"{brackets} sums of {signs} in each other", ACCOUNT + lines, "done", FIRST + reply)


LONG_CODE = (
    ("a long name", f"access(all) fun {'n' * MANY}() {{}}", bad(26)),
    ("a long comment", f"/*{'c' * MANY}*/{SUM}", result(7)),
    ("a long comment to the end", f"{SUM}//{'c' * MANY}", result(7)),
    ("a long comment that isn't closed", f"/*{'c' * MANY}", rejected("lex", 0)),
    ("comments in comments", "/*" * (MANY // 4) + "*/" * (MANY // 4) + SUM, result(7)),
    ("comments in comments that aren't closed", "/*" * (MANY // 2), rejected("lex", 0)),
    ("a long text", f'{HEAD}let x = "{"t" * MANY}" }}', VOID),
    ("a long text that isn't closed", f'{HEAD}let x = "{"t" * MANY}', rejected("lex", len(HEAD) + 8)),
    ("a long gap", SUM.replace("7", " " * MANY + "7"), result(7)),
    ("many line feeds", "\n" * (MANY // 2) + SUM, result(7)),
    ("many digits", SUM.replace("7", "9" * MANY), rejected("lex", 37)),
    ("many noughts", SUM.replace("7", "0" * MANY + "7"), result(7)),
    ("many underscores", SUM.replace("7", "7" + "_0" * 3 + "_" * MANY), rejected("parse", 0)),
    ("many digits of a fraction", SUM.replace("7", "0." + "0" * MANY), rejected("parse", 0)),
    ("many imports", "import A from 0x1\n" * (MANY // 20), rejected("resolve", 0, "A")),
    ("an import of many names", f"import A{', A' * (MANY // 3)} from 0x1", rejected("resolve", 0, "A")),
    ("an import that doesn't end", f"import A{', A' * (MANY // 3)}", rejected("parse", 0)),
    ("many functions", "access(all) fun f() {}" * (MANY // 22), rejected("resolve", 0, "f")),
    ("many statements", f"{HEAD}{'a;' * (MANY // 2)} }}", rejected("types", 0, "main")),
    ("many semicolons", f"{HEAD}{';' * MANY} }}", rejected("parse", 0)),
    ("many parameters", f"access(all) fun f({'a: A, ' * (MANY // 6)}) {{}}", rejected("resolve", 0, "f")),
    ("many arguments", f"{HEAD}f({'1,' * (MANY // 2)}) }}", rejected("types", 0, "main")),
    ("many elements", f"{HEAD}let x = [{'1,' * (MANY // 2)}] }}", model.failed(123)),
    ("many parts of a name", f"{HEAD}let x: A{'.A' * (MANY // 2)} = 1 }}", rejected("resolve", 0, "main")),
    ("many entitlements", f"access(A{', A' * (MANY // 3)}) fun f() {{}}", rejected("resolve", 0, "f")),
    ("many members of an intersection", f"{HEAD}let x: {{A{', A' * (MANY // 3)}}} = 1 }}", rejected("resolve", 0, "main")),
    ("many cases", f"{HEAD}switch a {{ {'case 1: ' * (MANY // 8)} }} }}", rejected("types", 0, "main")),
    ("many comparisons", f"{HEAD}let x = [{'a<b,' * 10_000}] }}", rejected("types", 0, "main")),
    ("a program and noise behind it", SUM * (MANY // 50) + "#", rejected("lex", len(SUM) * (MANY // 50))),
    ("programs and no program behind them", f"{SUM * (MANY // 50)} x", rejected("parse", len(SUM) * (MANY // 50) + 1)),
)


def long_programs(tries):
    for name, code, reply in LONG_CODE:
        tries.run(name, code_line(code) + SCRIPT, "done", reply + result(7))
    folder = tries.folder()
    commands = [("account",), ("save", 1, None, [[1]], "n" * MANY), ("save", 1, "n" * MANY, [[2]], "m" * 500_000)]
    replies, states = model.replies_to(commands, model.Accounts())
    tries.run("a long path", b"".join(map(model.line_of, commands)), "done", b"".join(replies[:2]) + bad(27), folder)
    hold(model.accounts_in(folder) == states[2], "a long path: the accounts are others")
    tries.run("a long path again", model.line_of(("save", 1, None, [[1]], "n" * MANY)), "done", model.failed(111), folder)


def odd_words(tries):
    folder = str(tries.folder())
    many = [["run", ""], ["run", "-x"], ["run", folder, "more"], ["go", folder], ["run", b"\xff"]]
    for words in [[], ["run"], *many, [folder], ["--help"]]:
        tries.count += 1
        done = subprocess.run([tries.program, *words], input=ACCOUNT, capture_output=True, timeout=60, cwd=folder)
        hold((done.returncode, done.stdout) == (2, b""), "the words", words, "gave status", done.returncode, done.stdout)
    hold(os.listdir(folder) == [], "the words made files")


def odd_folders(tries):
    base = tries.folder()
    tries.run("no such folder", ACCOUNT, "disk", b"", base / "none")
    tries.run("no such folder, and no input", b"", "disk", b"", base / "none")
    (base / "file").write_bytes(b"")
    tries.run("a file in the place of the folder", ACCOUNT, "disk", b"", base / "file")
    (base / "a").mkdir()
    tries.run("a folder in the place of a tape", ACCOUNT, "disk", b"", base)
    user = {"user": 65534, "group": 65534, "extra_groups": []} if os.getuid() == 0 else {}
    closed = tries.folder()
    closed.chmod(0o555)
    tries.run("a folder that can't be written", ACCOUNT, "disk", b"", closed, **user)
    hold(os.listdir(closed) == [], "files in a folder that can't be written")
    files = tries.folder()
    tries.run("an account", ACCOUNT, "done", FIRST, files)
    for name in ("a", "b", "pick"):
        (files / name).chmod(0o444)
    tries.run("tapes that can't be written", ACCOUNT, "disk", b"", files, **user)


def few_files(tries):
    """Limits on how many files may be open, from what the system needs to start the program on."""
    for most in range(4, 13):
        status = "done" if 9 <= most else "disk"
        limit = lambda: resource.setrlimit(resource.RLIMIT_NOFILE, (most, most))
        tries.run(f"at most {most} open files", ACCOUNT, status, FIRST if status == "done" else b"", preexec_fn=limit)


def odd_files(tries):
    """Folders, links, pipes and devices in the place of a file, and files that can't be read."""
    user = {"user": 65534, "group": 65534, "extra_groups": []} if os.getuid() == 0 else {}
    for name in ("a", "b", "pick"):
        for what, make, status in (
            ("a folder", lambda path: path.mkdir(), "disk"),
            ("a link to nothing", lambda path: path.symlink_to(path.parent / "elsewhere"), "done"),
            ("a link into no folder", lambda path: path.symlink_to(path.parent / "none" / "elsewhere"), "disk"),
            ("a link to itself", lambda path: path.symlink_to(path), "disk"),
            ("a link to the folder", lambda path: path.symlink_to(path.parent), "disk"),
            ("a file that can't be read", lambda path: path.touch(0o222), "disk"),
            ("a file that can't be written", lambda path: path.touch(0o444), "disk"),
            ("a link to a full device", lambda path: path.symlink_to("/dev/full"), "disk"),
            ("a pipe", os.mkfifo, "disk"),
        ):
            folder = tries.folder()
            folder.chmod(0o777)
            make(folder / name)
            (folder / name).chmod(0o777) if what in ("a pipe", "a folder") else None
            told = FIRST if status == "done" else b""
            tries.run(f"{what} in the place of {name}", ACCOUNT, status, told, folder, **user)
    real, links = tries.folder(), tries.folder()
    (links / "link").symlink_to(real)
    tries.run("a link to the folder", ACCOUNT, "done", FIRST, links / "link")
    hold(model.accounts_in(real).count == 1, "a link to the folder: the accounts are others")
    tries.run("a folder with a slash behind it", SAVE, "done", model.DONE, f"{real}/")
    tries.run("a folder with odd letters", ACCOUNT, "disk", b"", real / "\n\u00e9 \u2028'")
    tries.run("a name of a folder that is too long", ACCOUNT, "disk", b"", real / ("n" * 300))
    tries.run("a path that is too long", ACCOUNT, "disk", b"", str(real) + "/." * 60_000)


@contextlib.contextmanager
def closed_pipe():
    """The writing end of a pipe that nobody reads."""
    reading, writing = os.pipe()
    os.close(reading)
    try:
        yield writing
    finally:
        os.close(writing)


def stream_run(tries, what, status, folder, words=None, **streams):
    """A run whose streams are odd: this status, and afterwards the accounts are there, and one more at most."""
    tries.count += 1
    before = model.accounts_in(folder)
    process = subprocess.Popen(words or [tries.program, "run", str(folder)], **streams)
    try:
        process.communicate(ACCOUNT if process.stdin else None, timeout=60)
    except subprocess.TimeoutExpired:
        process.kill()
        raise Wrong(f"{what}: the program hangs") from None
    try:
        after = model.accounts_in(folder)
    except model.Damaged:
        raise Wrong(f"{what}: the tapes are damaged, and the status is {process.returncode}") from None
    hold(process.returncode == STATUSES[status], f"{what}: the status is", process.returncode)
    hold(after.count - before.count in (0, 1), f"{what}: there were {before.count} accounts, and now there are {after.count}")
    tries.run(f"after {what}", ACCOUNT, "done", after.after(("account",))[0], folder)


def odd_streams(tries):
    folder, pipe, none = tries.folder(), subprocess.PIPE, subprocess.DEVNULL
    tries.run("an account", ACCOUNT, "done", FIRST, folder)
    with closed_pipe() as closed:
        stream_run(tries, "an output that nobody reads", "write", folder, stdin=pipe, stdout=closed, stderr=none)
    with open("/dev/full", "wb") as full:
        stream_run(tries, "a full output", "write", folder, stdin=pipe, stdout=full, stderr=none)
        stream_run(tries, "a full standard error", "write", folder, stdin=pipe, stdout=full, stderr=full)
    reading = os.open(folder, os.O_RDONLY)
    stream_run(tries, "a folder as the input", "read", folder, stdin=reading, stdout=none, stderr=none)
    os.close(reading)


def slow_streams(tries):
    """Each reply comes before the next line is given, however the bytes come; and the reader goes away after the first."""
    folder, pipe = tries.folder(), subprocess.PIPE
    lines = [ACCOUNT, SAVE, SCRIPT, b" \n" + MOVE, MOVE[:-1] + b"\r\n"]
    replies = [FIRST, model.DONE, result(7), model.DONE, model.failed(106)]
    process = subprocess.Popen([tries.program, "run", str(folder)], stdin=pipe, stdout=pipe, bufsize=0)
    tries.count += 1
    for line, reply in zip(lines, replies):
        for part in (line[:1], line[1:9], line[9:-1], line[-1:]):
            process.stdin.write(part)
        ready = select.select([process.stdout], [], [], 60)[0]
        hold(ready, "no reply before the next line")
        hold(process.stdout.read(1000) == reply, "a wrong reply to", line)
    process.stdin.close()
    hold(process.wait(60) == 0, "slow lines end with", process.returncode)
    process.stdout.close()
    with subprocess.Popen([tries.program, "run", str(folder)], stdin=pipe, stdout=pipe, stderr=pipe, bufsize=0) as process:
        process.stdin.write(ACCOUNT)
        hold(process.stdout.read(1000) == FIRST.replace(b"1", b"2"), "a wrong reply to the reader that goes away")
        process.stdout.close()
        process.stdin.write(ACCOUNT + ACCOUNT)
        hold(process.wait(60) == 4, "where the reader goes away the status is", process.returncode)
        process.stdin.close()
    hold(model.accounts_in(folder).count == 3, "where the reader went away there are", model.accounts_in(folder).count, "accounts")


def closed_streams(tries):
    """Streams that are closed from the begin: no tape is opened in their place."""
    folder, pipe = tries.folder(), subprocess.PIPE
    ways = {"2>&-": "done", ">&-": "write", "<&-": "read", ">&- 2>&-": "write", "<&- 2>&-": "read", "<&- >&- 2>&-": "read"}
    for closed, status in ways.items():
        words = ["sh", "-c", f'exec "$0" run "$1" {closed}', tries.program, str(folder)]
        stream_run(tries, f"streams that are closed ({closed})", status, folder, words, stdin=pipe, stdout=pipe, stderr=pipe)


def little_memory(tries):
    """Limits on memory, from too little for the system to start the program: what was replied to is there, and right."""
    commands = [("account",), ("save", 1, None, [[40], [2]], "x"), ("script", [[1]] * 120), ("account",)]
    lines = b"".join(map(model.line_of, commands))
    replies, states = model.replies_to(commands, model.Accounts())
    for kilobytes in [*range(2500, 5000, 20 if tries.long else 100), *range(5000, 60_000, 1000 if tries.long else 8000)]:
        folder, limit = tries.folder(), (kilobytes << 10, kilobytes << 10)
        done = model.run(tries.program, folder, lines, preexec_fn=lambda: resource.setrlimit(resource.RLIMIT_AS, limit))
        tries.count += 1
        # The system can't start it; or the limit, which counts the stack too, leaves the stack less than it may have.
        small = kilobytes << 10 < 2 * os.path.getsize(tries.program) + model.STACK
        started = done.returncode != 127
        statuses = (0, 6, -signal.SIGSEGV) if small else (0, 6)
        hold(done.returncode in statuses if started else done.stdout == b"", f"with {kilobytes} KiB the status is", done.returncode)
        told = done.stdout.count(b"\n")
        hold(done.stdout == b"".join(replies[:told]), f"with {kilobytes} KiB the replies are", done.stdout)
        hold((told == 4) == (done.returncode == 0), f"with {kilobytes} KiB there are {told} replies")
        kept = states[told : told + 2] if done.returncode == -signal.SIGSEGV else [states[told]]  # what was done may not be told yet
        hold(model.accounts_in(folder) in kept, f"with {kilobytes} KiB the accounts are others")


def two_runs(tries):
    """Runs one after another on one folder, each on the accounts that the one before left."""
    folder, accounts = tries.folder(), model.Accounts()
    for commands in (
        [("account",), ("save", 1, None, [[40], [2]], "x")],
        [("account",), ("save", 1, "x", [[2]], "y"), ("save", 2, "x", [[2]], "y")],
        [("save", 1, "x", [[1]], "z"), ("save", 1, "y", [[1]], "y"), ("save", 1, "y", [[1], [0]], "x"), ("save", 3, None, [[1]], "x")],
        [],
    ):
        commands = model.questions(accounts) + commands
        replies, states = model.replies_to(commands, accounts)
        tries.run("a run on a folder", b"".join(map(model.line_of, commands)), "done", b"".join(replies), folder)
        accounts = states[-1]
        hold(model.accounts_in(folder) == accounts, "after a run on a folder the accounts are others")


def store_run(tries, what, tape, pick=b"\1", other=None):
    """A run on these tapes: refused exactly where they stand for no accounts, and they are then as they were. Of registers that the
    model can't judge it is asked alone that they are refused or opened so."""
    folder = tries.folder()
    for name, data in (("a", tape), ("b", other), ("pick", pick)):
        if data is not None:
            (folder / name).write_bytes(data)
    try:
        accounts = model.accounts_in(folder)
    except model.Damaged as damage:
        can_open = isinstance(damage, model.Unjudged)
        done = tries.run(what, SCRIPT if can_open else ACCOUNT, ("done", "store") if can_open else "store", None, folder)
        is_refused = done.returncode == STATUSES["store"]
        hold(done.stdout == (b"" if is_refused else result(7)), f"{what}: the replies are", done.stdout[:400])
        if is_refused:
            hold((folder / "a").read_bytes() == tape and (folder / "pick").read_bytes() == pick, f"{what}: the tapes were changed")
        return is_refused
    commands = [command for command in model.questions(accounts) if command[1] < 2**64]
    replies = model.replies_to(commands, accounts)[0]
    tries.run(what, b"".join(map(model.line_of, commands)), "done", b"".join(replies), folder)
    return False


def cut_stores(tries):
    head = {b"\0": model.number_field(1) * 2, b"\1" + model.number_field(1): model.number_field(1)}
    tape = model.record_of(head) + b"\0"
    for end in range(1, len(tape)) if tries.long else (1, 8, 9, 40, 66):
        hold(store_run(tries, f"a tape that is cut to {end} bytes", tape[:end]), f"a tape that is cut to {end} bytes isn't refused")
    for more in (b"", b"\0", b"\1", tape, b"noise"):
        hold(not store_run(tries, "bytes behind the closed gate", tape + more), "bytes behind the closed gate are refused")
    for pick in (b"", b"\0", b"\2\1", b"\1\0", b"\xff"):
        store_run(tries, f"pick {pick!r}", tape, pick)
        store_run(tries, f"pick {pick!r} with both tapes", tape, pick, tape[:-1])
        store_run(tries, f"pick {pick!r} with noise on b", tape, pick, b"\1\2\3")
    store_run(tries, "no tapes", b"", b"\1")


def stored_key(address, name):
    return b"\4" + model.number_field(address) + name


def changed_stores(tries):
    """Each byte of a tape, changed in one bit."""
    accounts = model.Accounts(2, {(1, "x"): 5, (1, "long_name"): model.GREATEST, (2, "x"): 0})
    moved = {stored_key(1, b"x"): None, stored_key(2, b"y"): accounts.registers()[stored_key(2, b"x")]}
    tape = model.record_of(accounts.registers()) + model.record_of(moved) + b"\0"
    hold(not store_run(tries, "a good tape", tape), "a good tape is refused")
    refused = 0
    for at in range(len(tape)):
        for bit in range(8) if tries.long else (tries.chance.randrange(8),):
            changed = bytearray(tape)
            changed[at] ^= 1 << bit
            refused += store_run(tries, f"a tape with bit {bit} of byte {at} changed", bytes(changed))
    hold(0 < refused, "no changed tape is refused")


def odd_stores(tries):
    one = {b"\0": model.number_field(1) * 2, b"\1" + model.number_field(1): model.number_field(1)}
    value = b"\4\0\0" + b"\0" * 15 + b"\5"
    for what, changes in {
        "a number's sign is 2": {stored_key(1, b"x"): b"\4\0\2" + value[3:]},
        "a number is -0": {stored_key(1, b"x"): b"\4\0\1" + b"\0" * 16},
        "a number is -5": {stored_key(1, b"x"): b"\4\0\1" + value[3:]},
        "a number is too large": {stored_key(1, b"x"): b"\4\0\0" + b"\x80" + b"\0" * 15},
        "a name isn't text": {stored_key(1, b"\xff"): value},
        "a number of no account": {stored_key(2, b"x"): value},
        "an account over the count": {b"\1" + model.number_field(2): model.number_field(1)},
        "a key of another kind": {b"\2": b""},
        "an empty key": {b"": b""},
        "no head": {b"\0": None},
        "no account": {b"\1" + model.number_field(1): None},
        "a count that is too large": {b"\0": model.number_field(2**63) + model.number_field(1)},
        "a head of 8 bytes": {b"\0": model.number_field(1)},
    }.items():
        store_run(tries, what, model.record_of(one) + model.record_of(changes) + b"\0")
    unordered = b"\1\0\0\0\2" + b"\0\0\0\1b\0" + b"\0\0\0\1a\0"
    store_run(tries, "keys out of order", b"\1" + model.number_field(len(unordered)) + unordered + b"\0")
    store_run(tries, "a length of 2^64-1", b"\1" + b"\xff" * 8 + b"\0" * 100)
    store_run(tries, "a length of 2^63", b"\1\x80" + b"\0" * 107)
    store_run(tries, "2^32-1 entries", b"\1" + model.number_field(5) + b"\1" + b"\xff" * 4 + b"\0")
    for _ in range(2000 if tries.long else 50):
        store_run(tries, "tapes of noise", b"\1" + tries.chance.randbytes(tries.chance.randint(0, 300)))


def most_accounts(tries):
    """A store of as many accounts as there may be: no other is made, and the tapes stay as they were."""
    folder, tape = tries.folder(), model.record_of(model.Accounts(model.MOST_ACCOUNTS).registers()) + b"\0"
    (folder / "a").write_bytes(tape)
    (folder / "pick").write_bytes(b"\1")
    tries.run("one account too many", ACCOUNT + ACCOUNT + SCRIPT, "done", model.failed(127) * 2 + result(7), folder)
    hold((folder / "a").read_bytes() == tape, "one account too many changes the tapes")


KINDS = [
    random_bytes, changed_lines, cut_lines, long_lines, deep_lines, odd_lines, control_characters, half_characters, odd_fields,
    equal_fields, odd_signers, refused_code, scripts, nested_programs, nested_code, long_programs, odd_words, odd_folders, few_files, odd_files, odd_streams,
    slow_streams, closed_streams, little_memory, two_runs, cut_stores, changed_stores, odd_stores, most_accounts,
    *contract_inputs.KINDS,
]  # fmt: skip


def options_of():
    parser = argparse.ArgumentParser(description=__doc__, formatter_class=argparse.RawDescriptionHelpFormatter)
    parser.add_argument("program", metavar="PROGRAM")
    parser.add_argument("--long", action="store_true", help="more of each")
    parser.add_argument("--seed", type=int, default=random.randrange(10**6), metavar="N", help="for the random choices")
    names = [kind.__name__ for kind in KINDS]
    parser.add_argument("--only", metavar="KIND", choices=names, help="one kind: " + ", ".join(names))
    return parser.parse_args()


def main():
    options, wrong = options_of(), 0
    model.give_stack()
    with tempfile.TemporaryDirectory() as name:
        base = pathlib.Path(name)
        base.chmod(0o755)
        options.program = shutil.copy(options.program, base / "program")
        tries = Tries(options, base)
        for kind in KINDS:
            if options.only not in (None, kind.__name__):
                continue
            try:
                kind(tries)
            except (Wrong, model.Damaged, subprocess.TimeoutExpired) as failure:
                print(f"inputs: WRONG in {kind.__name__}, with --seed {options.seed}: {type(failure).__name__} {failure}")
                wrong += 1
    print(f"inputs: {tries.count} runs, and {wrong} of {len(KINDS)} kinds wrong" if wrong else f"inputs: {tries.count} runs held")
    return 1 if wrong else 0


if __name__ == "__main__":
    sys.exit(main())
