"""Odd input around contracts, a part of inputs.py: deploys that are cut, of odd code, at odd addresses, under other names and with
odd arguments; transfers of a token with amounts that have no form of theirs; and closed, full and slow streams in its session.

What the replies and the registers have to be follows docs/FORMATS.md and docs/ERRORS.md: of a token's session tokens.py says it,
and of texts that are no programs reference_syntax.py.
"""
import contextlib
import json
import os
import select
import subprocess

import model
import tokens
from crashes import TOKENS, difference, hold
from generate import TOKEN, address
from model import LIMIT, STATUSES, bad, failed, rejected
from reference_syntax import stop_of
from tokens import TOKEN_UNITS, compact, done, line_of, maybe, number_told, result, told

LONGEST = 1 << 20
ACCOUNT = line_of(("account",))
DEPLOY = line_of(("deploy",))
TRANSFER = line_of(("transfer", 1, 2, 10 * TOKEN_UNITS))
FIRST = [("account",)] * 4 + [("deploy",), *[("setup", one) for one in (2, 3, 4)], *[("publish", one) for one in (1, 2, 3, 4)]]
FIRST += [("transfer", 1, one, 100 * TOKEN_UNITS) for one in (2, 3, 4)]
BEGUN = model.replies_to(FIRST, tokens.Tokens())[1][-1]
ONE = b'{"address":"0x0000000000000001","reply":"ok"}\n'


def begun(tries):
    """A folder with a token in the middle of its session."""
    folder = tries.folder()
    replies = model.replies_to(FIRST, tokens.Tokens())[0]
    tries.run("a token's session", TOKENS.lines_of(FIRST), "done", b"".join(replies), folder)
    return folder


def is_there(tries, what, folder, tokens_):
    """The registers are those of this session, and so are the replies of the next run."""
    hold(model.registers_in(folder) == tokens_.registers(), f"{what}: the registers are others")
    commands = TOKENS.questions(tokens_)
    replies = model.replies_to(commands, tokens_)[0]
    tries.run(f"after {what}", TOKENS.lines_of(commands), "done", b"".join(replies), folder)


def has_code(what, folder, code, name=b"C", at=1):
    """The code of this contract is the one in the folder."""
    key = b"\2" + model.number_field(at) + name
    hold(model.registers_in(folder).get(key) == code.encode(), f"{what}: the code in the folder is another")


def deploy_line(code, name="C", at=1, **more):
    return compact({"address": address(at), "code": code, "kind": "deploy", "name": name, **more}).encode() + b"\n"


def script_line(code):
    return compact({"code": code, "kind": "script"}).encode() + b"\n"


def each(tries, what, cases, folder, behind):
    """Lines one after another in one run, each with its reply; and what there is behind them."""
    got = tries.run(what, b"".join(line for line, _ in cases), "done", None, folder).stdout
    replies = [reply for _, reply in cases]
    hold(got == b"".join(replies), f"{what}:", *difference(got, replies))
    is_there(tries, what, folder, behind)


# ---- lines and codes that are cut


def cut_deploys(tries):
    """Lines of a token's session that a line feed or the end of the input cuts: nothing runs of them."""
    for line in map(line_of, (("deploy",), ("setup", 1), ("publish", 4), ("transfer", 1, 2, 5), ("balances", 4))):
        each(tries, "cut lines of a token", [(line[:end] + b"\n", bad(21)) for end in range(1, len(line) - 1)], begun(tries), BEGUN)
    for command, reply in ((("deploy",), failed(118)), (("transfer", 2, 3, 1), None)):
        line, folder, there = line_of(command), begun(tries), BEGUN
        for end in range(1, len(line) - 1) if tries.long else (1, len(line) // 2, len(line) - 2):
            tries.run("a line of a token that ends with the input", line[:end], "done", bad(21), folder)
        reply, there = (reply, there) if reply else there.after(command)
        tries.run("no line feed behind a line of a token", line[:-1], "done", reply, folder)
        is_there(tries, "no line feed behind a line of a token", folder, there)
    half = len(DEPLOY) // 2
    tries.run("a deploy in two lines", ACCOUNT + DEPLOY[:half] + b"\n" + DEPLOY[half:] + DEPLOY, "done", ONE + bad(21) * 2 + done([1]))


def reply_to_code(code):
    """The reply to a deploy of a piece of the token's code, none of which is a program but the empty one."""
    stop = stop_of(code.encode())
    return failed(120) if stop is None else rejected(*stop)


def cut_codes(tries):
    """A deploy whose code ends early or begins late, in a line that is whole."""
    places = range(len(TOKEN) - 3) if tries.long else sorted(tries.chance.sample(range(len(TOKEN) - 3), 150))
    pieces = [TOKEN[:at] for at in places] + [TOKEN[at:] for at in places if 0 < at < TOKEN.index("contract Token {")]
    folder, there = tries.folder(), tokens.Tokens(1)
    tries.run("an account", ACCOUNT, "done", ONE, folder)
    each(tries, "cut codes", [(deploy_line(piece, "Token"), reply_to_code(piece)) for piece in pieces], folder, there)
    each(tries, "a code behind cut ones", [(DEPLOY, done([1]))], folder, there.after(("deploy",))[1])


# ---- codes with odd characters, and of many bytes


def odd_codes(tries):
    """Bytes that no code has, in each kind of place of a deploy's line."""
    line = deploy_line(TOKEN, "Token")
    places = {"between tokens": b" contract", "in a text": b"too little", "in a name": b"upply", "before the code": b"access(all) contract"}
    odd = b"\0 \x01 \x7f\xff \xc3 \xc0\x80 \xed\xa0\x80 \xf4\x90\x80\x80 \\ud800 \\udc00\\ud800 \\u0x \\x41 \\q".split(b" ")
    for what, place in places.items():
        lines = [line.replace(place, one + place, 1) for one in odd]
        told_ = ONE + bad(21) * len(odd) + failed(120) + done([1])
        tries.run(f"odd bytes {what}", ACCOUNT + b"".join(lines) + deploy_line("", "Token") + DEPLOY, "done", told_)
        for one in ("\0", "\x01", "\x7f", "\xa0", "\u200b", "\ufeff", "\ufffd", "\U0001f600", "#", "`"):
            odd_code(tries, f"{one!r} {what}", TOKEN.replace(place.decode(), one + place.decode(), 1))
    for one in ("\0", "\x85", "\ufeff", "\U0001f600", "*/"):
        odd_code(tries, f"{one!r} in a comment", TOKEN.replace(" contract", "/* " + one + " */ contract", 1))
        odd_code(tries, f"{one!r} in a comment of a line", f"// {one}\n{TOKEN}")
    odd_code(tries, "line ends of two bytes", TOKEN.replace("\n", "\r\n"))


def odd_code(tries, what, code):
    """A code of the token with a character more: refused at its place, or there as it was sent, and found so again."""
    folder, stop = tries.folder(), stop_of(code.encode())
    reply = done([1]) if stop is None else rejected(*stop)
    tries.run(what, ACCOUNT + deploy_line(code, "Token"), "done", ONE + reply, folder)
    there = tokens.Tokens(1)
    if stop is None:
        has_code(what, folder, code, b"Token")
        there = there.after(("deploy",))[1]
    commands = TOKENS.questions(there)
    tries.run(f"after {what}", TOKENS.lines_of(commands), "done", b"".join(model.replies_to(commands, there)[0]), folder)


def long_code(line_size, last=""):
    """A contract with as many functions as a line of so many bytes has room for, and the number of the last one."""
    room = line_size + 1 - len(deploy_line("access(all) contract C {" + last + "}"))
    made, number = [], 0
    while True:
        function = f" access(all) fun f{number}(): Int {{ return {number} }}"
        if room < len(function):
            return "access(all) contract C {" + "".join(made) + " " * room + last + "}", number - 1
        room -= len(function)
        made.append(function)
        number += 1


def long_codes(tries):
    """Contracts of a megabyte: a line of 2^20 bytes is a deploy, and a longer one is none; the last function is looked at too."""
    folder, (code, last) = tries.folder(), long_code(LONGEST)
    line = deploy_line(code)
    hold(len(line) == LONGEST + 1, "the line has", len(line), "bytes")
    tries.run("a contract of many functions", ACCOUNT + line[:-2] + b" }\n" + line, "done", ONE + bad(27) + done(), folder)
    has_code("a contract of many functions", folder, code)
    line = script_line("import C from 0x1 access(all) fun main(): [Int] { return [C.f0(), C.f%d()] }" % last)
    numbers = [told("Int", str(number)) for number in (0, last)]
    tries.run("the last of many functions", line, "done", result(told("Array", numbers)), folder)
    code, last = long_code(LONGEST, "access(all) fun g(): Int { return true }")
    tries.run("a contract whose last function is wrong", ACCOUNT + deploy_line(code), "done", ONE + rejected("types", 0, "C.g"))
    comment = "access(all) contract C { /*" + "c" * 1_000_000 + "*/ }"
    tries.run("a contract with a long comment", ACCOUNT + deploy_line(comment), "done", ONE + done(), folder=(folder := tries.folder()))
    has_code("a contract with a long comment", folder, comment)


# ---- addresses and names


EMPTY = "access(all) contract C {}"


def odd_addresses(tries):
    """Addresses of a deploy: without an account, of no form, and the right one in each of its forms."""
    for given, reply in {
        "0x1": done(), "0x0000000000000001": done(), "0x001": done(), "0x3": done(),
        "0x0": bad(26), "0x4": bad(26), "0xFfFFffffFFFFffff": bad(26), "0xabcdef": bad(26), "0x8000000000000001": bad(26),
        "0x00000000000000001": bad(22), "0x": bad(22), "0X1": bad(22), "1": bad(22), "": bad(22), "0x1 ": bad(22), " 0x1": bad(22),
        "0xg": bad(22), "0x-1": bad(22), "0x1_0": bad(22), "0x\u0661": bad(22), "0x1\0": bad(22), "x1": bad(22),
    }.items():  # fmt: skip
        line = compact({"address": given, "code": EMPTY, "kind": "deploy", "name": "C"}).encode() + b"\n"
        there = b"".join(model.replies_to([("account",)] * 3, tokens.Tokens())[0])
        tries.run(f"a deploy at {given!r}", ACCOUNT * 3 + line, "done", there + reply)
    for given in (b"1", b"null", b"[]", b"{}", b'["0x1"]', b"true"):
        line = deploy_line(EMPTY).replace(b'"0x0000000000000001"', given)
        tries.run(f"a deploy at {given}", ACCOUNT + line, "done", ONE + bad(22))
    # What comes first: the form of the fields, the limit, the account, the name that is taken, and only then the code.
    taken = [
        (deploy_line("#", at=9, limit=0), bad(28)), (deploy_line("#", at=9, limit="1"), bad(22)), (deploy_line("#", at=9), bad(26)),
        (deploy_line("#", "Token"), failed(118)), (deploy_line(TOKEN, "Token", limit=1), failed(118)),
        (deploy_line("#", "Token", at=2), rejected("lex", 0)), (deploy_line(EMPTY, "Token", at=2), failed(120)),
    ]  # fmt: skip
    each(tries, "what comes first", taken, begun(tries), BEGUN)


def odd_names(tries):
    """Names that aren't the contract's, and codes that aren't one contract: nothing is there of them."""
    nested = "access(all) contract C { access(all) struct S {} }"
    names = ["D", "c", "", " C", "C ", "C.C", "CC", "\0", "C\0", "\u00c7", "\uff23", "S", "C.S", "contract", "n" * 100_000]
    cases = [(deploy_line(nested, name), failed(120)) for name in names]
    cases += [(deploy_line(code, name), failed(120)) for code in ("", " ", "// nothing") for name in ("C", "D", "")]
    cases += [(deploy_line(EMPTY).replace(b'"name":"C"', b'"name":' + given), bad(22)) for given in (b"1", b"null", b'["C"]', b"{}")]
    cases += [(deploy_line("import Token from 0x1", name), failed(120)) for name in ("C", "Tokens", "")]
    # Beside a contract nothing else has its place.
    for more, inside in {"access(all) contract D {}": "D", "access(all) fun f() {}": "f", "transaction {}": "transaction"}.items():
        cases += [(deploy_line(f"{EMPTY} {more}", name), rejected("resolve", 0, inside)) for name in ("C", "D", "f")]
    cases += [(script_line("import C from 0x1 access(all) fun main() {}"), rejected("resolve", 0, "C"))]
    each(tries, "odd names", cases, begun(tries), BEGUN)
    folder = tries.folder()
    told_ = model.replies_to([("account",)] * 2, tokens.Tokens())[0]
    lines = ACCOUNT * 2 + deploy_line(EMPTY, "\\u0043") + deploy_line(EMPTY).replace(b'"C"', b'"\\u0043"') + deploy_line(EMPTY, at=2) + deploy_line(EMPTY)
    tries.run("a name by its code", lines, "done", b"".join(told_) + failed(120) + done() + done() + failed(118), folder)
    for at in (1, 2):
        has_code("a name by its code", folder, EMPTY, at=at)


# ---- arguments


# A parameter's type, an argument that fits, and values that don't. Each is JSON.
PARAMETERS = (
    ("Int8", '{"type":"Int8","value":"-128"}', ('"-129"', '"128"', '"1.0"', '"+1"', '""', '"-"', '"--1"', '" 1"', '"0x1"', "1", "null", "[]", "true")),
    ("UInt64", '{"type":"UInt64","value":"18446744073709551615"}', ('"18446744073709551616"', '"-1"', '"-0"', "18446744073709551615")),
    ("UFix64", '{"type":"UFix64","value":"0.00000001"}', ('"1"', '"0.000000001"', '"-1.0"', '"1."', '".5"', "0.5", '"184467440737.09551616"')),
    ("String", '{"type":"String","value":"\\u0000\\ud83d\\ude00"}', ("1", "null", "[]")),
    ("Character", '{"type":"Character","value":"e\\u0301"}', ('""', '"ab"', "1")),
    ("Address", '{"type":"Address","value":"0xFfFFffffFFFFffff"}', ('"1"', '"0x"', '"0x10000000000000000"', '"0X1"', "1")),
    ("Bool", '{"type":"Bool","value":false}', ('"false"', "0", "null")),
    ("Int?", '{"type":"Optional","value":null}', ("1", '"nil"', '{"type":"String","value":"1"}', '{"type":"Int","value":1}', "[]")),
    ("[Int]", '{"type":"Array","value":[]}', ("null", "{}", "[1]", '[{"type":"Int8","value":"1"}]', '[{"type":"Int","value":"1"},null]')),
    ("{String: Int}", '{"type":"Dictionary","value":[]}', ("null", "{}", '[{"key":{"type":"String","value":"a"}}]', '[{"key":{"type":"Int","value":"1"},"value":{"type":"Int","value":"1"}}]')),
    ("StoragePath", '{"type":"Path","value":{"domain":"storage","identifier":"x"}}', ('{"domain":"public","identifier":"x"}', '{"domain":"storage"}', '"/storage/x"')),
)  # fmt: skip
KEEPER = "access(all) contract C {\n%s\n init(%s) {\n%s\n} }" % tuple(
    sign.join(form % {"at": at, "type": one[0]} for at, one in enumerate(PARAMETERS))
    for sign, form in (("\n", "access(all) let f%(at)d: %(type)s"), (", ", "f%(at)d: %(type)s"), ("\n", "self.f%(at)d = f%(at)d"))
)
RIGHT = [right for _, right, _ in PARAMETERS]


def initializer_line(arguments, code=KEEPER):
    """A deploy with these JSON texts as its arguments."""
    return deploy_line(code, arguments=[]).replace(b'"arguments":[]', b'"arguments":[' + ",".join(arguments).encode() + b"]")


def wrong_arguments():
    """Arguments of an initializer, of which one doesn't fit: by its type, by its value or by its form; or one more or one fewer."""
    for at, (_, right, wrong) in enumerate(PARAMETERS):
        head = right[: right.index('"value":')] + '"value":'
        others = [one for place, one in enumerate(RIGHT) if place != at]
        forms = ["null", "1", '""', "[]", "{}", right[:-1] + ',"more":1}', head[:-9] + "}", '{"type":"Void"}', right.replace('"type"', '"kind"', 1)]
        for one in [head + value + "}" for value in wrong] + forms + others:
            yield [*RIGHT[:at], one, *RIGHT[at + 1 :]]
        yield RIGHT[:at] + RIGHT[at + 1 :]
        yield RIGHT[: at + 1] + RIGHT[at:]


def initializer_arguments(tries):
    """Arguments of an initializer that don't fit it, and some that do; and initializers that come to an error."""
    cases = [(initializer_line(arguments), failed(125)) for arguments in wrong_arguments()]
    cases += [(initializer_line([]), failed(125)), (deploy_line(KEEPER), failed(125))]
    cases += [(deploy_line(KEEPER, arguments=given), bad(22)) for given in ("[]", None, {}, 1, True)]
    cases += [(deploy_line(EMPTY, arguments=[given]), failed(125)) for given in (1, None, {"type": "Int", "value": "1"})]
    for body, reply in {
        'panic("stop")': failed(109), "assert(false)": failed(110), "let a: Int8 = 127; let b = a + 1": failed(101), "while true {}": LIMIT,
        "self.account.storage.save(1, to: /storage/token)": failed(111), "let a = [1][1]": failed(104),
        "let a = self.account.storage.borrow<&Int>(from: /storage/token)": failed(112),
    }.items():  # fmt: skip
        cases.append((deploy_line("access(all) contract C { init() { self.account.storage.save(1, to: /storage/y); " + body + " } }"), reply))
    cases.append((script_line("import C from 0x1 access(all) fun main() {}"), rejected("resolve", 0, "C")))
    cases.append((initializer_line(RIGHT).replace(b'{"address"', b'{"limit":1,"address"'), LIMIT))
    folder = begun(tries)
    each(tries, "arguments of an initializer", cases, folder, BEGUN)
    tries.run("arguments that fit", initializer_line(RIGHT), "done", done(), folder)
    has_code("arguments that fit", folder, KEEPER)
    same = r'C.f3 == "\u{0}\u{1F600}", C.f4 == "e\u{301}", C.f8.length == 0, C.f9.length == 0, C.f10 == /storage/x'
    code = "import C from 0x1 access(all) fun main(): [AnyStruct] { return [C.f0, C.f1, C.f2, C.f5, C.f6, C.f7, %s] }" % same
    fields = [told("Int8", "-128"), told("UInt64", str(2**64 - 1)), told("UFix64", "0.00000001"), told("Address", "0x" + "f" * 16)]
    fields += [told("Bool", False), maybe(None, number_told), *[told("Bool", True)] * 5]
    tries.run("fields by arguments", script_line(code), "done", result(told("Array", fields)), folder)


# Amounts of a transfer as JSON texts: those that are 10.5, and those that are none.
SAME = ('"10.5"', '"10.50"', '"10.50000000"', '"0000000000000000000010.5"', '"\\u00310.5"')
NO_AMOUNTS = (
    '"10"', '"10."', '".5"', '"."', '""', '"-10.5"', '"-0.0"', '"+10.5"', '"10.500000000"', '"10.5 "', '" 10.5"', '"10,5"', '"1e1"', '"10.5e0"',
    '"1_0.5"', '"0x1.0"', '"NaN"', '"inf"', '"\\u0661.0"', '"10.5\\u0000"', '"10.5.0"', '"1 0.5"', '"184467440737.09551616"', '"9' + "9" * 400 + '.0"',
    "10.5", "10", "null", "true", "[]", "{}", '["10.5"]', '{"type":"UFix64","value":"10.5"}',
)  # fmt: skip
NO_ADDRESSES = ('"2"', '"0x"', '"0X2"', '"0x00000000000000002"', '"0xg"', '"0x2 "', '""', "2", "null", '["0x2"]')


def transfer_line(*arguments, signers=b'["0x0000000000000001"]'):
    line = compact({**tokens.signed(tokens.TRANSFER, 1), "arguments": []}).encode() + b"\n"
    line = line.replace(b'"arguments":[]', b'"arguments":[' + ",".join(arguments).encode() + b"]")
    return line.replace(b'"signers":["0x0000000000000001"]', b'"signers":' + signers)


def of_type(kind, value):
    return '{"type":"%s","value":%s}' % (kind, value)


def amounts(tries):
    """Transfers whose amount or address has no form of its type, or another type, or which are more or fewer than two."""
    to, amount = of_type("Address", '"0x2"'), of_type("UFix64", '"10.5"')
    cases = [(transfer_line(of_type("UFix64", one), to), bad(24)) for one in NO_AMOUNTS]
    cases += [(transfer_line(of_type(kind, '"10.5"'), to), bad(24)) for kind in ("Fix64", "Int", "UInt64", "String", "ufix64", "UFix64?", "", "Optional")]
    cases += [(transfer_line(one, to), bad(24)) for one in ('"10.5"', "10.5", "null", "[]", "{}", of_type("Optional", amount), amount[:-1] + ',"a":1}')]
    cases += [(transfer_line(amount, of_type("Address", one)), bad(24)) for one in NO_ADDRESSES]
    cases += [(transfer_line(to, amount), bad(24)), (transfer_line(amount, amount), bad(24))]
    cases += [(transfer_line(*some), bad(25)) for some in ((), (amount,), (amount, to, to), (to,), ("null",), ("1", "2", "3"))]
    # Signers come before the number of arguments, and this before their types.
    cases += [(transfer_line("1", signers=one), bad(26)) for one in (b"[]", b'["0x5"]', b'["0x1","0x1"]')]
    cases += [(transfer_line(amount, to, signers=one), bad(22)) for one in (b'"0x1"', b"[1]", b"null", b'["1"]')]
    cases += [(transfer_line(of_type("UFix64", '"184467440737.09551615"'), to), failed(108)), (transfer_line(of_type("UFix64", '"700.00000001"'), to), failed(108))]
    cases += [(transfer_line(amount, of_type("Address", one)), failed(109)) for one in ('"0x5"', '"0x0"', '"0xffffffffffffffff"')]
    folder, there = begun(tries), BEGUN
    each(tries, "amounts", cases, folder, there)
    cases = []
    for one in SAME:
        reply, there = there.after(("transfer", 1, 2, 10 * TOKEN_UNITS + TOKEN_UNITS // 2))
        cases.append((transfer_line(of_type("UFix64", one), to), reply))
    each(tries, "forms of one amount", cases, folder, there)


def changed_sessions(tries):
    """Lines of a token's session with a byte changed: each has one reply, and a next run opens what they leave and changes nothing."""
    lines = list(map(line_of, FIRST))
    for _ in range(20 if tries.long else 1):
        changed = []
        for line in lines * 12:
            line = bytearray(line)
            if tries.chance.random() < 0.8:
                line[tries.chance.randrange(len(line) - 1)] = tries.chance.choice([one for one in range(256) if one != 10])
            changed.append(bytes(line))
        folder = tries.folder()
        got = tries.run("changed lines of a token", b"".join(changed), "done", None, folder).stdout
        hold(got.count(b"\n") == len(changed), "changed lines of a token: there are", got.count(b"\n"), "replies to", len(changed))
        hold(all(json.loads(line)["reply"] in ("ok", "failed", "limit", "rejected", "bad") for line in got.splitlines()), "a reply is none")
        left = model.registers_in(folder)
        tries.run("after changed lines of a token", line_of(("balances", 4)) + line_of(("next",)), "done", None, folder)
        hold(model.registers_in(folder) == left, "after changed lines of a token the registers are others")


# ---- streams


NEXT = [("transfer", 2, 3, 5 * TOKEN_UNITS), ("transfer", 3, 4, 10**14), ("balances", 4), ("account",), ("setup", 5), ("close", 4), ("deploy",)]
TRANSFER_BACK = ("transfer", 2, 1, 3)


def stream_run(tries, what, status, words=None, **streams):
    """A run over a token's session whose streams are odd: this status, and afterwards all is there, or after a fault of the output
    what is there after one command, and after one of the input what was there before."""
    tries.count += 1
    folder = begun(tries)
    words = words or [tries.program, "run"]
    process = subprocess.Popen([*words, str(folder)], **streams)
    try:
        process.communicate(TOKENS.lines_of(NEXT) if process.stdin else None, timeout=60)
    except subprocess.TimeoutExpired:
        process.kill()
        hold(False, f"{what}: the program hangs")
    hold(process.returncode == STATUSES[status], f"{what}: the status is", process.returncode)
    states = model.replies_to(NEXT, BEGUN)[1]
    is_there(tries, what, folder, {"read": states[0], "write": states[1], "done": states[-1]}[status])


def token_streams(tries):
    """Streams that are closed from the begin, full, or that nobody reads."""
    pipe, none = subprocess.PIPE, subprocess.DEVNULL
    for closed, status in {"2>&-": "done", ">&-": "write", "<&-": "read", ">&- 2>&-": "write", "<&- 2>&-": "read", "<&- >&- 2>&-": "read"}.items():
        words = ["sh", "-c", f'exec "$0" run "$1" {closed}', tries.program]
        stream_run(tries, f"a token's streams that are closed ({closed})", status, words, stdin=pipe, stdout=pipe, stderr=pipe)
    reading, writing = os.pipe()
    os.close(reading)
    stream_run(tries, "an output of a token that nobody reads", "write", stdin=pipe, stdout=writing, stderr=none)
    os.close(writing)
    with open("/dev/full", "wb") as full:
        stream_run(tries, "a full output of a token", "write", stdin=pipe, stdout=full, stderr=full)


@contextlib.contextmanager
def asked(tries, folder):
    """A run that is given its lines one by one, and doesn't outlive what is asked of it."""
    tries.count += 1
    pipe = subprocess.PIPE
    process = subprocess.Popen([tries.program, "run", str(folder)], stdin=pipe, stdout=pipe, stderr=pipe, bufsize=0)
    try:
        yield process
    finally:
        process.kill()
        process.wait()
        for stream in (process.stdin, process.stdout, process.stderr):
            stream.close()


def one_reply(process, line):
    """The reply to a line that is given in parts, before another is."""
    for part in (line[:1], line[1:40], line[40:-1], line[-1:]):
        process.stdin.write(part)
    hold(select.select([process.stdout], [], [], 60)[0], "no reply before the next line of a token")
    return process.stdout.read(1 << 16)


def slow_tokens(tries):
    """Each reply comes before the next line of a token is given, and behind its registers; and the reader goes away after some."""
    folder = tries.folder()
    replies, states = model.replies_to(FIRST + NEXT, tokens.Tokens())
    with asked(tries, folder) as process:
        for command, reply, after in zip(FIRST + NEXT, replies, states[1:]):
            got = one_reply(process, line_of(command))
            hold(got == reply, "a wrong reply to", command, got)
            hold(model.registers_in(folder) == after.registers(), "the reply to", command, "came before the registers")
        process.stdin.close()
        hold(process.wait(60) == 0, "slow lines of a token end with", process.returncode)
    is_there(tries, "slow lines of a token", folder, states[-1])
    folder = begun(tries)
    with asked(tries, folder) as process:
        reply, there = BEGUN.after(TRANSFER_BACK)
        hold(one_reply(process, line_of(TRANSFER_BACK)) == reply, "a wrong reply to the reader of a token that goes away")
        process.stdout.close()
        process.stdin.write(TRANSFER + TRANSFER)
        hold(process.wait(60) == 4, "where the reader of a token goes away the status is", process.returncode)
    is_there(tries, "a reader that goes away", folder, there.after(("transfer", 1, 2, 10 * TOKEN_UNITS))[1])


KINDS = [cut_deploys, cut_codes, odd_codes, long_codes, odd_addresses, odd_names, initializer_arguments, amounts, changed_sessions, token_streams, slow_tokens]
