#!/usr/bin/env python3
"""Compares what the program takes as a program with a second lexer and parser, reference_syntax.py beside this file.

Each text is sent as the code of a script or of a transaction. Where the reference reads a program the reply must not be
`rejected` in phase `lex` or `parse`; else it must be `rejected` with the reference's phase and byte. The texts are programs that are made from the
grammar, such programs with tokens dropped, doubled, swapped, replaced or put in, texts that are cut, all short lists of
tokens in fixed places, nestings about the greatest number that may be open, and texts of odd characters. A text on which
the two differ is made smaller and shown.

    tests/syntax.py PROGRAM              some seconds
    tests/syntax.py PROGRAM --long       some minutes: more of each
    tests/syntax.py PROGRAM --tables F.. also the cases of these files, one JSON object a line with `code` and `expect`
"""
import argparse
import itertools
import json
import pathlib
import random
import subprocess
import sys
import tempfile

import model
import reference_syntax
import syntax_programs
from reference_syntax import KEYWORDS, SIGNS, stop_of

WORDS = "a all from view mapping entitlement storage Identity ResourceDestroyed".split()
ALL = sorted(word.decode() for word in KEYWORDS) + SIGNS + ["as?", "as!"] + WORDS + ["1", "0x1", "1.5", '"t"']
FUNCTION = "access(all) fun f() { ", " }"
BODIES = {
    "a function": FUNCTION,
    "a return": ("access(all) fun f() { return ", " }"),
    "a test": ("access(all) fun f() { if ", " {} }"),
    "a case": ("access(all) fun f() { switch a { case ", " } }"),
    "a call": ("access(all) fun f() { f(", ") }"),
    "conditions": ("access(all) fun f() { pre { ", " } }"),
    "a cast": ("access(all) fun f() { a as ", " }"),
    "a name": ("access(all) fun f() { a ", " }"),
    "a transaction": ("transaction { ", " }"),
    "parameters": ("transaction(", ") {}"),
    "a contract": ("access(all) contract C { ", " }"),
    "a composite": ("access(all) contract C { access(all) resource R ", " }"),
    "an interface": ("access(all) contract C { access(all) struct interface I { ", " } }"),
    "a mapping": ("access(all) contract C { access(all) entitlement mapping M { ", " } }"),
    "an enum": ("access(all) contract C { access(all) enum E ", " }"),
    "an event": ("access(all) contract C { event ResourceDestroyed(", ") }"),
    "a type": ("access(all) contract C { access(all) let x: ", " }"),
    "an access": ("access(", ") fun f() {}"),
    "an import": ("import ", " access(all) fun f() {}"),
    "the top": ("", ""),
}
SHORT = [  # each of its tokens is replaced by every other
    "access(all) fun f(_ a: T, b: @R?): Int? { pre { a: \"m\" } post { emit E() ; b } let x: T = -1; return a ?? b }",
    "access(all) fun f() { if let a <- b as? @T {} else if !c { d <-! e } else { f <-> g } while a < b { break } ; return }",
    "access(all) fun f() { for i, a in b { continue } switch a { case 1: b; c case d: default: emit E(a: b) } }".replace("} switch", "} ; switch"),
    "access(all) fun f() { a.b?.c[d](e: f, 1)!.g<T, @R>(); &a as auth(E, F) &T; create A.B(<-c); destroy a ? b : c ; x = {a: [b,],} }",
    "import A, B from 0x1 transaction(a: {K: V}, b: {I, J}) { let v: @R prepare(a: &A) {} pre { a } execute { a = /storage/x } post { b } }",
    "access(all) contract C { access(E | F) let x: [T]? access(self) var y: (C<T>) init(x: T) {} access(mapping M) view fun f() {} }",
    "access(all) contract C { access(all) event E(a: T) access(all) enum N: U { access(all) case a } access(all) entitlement E }",
    "access(all) contract C { access(all) entitlement mapping M { include Identity A.B -> C } access(E, F) struct S: I, J.K { view init() {} } }",
    "access(all) contract C { access(all) resource interface I { access(all) x: T access(all) fun f(): T access(all) fun g() {} } }",
    "access(account) contract C { access(all) resource R { event ResourceDestroyed(a: T = self.a + 1) } }",
]


def tokens_of(text):
    """The texts of the tokens, or the characters where it has none."""
    try:
        return [token.text.decode() for token in reference_syntax.lex(text.encode())]
    except reference_syntax.Stop:
        return list(text)


def whole_programs(made, count, size=3):
    """Tokens of made programs, without the marks of the layout."""
    for _ in range(count):
        tokens = made.program(made.chance.randint(1, size))
        yield [";" if token == syntax_programs.APART else token for token in tokens if token != syntax_programs.TIGHT]


def generated(made, layout, long):
    for _ in range(20_000 if long else 1000):
        breaks, wrong = made.chance.choice([(0, 0), (0.1, 0), (0.1, 0.003), (0.7, 0)])
        yield layout.text(made.program(made.chance.randint(1, 4)), breaks, wrong)


ALIKE = [group.split() for group in (
    "a from view self 1 nil 1.5", "+ - * / % < > <= == ?? | ^ & && || != as?", "= <- <-! <->", ", ; : . ? ?? ?. ! |", "as as? as! . in : ,",
    "( [ {", ") ] } >", "let var", "fun init event enum struct resource contract interface case entitlement", "all self contract account mapping E",
    "if while for switch return emit break", "case default ;", "pre post prepare execute", "- ! * <- destroy & create (", "@ & ? [ (",
)]  # fmt: skip


def changed(tokens, chance):
    """The tokens with one dropped, doubled, swapped with the next, or another replaced or put in, often one like it."""
    at = chance.randrange(len(tokens))
    alike = [group for group in ALIKE if tokens[at] in group] + [ALL, tokens]
    token = chance.choice(chance.choice(alike))
    head, tail = tokens[:at], tokens[at + 1 :]
    swapped = tail[:1] + [tokens[at]] + tail[1:]
    return head + chance.choice([tail, [tokens[at]] * 2 + tail, [token] + tail, [token] + tail, [token, tokens[at]] + tail, swapped])


def mutated(made, layout, long):
    for tokens in whole_programs(made, 20_000 if long else 1500, 2):
        for _ in range(made.chance.choice([1, 1, 1, 2])):
            tokens = changed(tokens, made.chance)
        yield layout.text(tokens or [";"])


def cut(made, layout, long):
    for _ in range(300 if long else 10):
        text = layout.text(made.program(2))
        for end in range(len(text)):
            yield text[:end]


def replaced(made, layout, long):
    """Each token of short programs replaced by every other, and every token put in at each place."""
    for text in SHORT if long else made.chance.sample(SHORT, 1):
        tokens = tokens_of(text)
        for at, token in itertools.product(range(len(tokens) + 1), ALL):
            yield " ".join(tokens[:at] + [token] + tokens[at + 1 :])
            yield " ".join(tokens[:at] + [token] + tokens[at:])
            if long:
                yield " ".join(tokens[:at]) + " " + token + "\n" + " ".join(tokens[at:])


def lists(made, layout, long):
    """Short lists of tokens in fixed places: all of one, in the long run of two, and some of up to five."""
    for front, back in BODIES.values():
        for size in (0, 1, 2) if long else (0, 1):
            for tokens in itertools.product(ALL, repeat=size):
                yield front + " ".join(tokens) + back
        for _ in range(10_000 if long else 400):
            tokens = made.chance.choices(ALL, k=made.chance.randint(2, 5))
            yield front + made.chance.choice([" ", " ", "\n"]).join(tokens) + back


SOME = {  # all lists of these tokens, in the long run up to the length that is told
    "a name": ("a ? ?? : ! ( ) < > T as", 4),
    "a cast": ("T ? ?? : a as ( ) ! \n", 4),
    "a return": ("& a as T - * ! ? :", 5),
    "a type": ("auth ( ) & A , | ?", 5),
    "an access": ("all account mapping self E , | .", 4),
    "an import": ("A from , 0x1 1", 5),
    "a call": ("a : , ( ) 1", 5),
    "a case": ("a : ; case default \n", 5),
    "a function": ("; a \n return if else {} =", 4),
    "conditions": ("; a : \n emit ( )", 4),
    "a mapping": ("include Identity -> . A", 5),
    "a composite": (": I , . { }", 5),
    "an enum": (": N . { access(all) case", 5),
    "an event": ("a : T , = 1", 5),
    "a transaction": ("prepare() pre execute post {} ; let", 4),
    "the top": ("import A from 0x1 access(all) fun", 5),
}


def some_lists(made, layout, long):
    for place, (tokens, most) in SOME.items():
        front, back = BODIES[place]
        tokens = [token if token else "\n" for token in tokens.split(" ")]
        for size in range(1, (most if long else most - 2) + 1):
            for chosen in itertools.product(tokens, repeat=size):
                yield front + " ".join(chosen) + back


def semicolons(made, layout, long):
    """A `;` or a line break at each place of a program."""
    for tokens in whole_programs(made, 400 if long else 10, 2):
        for at in range(len(tokens) + 1):
            for sign in (";", "\n"):
                yield " ".join(tokens[:at] + [sign] + tokens[at:])


WITHIN = [
    FUNCTION, BODIES["a return"], BODIES["a test"], BODIES["a case"][:1] + (": b } }",), BODIES["a call"], BODIES["conditions"],
    ("access(all) fun f() { let x = ", " }"), ("access(all) fun f() { [a, ", "] }"), ("access(all) fun f() { return {a: ", "} }"),
    ("access(all) fun f() { a[", "] }"), ("access(all) fun f() { b ? ", " : c }"), ("access(all) fun f() { while (", ") {} }"),
    ("access(all) fun f() { for a in ", " {} }"),
]  # fmt: skip
NEARLY_ARGUMENTS = (
    "<T> <T,U> <T,> <,> <> <T <T>> <C<T>> <C<T,U>,V> <T.U> <T.> <.T> <@T> <@@T> <T@> <T?> <T??> <?T> <[T]> <[T,U]> <[@T]> <{I}> <{I,J}> <{K:V}> <{}> <{I,}> "
    "<&T> <&T?> <auth(E)&T> <auth(E|F)&T> <auth(E)T> <(T)> <(T,U)> <-b> <1> <T,1> <a(b)> <a[b]> <a+b> <self> <T,,U> <T;U> <T:U> <!T> <T!> <T>, <T=> <T>= <as> "
    "<T\n> \n<T> <\nT> <T,\n> <C<T>\n> <C<T>,> <a&b> <a<b> <a<b>c> <{a:b}?>"
).split(" ")
BEFORE = ["a", "a.b", "a?.b", "a!.b", "self", "self.b", "a()", "a[0]", "a!", "1", "/public/a", "create A", "a as T", "&a as T", "(a)", "-a", "a.b\n", "nil"]
AFTER = ["(b)", "()", "\n(b)", "(b)(c)", "(b).c", "(x: b)", "[b]", "b", "{}", "-b", "", "!", "!(b)", ".b", "(b) < c", "(b)\n(c)", "(b, c > (d)", ", c > (d)", "(b) as T"]


def arguments(made, layout, long):
    """What is nearly a list of type arguments behind a name."""
    every = list(itertools.product(BEFORE, NEARLY_ARGUMENTS, AFTER, WITHIN))
    for before, types, after, (front, back) in made.chance.sample(every, 60_000 if long else 2000):
        yield front + before + types.replace("><", "> <") + after + back


CAST_TYPES = ["T", "@T", "[T]", "&T", "C<T>", "C<T?>", "{I}", "{K: V}", "(T?)", "auth(E) &T", "A.B"]
CAST_TAILS = (
    "|? b : c|?? b|? {a: b} : c|?? {a: b}|\nb|? -b : c|? (b) : c|? [b] : c|?\nb|??\nb|?\nb : c|+ b|as U|as? U?|== b|? /public/b : c|? <-b : c|? !b : c|!= b|!|! b|"
    "<- b|= b|? = b|<-> b|? destroy b : c|?.b|.b|(b)|[b]|< b|<U>(b)|; b|: b|? b|? b ? c : d : e|? b as V? : c|? b : c as V?|?? b ?? c|? \"a\" : 1|? & b as V : c|"
    "? &b|? *b : c|? create A() : c|? @b : c|? nil : self|{}|? {}|?? {}|, b|? /* a */ b : c|? // a\n b : c|? /*\n*/ b : c"
).split("|")


def casts(made, layout, long):
    """`?` and `??` behind the type of a cast."""
    casts = ["a as ", "a as? ", "a as! ", "&a as ", "-a as ", "f(b) as? "]
    marks = ["", "", "?", "??", "? ?", "?? ?", "? ??", "\n?"]
    every = list(itertools.product(casts, CAST_TYPES, marks, CAST_TAILS, WITHIN))
    for cast, cast_type, mark, tail, (front, back) in made.chance.sample(every, 60_000 if long else 3000):
        yield front + cast + cast_type + mark + " " + tail + back


def wrapped(pieces, core="a"):
    """Pieces of two parts, one inside the other."""
    return "".join(opening for opening, _ in pieces) + core + "".join(closing for _, closing in reversed(pieces))


IN_EXPRESSIONS = [
    ("(", ")"), ("[", "]"), ("{a: ", "}"), ("{", ": a}"), ("a(", ")"), ("a(b: ", ")"), ("a[", "]"), ("a<T>(", ")"), ("create A(", ")"),
    ("1 + ", ""), ("1 * ", ""), ("a ?? ", ""), ("", " ?? a"), ("", " + 1"), ("", " || a"), ("a && ", ""), ("", " < 1"), ("", " ^ 1"), ("b | ", ""),
    ("a ? ", " : b"), ("a ? b : ", ""), ("", " ? b : c"), ("- ", ""), ("!", ""), ("* ", ""), ("destroy ", ""), ("<- ", ""), ("& ", " as T"),
    ("", " as T"), ("", " as? T?"), ("", " as! [T??]"), ("", " as & T"), ("", ".b"), ("", "?.b"), ("", "!"), ("", "()"), ("", "[0]"), ("", "<T>()"),
    ("(1 + (2 + ", "))"), ("a(b, ", ")"), ("", "<[T]>()"), ("", " as {I}"), ("", " as C<T?>"),
]  # fmt: skip
IN_TYPES = [
    ("[", "]"), ("(", ")"), ("{", ": V}"), ("{K: ", "}"), ("& ", ""), ("auth(E) & ", ""), ("", "?"), ("", "??"), ("C<", ">"), ("C<@", ">"), ("C<T, ", ">"),
    ("& [", "]"), ("(", ")?"),
]  # fmt: skip
IN_STATEMENTS = [
    ("if a { ", " }"), ("while a { ", " }"), ("for a in b { ", " }"), ("switch a { case b: ", " }"), ("switch a { default: ", " }"),
    ("if a {} else { ", " }"), ("if a {} else if a { ", " }"), ("if a {} else if a {} else { ", " }"),
]  # fmt: skip
DEEP = {  # where the pieces stand
    "expressions": (IN_EXPRESSIONS, ["a return", "a test", "a case", "a call", "conditions", "an argument", "a default"]),
    "types": (IN_TYPES, ["a type", "a cast", "a parameter", "type arguments"]),
    "statements": (IN_STATEMENTS, ["a function"]),
}
PLACES = BODIES | {
    "a case": ("access(all) fun f() { switch a { case ", ": } }"),
    "an argument": ("transaction { execute { f(1 + 1, x: ", ") } }"),
    "a default": ("access(all) contract C { event ResourceDestroyed(a: T = ", ") }"),
    "a parameter": ("access(all) fun f(a: ", ") {}"),
    "type arguments": ("access(all) fun f() { f<", ">() }"),
}


def deep(made, layout, long):
    """Nestings about the greatest number that may be open: the shortest list of pieces that is refused, and its neighbours."""
    for kind, (pieces, places) in DEEP.items():
        for turn in range(300 if long else len(pieces) + 15):
            some = pieces if turn % 3 == 0 else made.chance.sample(pieces, made.chance.randint(1, 3))
            chosen = pieces[turn : turn + 1] * 140 or made.chance.choices(some, k=140)  # each piece alone, then together
            front, back = PLACES[made.chance.choice(places)]
            texts = [front + wrapped(chosen[:count]) + back for count in range(140)]
            yield from around(texts)
    for core in ("create A()", "(a)", "[a]", "{a: b}", "a()", "a[b]", "a<T>()", "a as [T]", "a(b)(c)", "/public/a", "a(b.c, d.e.f)"):
        for suffix in (" + 1", "!", " as T", " ? b : c"):
            yield from around([BODIES["a return"][0] + wrapped([("", suffix)] * count, core) + FUNCTION[1] for count in range(140)])
    for chain in ("if a {}" + " else if b {}" * 126, "if a {}" + " else if b {}" * 125 + " else {}"):
        yield from (FUNCTION[0] + chain + "\n" + more + FUNCTION[1] for more in ("if a {} else if b {}", chain, "a + b", "return (a)"))
    else_ifs = [FUNCTION[0] + "if a {}" + " else if b {}" * count + more + FUNCTION[1] for more in ("", " else { a }") for count in range(132)]
    yield from else_ifs


def around(texts):
    """The last that is a program and the first that is none, with two more on both sides. Texts grow, and long ones are none."""
    low, high = 0, len(texts)
    while low < high:
        middle = (low + high) // 2
        if stop_of(texts[middle].encode()) is None:
            low = middle + 1
        else:
            high = middle
    return texts[max(0, low - 3) : low + 3]


PIECES = (
    list('0123456789abfox_.\\"/*\n\r\t -+<>=!?&|@#$%\'`~^:;') + ["0x", "0b", "0o", "0X", "//", "/*", "*/", "\\u{", "}", "\\n", "as?", "as!", "<-", "??", "1.0"]
    + ["é", "\u2028", "\U0001f600", "\0", "\x7f", "\f", "\ufeff", "e\u0301", "\u00a0", "0_0", "340282366920938463463374607431768211456", "18446744073709551616.0"]
)  # fmt: skip


def characters(made, layout, long):
    """Texts of odd characters, alone or where an expression is asked for."""
    for _ in range(100_000 if long else 5000):
        some = made.chance.sample(PIECES, 8) if made.chance.random() < 0.5 else PIECES
        text = "".join(made.chance.choices(some, k=made.chance.randint(1, 12)))
        front, back = made.chance.choice([("", ""), BODIES["a return"], ("/*", "*/"), ('access(all) fun f() { return "', '" }')])
        yield front + text + back


def large(made, layout, long):
    """Long texts of small things."""
    many = 10_000
    front, back = FUNCTION
    yield "/*" * many + "*/" * many
    yield "/*" * many + "*/" * (many - 1)
    yield front + "a" * many + back
    yield front + "a;" * many + back
    yield front + "a\n" * many + back
    yield front + "a: " * many + back
    yield front + "return [" + "1, " * many + "]" + back
    yield front + "(" * many + ")" * many + back
    yield front + "a < " * many + back
    yield front + "a < b >" * many + back
    yield front + "f(a<T>(" * 100 + "))" * 100 + back
    yield front + "f<" * many + back
    yield front + "f<A<" * 60 + back
    yield front + "if a {} else " * many + back
    yield front + "return " + "0" * many + "1" + back
    yield front + "return " + "9" * many + back
    yield front + 'return "' + "\\u{41}" * many + '"' + back
    yield front * many
    yield (front + back) * (many // 10)
    yield "import A from 0x1\n" * (many // 10)
    yield "access(all) contract C {" + " access(all) let a: T" * many + "}"


KINDS = [generated, mutated, cut, replaced, lists, some_lists, semicolons, arguments, casts, deep, characters, large]


def from_tables(files):
    """The codes of tables, on which the reference must answer what they want."""
    for name in files:
        for line in pathlib.Path(name).read_bytes().splitlines():
            case = json.loads(line)
            if "code" not in case or "hex" in case or "tokens" in case:  # some speak of tokens alone
                continue
            want = case["expect"]["phase"], case["expect"]["at"]
            if want != (stop_of(case["code"].encode()) or ("ok", 0)):
                print(f"syntax: the reference isn't the table's in {case['name']}")
            yield case["code"]


class Judge:
    """Asks the program and the reference."""

    def __init__(self, options, folder):
        self.program, self.folder, self.seconds = options.program, folder, options.seconds
        self.count = 0

    def answers(self, texts):
        """The program's answers: None for a program, else the phase and the byte, or the reply where it is an odd one."""
        kinds = ("script", "transaction")
        lines = [json.dumps({"kind": kinds[len(text) % 2], "code": text}) + "\n" for text in texts]
        done = subprocess.run([self.program, "run", self.folder], input="".join(lines).encode(), capture_output=True, timeout=self.seconds)
        replies = done.stdout.splitlines()
        self.count += len(texts)
        if done.returncode != 0 or len(replies) != len(texts):
            raise SystemExit(f"syntax: status {done.returncode}, and {len(replies)} replies to {len(texts)} lines {done.stderr[:200]}")
        return [answer_of(reply) for reply in replies]

    def differing(self, texts):
        """The texts on which the two differ, with both answers."""
        pairs = zip(texts, self.answers(texts), (stop_of(text.encode()) for text in texts))
        return [(text, said, wanted) for text, said, wanted in pairs if said != wanted]

    def smaller(self, difference):
        """A smaller text on which they differ."""
        while True:
            tokens = tokens_of(difference[0])
            space = " " if tokens != list(difference[0]) else ""
            sizes = [size for size in (64, 16, 4, 2, 1) if size < len(tokens)]
            cuts = [tokens[:at] + tokens[at + size :] for size in sizes for at in range(0, len(tokens) - size + 1, max(1, size // 2))]
            texts = [text for text in map(space.join, cuts) if len(text) < len(difference[0])]
            found = self.differing(texts) if texts else []
            if not found:
                return difference
            difference = min(found, key=lambda one: len(one[0]))


LATER = ("resolve", "types", "conformance", "moves", "purity", "initialisation")


def answer_of(reply):
    told = json.loads(reply)
    if told["reply"] in ("ok", "failed", "limit") or told["reply"] == "bad" and told["error"] in ("25", "26"):
        return None
    if told["reply"] != "rejected":
        return reply
    if told["phase"] in LATER:
        return None
    return (told["phase"], int(told["at"])) if told["in"] == "" else reply


def options_of():
    parser = argparse.ArgumentParser(description=__doc__, formatter_class=argparse.RawDescriptionHelpFormatter)
    parser.add_argument("program", metavar="PROGRAM")
    parser.add_argument("--long", action="store_true", help="more of each")
    parser.add_argument("--seed", type=int, default=random.randrange(10**6), metavar="N", help="for the random choices")
    names = [kind.__name__ for kind in KINDS]
    parser.add_argument("--only", metavar="KIND", nargs="+", choices=names, help="these kinds: " + ", ".join(names))
    parser.add_argument("--tables", metavar="FILE", nargs="+", default=[], help="cases with `code` and `expect`")
    parser.add_argument("--batch", type=int, default=10_000, metavar="N", help="texts for one run of the program")
    parser.add_argument("--seconds", type=int, default=120, metavar="N", help="for one run of the program")
    return parser.parse_args()


def texts_of(options):
    """The texts, each with its kind."""
    yield from (("tables", text) for text in from_tables(options.tables))
    for kind in KINDS:
        if options.only is None or kind.__name__ in options.only:
            made = syntax_programs.Programs(random.Random(f"{options.seed} {kind.__name__}"))
            yield from ((kind.__name__, text) for text in kind(made, syntax_programs.Layout(made.chance), options.long))


def main():
    options, wrong = options_of(), 0
    sys.setrecursionlimit(20_000)
    model.give_stack()
    with tempfile.TemporaryDirectory() as folder:
        judge, texts = Judge(options, folder), texts_of(options)
        while batch := list(itertools.islice(texts, options.batch)):
            kinds = {text: kind for kind, text in batch}
            found = judge.differing(list(kinds))
            wrong += len(found)
            for one in found[:5]:
                text, said, wanted = judge.smaller(one)
                print(f"syntax: WRONG in {kinds[one[0]]}, with --seed {options.seed}: {text!r}: the program says {said}, the reference {wanted}", flush=True)
    print(f"syntax: {judge.count} texts, and {wrong} wrong" if wrong else f"syntax: {judge.count} texts held")
    return 1 if wrong else 0


if __name__ == "__main__":
    sys.exit(main())
