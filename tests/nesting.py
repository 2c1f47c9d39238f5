"""Programs that nest: each bracket, sign and word that opens a nesting, in each place where it may stand.

A form is a name, how many nestings are open round it, and the text before it, what is repeated before and behind its
middle, the middle, and the text behind. One more repetition opens one nesting more. It follows docs/DEFINITIONS.md: at most
128 are open at once.
"""
MOST = 128
MAIN = "access(all) fun main() { let x = ", " }"
BINARY = "|| && < <= > >= == != ?? | ^ & + - * / %".split()

# Expressions that nest: before, middle, behind.
EXPRESSIONS = {
    "parentheses": ("(", "1", ")"),
    "arrays": ("[", "1", "]"),
    "arrays of two": ("[0, ", "1", "]"),
    "values of dictionaries": ("{1: ", "1", "}"),
    "keys of dictionaries": ("{", "1", ": 1}"),
    "minus": ("-", "1", ""),
    "not": ("!", "a", ""),
    "stars": ("*", "a", ""),
    "moves": ("<-", "a", ""),
    "destroy": ("destroy ", "a", ""),
    "members": ("", "a", ".n"),
    "members behind a question": ("", "a", "?.n"),
    "forced": ("", "a", "!"),
    "indexes": ("", "a", "[1]"),
    "calls": ("", "a", "()"),
    "indexes in indexes": ("a[", "1", "]"),
    "calls in calls": ("f(", "1", ")"),
    "calls with labels": ("f(to: ", "1", ")"),
    "create": ("create T(", "1", ")"),
    "casts": ("", "1", " as T"),
    "casts that may fail": ("", "1", " as? T"),
    "casts that must hold": ("", "1", " as! T"),
    "questions to the right": ("a ? b : ", "1", ""),
    "questions in the middle": ("a ? ", "b", " : c"),
    **{f"{sign} to the left": ("", "1", f" {sign} 1") for sign in BINARY},
    "names below names": ("", "a", " < a"),
}

# Types that nest.
TYPES = {
    "optionals": ("", "T", "?"),
    "references": ("& ", "T", ""),
    "entitled references": ("auth(A) &", "T", ""),
    "array types": ("[", "T", "]"),
    "types in parentheses": ("(", "T", ")"),
    "values of dictionary types": ("{T: ", "T", "}"),
    "keys of dictionary types": ("{", "T", ": T}"),
    "type arguments": ("C<", "T", ">"),
    "the second of type arguments": ("C<T, ", "T", ">"),
    "resources as type arguments": ("C<@", "T", ">"),
}

# Statements that nest, with how many nestings the middle opens.
STATEMENTS = {
    "if": ("if a { ", "b", " }"),
    "if let": ("if let a <- b { ", "b", " }"),
    "else": ("if a {} else { ", "b", " }"),
    "while": ("while a { ", "b", " }"),
    "for": ("for a in b { ", "c", " }"),
    "switch": ("switch a { case 1: ", "b", " }"),
    "default": ("switch a { default: ", "b", " }"),
}

# Where an expression may stand, and how many nestings are open there.
PLACES = {
    "a value": (1, *MAIN),
    "a statement": (2, "access(all) fun main() { f(", ") }"),
    "what is returned": (1, "access(all) fun main() { return ", " }"),
    "a test": (1, "access(all) fun main() { while ", " {} }"),
    "a second value": (1, "access(all) fun main() { let a <- b <- ", " }"),
    "a case": (2, "access(all) fun main() { switch a { case ", ": b } }"),
    "a condition": (2, "access(all) fun main() { pre { a: ", " } }"),
    "execute": (2, "transaction { execute { let x = ", " } }"),
    "prepare": (2, "transaction { prepare(a: &A) { let x = ", " } }"),
    "a transaction's condition": (2, "transaction { post { a: ", " } }"),
    "a default": (3, "access(all) contract C { access(all) resource R { event ResourceDestroyed(a: Int = ", ") } }"),
    "a function of a struct": (3, "access(all) contract C { access(all) struct S { access(all) fun f() { let x = ", " } } }"),
    "a condition of an interface": (4, "access(all) contract C { access(all) struct interface S { access(all) fun f() { pre { a: ", " } } } }"),
}

# Where a type may stand.
TYPE_PLACES = {
    "a constant": (1, "access(all) fun main() { let x: ", " = 1 }"),
    "a result": (0, "access(all) fun main(): ", " {}"),
    "a parameter": (1, "access(all) fun main(a: ", ") {}"),
    "a transaction's parameter": (1, "transaction(a: ", ") {}"),
    "a transaction's field": (1, "transaction { let a: ", " prepare(a: &A) {} }"),
    "a contract's field": (1, "access(all) contract C { access(all) let a: ", " }"),
    "a struct's field": (2, "access(all) contract C { access(all) struct S { access(all) let a: ", " } }"),
    "an event": (2, "access(all) contract C { access(all) event E(a: ", ") }"),
    "a type argument": (2, "access(all) fun main() { let x = f<", ">() }"),
    "a cast": (2, "access(all) fun main() { let x = 1 as ", " }"),
    "a reference": (3, "access(all) fun main() { let x = &a as ", " }"),
}

# Forms of code that no phase refuses, in a function whose parameters are below: how often at most, what is repeated before
# and behind its middle, and the middle. The trees of some are three times as deep as their nestings, and a tree may have 256
# levels: of these the tree is too high before there are 128 nestings.
HIGH = ("values of dictionaries", "keys of dictionaries")
RIGHT = {
    "sums": (126, "let y = ", ("", "i", " + i")),
    "sums to the right": (63, "let y = ", ("i + (", "i", ")")),
    "signs": (126, "let y = ", ("-", "i", "")),
    "choices": (126, "let y = ", ("b ? ", "i", " : i")),
    "casts": (126, "let y = ", ("", "i", " as Int")),
    "forced casts": (125, "let y = ", ("(", "i", " as? Int)!")),
    "arrays": (126, "let y = ", ("[", "i", "]")),
    "elements of arrays": (126, "let y = ", ("[", "i", "][0]")),
    "values of dictionaries": (85, "let y = ", ("{1: ", "i", "}[1]!")),
    "keys of dictionaries": (85, "let y = ", ("{", "i", ": 1}[1]!")),
    "indexes": (126, "let y = ", ("a[", "i", "]")),
    "keys": (125, "let y = ", ("d[", "i", "]!")),
    "conversions": (126, "let y = ", ("Int(", "i", ")")),
    "calls in calls": (63, "let y = ", ("self.g(", "i", ")")),
    "calls": (63, "let y = ", ("", "s", ".s()")),
    "chains": (62, "let y = ", ("", "s.q", "?.s()")),
    "members": (62, "s.", ("a[0].", "q", "")),
    "resources": (62, "destroy ", ("create R(<- ", "create R(nil)", ")")),
    "if": (126, "", ("if b { ", "i", " }")),
    "if let": (126, "", ("if let v = s.q { ", "i", " }")),
    "else if": (125, "", ("if b {} else ", "if b {}", "")),
    "while": (126, "", ("while b { ", "i", " }")),
    "for": (126, "", ("for v in a { ", "i", " }")),
    "switch": (126, "", ("switch i { case 1: ", "i", " }")),
}
RIGHT_AROUND = (
    "access(all) contract C { access(all) struct S { access(all) var a: [S] access(all) var q: S? access(all) fun s(): S { return self }"
    " init() { self.a = []; self.q = nil } } access(all) resource R { init(_ r: @R?) { destroy r } }"
    " access(all) fun g(_ i: Int): Int { return i } access(all) fun f(a: [Int], b: Bool, d: {Int: Int}, i: Int, s: S) { ",
    " } }",
)


def forms():
    """Each form: its name, the nestings round it, the text before, what nests (before, middle, behind), the text behind."""
    for place, (open_, before, behind) in PLACES.items():
        for name, nests in EXPRESSIONS.items():
            if place == "a value" or name in ("parentheses", "calls", "- to the left", "questions to the right"):
                yield f"{name} in {place}", open_, before, nests, behind
    for place, (open_, before, behind) in TYPE_PLACES.items():
        for name, nests in TYPES.items():
            yield f"{name} in {place}", open_, before, nests, behind
    for name, nests in STATEMENTS.items():
        yield name, 1, "access(all) fun main() { ", nests, " }"
        yield f"{name} in execute", 2, "transaction { execute { ", nests, " } }"
    yield "else if", 2, "access(all) fun main() { ", ("if a {} else ", "if b {}", ""), " }"
    yield "else if with a last else", 2, "access(all) fun main() { ", ("if a {} else ", "if b {} else {}", ""), " }"


def text_of(form, count):
    """The form with so many repetitions."""
    _, _, before, (head, middle, tail), behind = form
    return before + head * count + middle + tail * count + behind


def right_code(name, more=0):
    """The contract with a form that no phase refuses, as often as it may stand, and so many times more."""
    count, before, (head, middle, tail) = RIGHT[name]
    count += more
    return RIGHT_AROUND[0] + before + head * count + middle + tail * count + RIGHT_AROUND[1]


def high_code(brackets, signs):
    """A contract with a tree of brackets times signs levels: behind a closed bracket signs count anew."""
    sum_ = "i"
    for _ in range(brackets):
        sum_ = f"({sum_}{' + i' * signs})"
    return f"{RIGHT_AROUND[0]}let x = {sum_}{RIGHT_AROUND[1]}"
