"""Programs that are made from the grammar, for `syntax.py` beside this file: every production, all levels of expressions,
any spaces, comments and line breaks between tokens. Nearly all of them are programs; the reference judges.

A piece of a program is a list of tokens. TIGHT stands before a token that no line break may precede, and APART between
statements or conditions.
"""
import reference_syntax

TIGHT, APART = "\0tight", "\0apart"
NAMES = (
    "a b c f x T R S I E all account from view mapping entitlement include storage public Identity result before _ _1 as1 "
    "ResourceDestroyed String"
).split()
LITERALS = (
    '0 1 42 1_0 007 0xF 0x1 0b1 0o7 340282366920938463463374607431768211455 1.5 0.00000001 1_0.0_1 18446744073709551615.0 "" "a" '
    '"\\n\\"" "\\u{41}" "/*" "//" true false nil'
).split()
BINARY = ["||", "&&", "<", "<=", ">", ">=", "==", "!=", "??", "|", "^", "&", "+", "-", "*", "/", "%"]
SPACES = [" "] * 12 + ["  ", "\t", "\r", "/**/", " /* a */ ", "/*/*b*/*/", "/* // */"]
BREAKS = ["\n"] * 8 + ["\r\n", "\n\n", " // a\n", "/*\n*/", "//\n/**/", "/* /*\n*/ */"]
MOVES = ["=", "<-", "<-!"]


def together(pieces):
    return [token for piece in pieces for token in piece]


class Layout:
    """Writes tokens as a text."""

    def __init__(self, chance):
        self.chance, self.merging = chance, {}

    def merges(self, left, right):
        """Whether two tokens without a space between are read as others."""
        if (left, right) not in self.merging:
            try:
                read = [token.text.decode() for token in reference_syntax.lex((left + right).encode())]
            except reference_syntax.Stop:
                read = None
            self.merging[left, right] = read != [left, right]
        return self.merging[left, right]

    def text(self, tokens, breaks=0.1, wrong=0.001):
        """With line breaks this often where they may stand, and seldom where they mayn't."""
        chance, parts, last, tight, apart = self.chance, [], "", False, False
        for token in tokens:
            if token in (TIGHT, APART):
                tight, apart = tight or token == TIGHT, apart or token == APART
                continue
            if last == "/":  # no comment begins with it
                parts.append(" ")
            if apart and token != "}":
                parts.append(chance.choice([";", "; ", ";\n", "\n", "\n", "\n"]) if chance.random() >= wrong else " ")
            elif apart and chance.random() < 0.2:
                parts.append(";")
            elif chance.random() < (wrong if tight else breaks):
                parts.append(chance.choice(BREAKS))
            elif chance.random() < 0.7 or self.merges(last, token):
                parts.append(chance.choice(SPACES))
            parts.append(token)
            last, tight, apart = token, False, False
        return "".join(parts)


class Types:
    """Types, and what else stands in many places. `size` bounds how deep things stand in one another."""

    def __init__(self, chance):
        self.chance = chance

    def often(self, likely, piece):
        return piece() if self.chance.random() < likely else []

    def one(self, *makers):
        return self.chance.choice(makers)()

    def name(self):
        return [self.chance.choice(NAMES)]

    def dotted(self):
        return together([self.name()] + [["."] + self.name() for _ in range(self.chance.choice([0, 0, 0, 1, 2]))])

    def listed(self, item, least=0, sign=","):
        """Items with commas between, and sometimes one more comma."""
        items = [item() for _ in range(max(least, self.chance.choice([0, 1, 1, 2, 3])))]
        more = [","] if items and sign == "," and self.chance.random() < 0.1 else []
        return together([item if at == 0 else [sign] + item for at, item in enumerate(items)]) + more

    def entitlements(self):
        return self.listed(self.dotted, 1) if self.chance.random() < 0.6 else self.listed(self.dotted, 2, "|")

    def annotation(self, size):
        return self.often(0.2, lambda: ["@"]) + self.type(size)

    def type(self, size):
        return self.core(size) + self.chance.choice([[], [], [], [], ["?"], ["??"], ["?", "?"]])

    def core(self, size):
        if size <= 0:
            return self.dotted()
        return self.one(
            self.dotted,
            self.dotted,
            lambda: self.often(0.5, lambda: ["auth", "("] + self.entitlements() + [")"]) + ["&"] + self.core(size - 1),
            lambda: ["("] + self.type(size - 1) + [")"],
            lambda: ["["] + self.type(size - 1) + ["]"],
            lambda: ["{"] + self.type(size - 1) + [":"] + self.type(size - 1) + ["}"],
            lambda: ["{"] + self.listed(self.dotted, 1) + ["}"],
            lambda: self.dotted() + self.arguments_of_type(size),
        )

    def arguments_of_type(self, size):
        return ["<"] + self.listed(lambda: self.annotation(size - 1), 1) + [">"]


class Expressions(Types):
    def expression(self, size):
        """An expression of any level."""
        what = self.chance.random()
        if size <= 0 or what < 0.3:
            return self.postfixed(size)
        if what < 0.4:
            parts = [self.expression(size - 1) for _ in range(3)]
            return self.operand(parts[0], self.chance) + ["?"] + parts[1] + [":"] + parts[2]
        if what < 0.7:
            return self.expression(size - 1) + [self.chance.choice(BINARY)] + self.expression(size - 1)
        if what < 0.85:
            return self.prefixed(size - 1) + [self.chance.choice(["as", "as?", "as!"])] + self.annotation(size - 1)
        return self.prefixed(size)

    def operand(self, tokens, chance):
        return ["("] + tokens + [")"] if "?" in tokens and chance.random() < 0.8 else tokens

    def prefixed(self, size):
        if size <= 0 or self.chance.random() < 0.4:
            return self.postfixed(size)
        if self.chance.random() < 0.3:
            return ["&"] + self.prefixed(size - 1) + ["as"] + self.type(size - 1)
        return [self.chance.choice(["-", "!", "*", "<-", "destroy"])] + self.prefixed(size - 1)

    def postfixed(self, size):
        tokens = self.primary(size)
        for _ in range(self.chance.choice([0, 0, 0, 1, 1, 2, 3])):
            tokens = tokens + self.postfix(size, tokens[-1] in NAMES)
        return tokens

    def postfix(self, size, named):
        what = self.chance.random()
        if what < 0.4:
            return [self.chance.choice([".", ".", "?."])] + self.name()
        if what < 0.7:
            types = self.arguments_of_type(size) if named and self.chance.random() < 0.3 else []
            return types + [TIGHT] + self.arguments(size)
        if what < 0.85:
            return [TIGHT, "["] + self.expression(size - 1) + ["]"]
        return [TIGHT, "!"]

    def arguments(self, size):
        return ["("] + self.listed(lambda: self.often(0.4, lambda: self.name() + [":"]) + self.expression(size - 1)) + [")"]

    def primary(self, size):
        if size <= 0 or self.chance.random() < 0.6:
            return self.one(self.name, self.name, lambda: ["self"], lambda: [self.chance.choice(LITERALS)], self.path)
        return self.one(
            lambda: ["create"] + self.dotted() + self.arguments(size),
            lambda: ["("] + self.expression(size - 1) + [")"],
            lambda: ["["] + self.listed(lambda: self.expression(size - 1)) + ["]"],
            lambda: ["{"] + self.listed(lambda: self.expression(size - 1) + [":"] + self.expression(size - 1)) + ["}"],
        )

    def path(self):
        return ["/", self.chance.choice(["storage", "public"]), "/"] + self.name()


class Statements(Expressions):
    def block(self, size):
        return ["{"] + self.statements(size) + ["}"]

    def statements(self, size):
        count = self.chance.choice([0, 1, 1, 2, 3]) if size > 0 else 0
        return together([self.statement(size) + [APART] for _ in range(count)])

    def move(self, size):
        return [self.chance.choice(MOVES)] + self.expression(size - 1)

    def variable(self, size):
        return [self.chance.choice(["let", "var"])] + self.name() + self.of_type(0.4, size) + self.move(size)

    def of_type(self, likely, size):
        return self.often(likely, lambda: [":"] + self.annotation(size - 1))

    def first(self, size):
        """An expression that may begin a statement or a condition."""
        tokens = self.expression(size - 1)
        begins = tokens[0] in reference_syntax.NOT_FIRST and self.chance.random() < 0.98
        return ["("] + tokens + [")"] if begins else tokens

    def statement(self, size):
        return self.one(
            lambda: self.variable(size) + self.often(0.2, lambda: self.move(size)),
            lambda: self.if_statement(size),
            lambda: ["while"] + self.expression(size - 1) + self.block(size - 1),
            lambda: ["for"] + self.often(0.3, lambda: self.name() + [","]) + self.name() + ["in"] + self.expression(size - 1) + self.block(size - 1),
            lambda: ["switch"] + self.expression(size - 1) + ["{"] + self.cases(size - 1) + ["}"],
            lambda: [self.chance.choice(["break", "continue", "return"])],
            lambda: ["return", TIGHT] + self.expression(size - 1),
            lambda: ["emit"] + self.expression(size - 1),
            lambda: self.first(size),
            lambda: self.first(size),
            lambda: self.first(size) + [self.chance.choice(MOVES + ["<->"])] + self.expression(size - 1),
        )

    def if_statement(self, size):
        test = self.one(lambda: self.expression(size - 1), lambda: self.variable(size))
        rest = self.one(
            lambda: [],
            lambda: ["else"] + self.block(size - 1),
            lambda: ["else"] + self.if_statement(size - 1) if size > 0 else [],
        )
        return ["if"] + test + self.block(size - 1) + rest

    def cases(self, size):
        case = lambda: ["case"] + self.expression(size - 1) + [":"] + self.statements(size)
        cases = together([case() for _ in range(self.chance.choice([0, 1, 2]))])
        return cases + self.often(0.5, lambda: ["default", ":"] + self.statements(size))

    def conditions(self, word, size):
        return self.often(0.3, lambda: [word, "{"] + together([self.condition(size) + [APART] for _ in range(self.chance.choice([0, 1, 2]))]) + ["}"])

    def condition(self, size):
        emitted = lambda: ["emit"] + self.expression(size - 1)
        return self.one(emitted, lambda: self.first(size) + self.often(0.5, lambda: [":"] + self.expression(size - 1)))

    def function_block(self, size):
        return ["{"] + self.conditions("pre", size) + self.conditions("post", size) + self.statements(size) + ["}"]


class Programs(Statements):
    def program(self, size):
        imports = together([self.imports() for _ in range(self.chance.choice([0, 0, 1, 2]))])
        makers = [self.contract, self.transaction, self.function]
        return imports + together([self.chance.choice(makers)(size) for _ in range(self.chance.choice([1, 1, 2]))])

    def imports(self):
        return ["import"] + self.listed(self.name, 1) + ["from", self.chance.choice(["0x1", "0xF_0", "0x" + "f" * 32])]

    def access(self):
        words = self.one(
            lambda: [self.chance.choice(["all", "self", "contract", "account"])],
            lambda: ["mapping"] + self.dotted(),
            self.entitlements,
        )
        return ["access", "("] + words + [")"]

    def contract(self, size):
        return self.access() + ["contract"] + self.name() + self.members(self.contract_member, size)

    def members(self, member, size):
        return ["{"] + together([member(size) for _ in range(self.chance.choice([0, 1, 2, 3]))]) + ["}"]

    def contract_member(self, size):
        return self.one(
            lambda: self.composite_member(size),
            lambda: self.access() + self.kind_of_composite() + self.conformances() + self.members(self.composite_member, size - 1),
            lambda: self.access() + self.kind_of_composite("interface") + self.conformances() + self.members(self.interface_member, size - 1),
            lambda: self.access() + ["enum"] + self.name() + [":"] + self.dotted() + self.members(self.case, 0),
            lambda: self.access() + ["entitlement"] + self.name(),
            lambda: self.access() + ["entitlement", "mapping"] + self.name() + self.members(self.mapping_item, 0),
        )

    def kind_of_composite(self, *more):
        return [self.chance.choice(["struct", "resource"]), *more] + self.name()

    def conformances(self):
        return self.often(0.4, lambda: [":"] + self.listed(self.dotted, 1))

    def composite_member(self, size):
        return self.one(
            lambda: self.access() + [self.chance.choice(["let", "var"])] + self.field(size),
            lambda: self.function(size),
            lambda: self.view() + ["init"] + self.parameters(size) + self.function_block(size),
            lambda: self.event(size),
        )

    def interface_member(self, size):
        without = lambda: self.access() + self.view() + ["fun"] + self.name() + self.parameters(size) + self.of_type(0.5, size)
        field = lambda: self.access() + self.chance.choice([["let"], ["var"], []]) + self.field(size)
        return self.one(field, without, lambda: self.function(size))

    def field(self, size):
        return self.name() + [":"] + self.annotation(size - 1)

    def view(self):
        return self.often(0.3, lambda: ["view"])

    def function(self, size):
        head = self.access() + self.view() + ["fun"] + self.name() + self.parameters(size) + self.of_type(0.5, size)
        return head + self.function_block(size)

    def parameters(self, size, default=lambda: []):
        parameter = lambda: self.often(0.3, self.name) + self.field(size) + default()
        return ["("] + self.listed(parameter) + [")"]

    def event(self, size):
        if self.chance.random() < 0.5:
            return self.access() + ["event", self.chance.choice(["E", "Made", "view"])] + self.parameters(size)
        head = self.often(0.5, self.access) + ["event", "ResourceDestroyed"]
        return head + self.parameters(size, lambda: ["="] + self.expression(size - 1))

    def case(self, _):
        return self.access() + ["case"] + self.name()

    def mapping_item(self, _):
        return self.one(lambda: ["include", "Identity"], lambda: self.dotted() + ["->"] + self.dotted())

    def transaction(self, size):
        fields = together([[self.chance.choice(["let", "var"])] + self.field(size) for _ in range(self.chance.choice([0, 0, 1, 2]))])
        return (
            ["transaction"]
            + self.often(0.5, lambda: self.parameters(size))
            + ["{"]
            + fields
            + self.often(0.6, lambda: ["prepare"] + self.parameters(size) + self.block(size))
            + self.conditions("pre", size)
            + self.often(0.6, lambda: ["execute"] + self.block(size))
            + self.conditions("post", size)
            + ["}"]
        )
