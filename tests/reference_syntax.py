"""The language's tokens and grammar, as plain Python.

It was written from the rules alone, without a look at the program, so that `syntax.py` beside this file can compare the
two. `stop_of(text)` tells where a text stops being a program: None where it is one, else the phase and the byte.

Phase `lex`: the first byte where no white space, comment or token begins. An unfinished text or comment, a text with a bad
escape and a literal that is too large stop at their own first byte; so does a whole literal with a letter behind it.
Phase `parse`: the start of the token that follows the longest prefix of the tokens that is itself a program, which is the
first import or declaration that can't be read.
"""
import re

MOST_OPEN = 128
MOST_WHOLE = 2**128
MOST_FIXED = 2**64

KEYWORDS = frozenset(
    b"access as auth break case continue contract create default destroy else emit enum event execute false for fun if import "
    b"in init interface let nil post pre prepare resource return self struct switch transaction true var while".split()
)
SIGNS = (
    "<-> <-! <- <= < >= > == = != ! && & || | ^ + -> - * / % ?? ?. ? . , : ; ( ) [ ] { } @".split()
)  # fmt: skip

SPACE = re.compile(rb"[ \t\r\n]+|//[^\n]*")
COMMENT_SIGN = re.compile(rb"/\*|\*/")
NAME = re.compile(rb"as[?!]|[A-Za-z_][A-Za-z0-9_]*")  # `as?` and `as!` are longer than `as`; `asx` and `has?` aren't begun by them
DIGITS = {b: re.compile(b"[%s](?:_*[%s])*" % (d, d)) for b, d in ((2, b"01"), (8, b"0-7"), (10, b"0-9"), (16, b"0-9A-Fa-f"))}
DECIMALS = re.compile(rb"\.[0-9](?:_*[0-9]){0,7}")
LETTER = re.compile(rb"[A-Za-z]")
TEXT = re.compile(rb'"(?:[^"\\\n]|\\[0\\tnr"\']|\\u\{([0-9A-Fa-f]{1,6})\})*"')
SCALAR = re.compile(rb"\\(?:u\{([0-9A-Fa-f]+)\}|.)")
SIGN = re.compile("|".join(map(re.escape, sorted(SIGNS, key=len, reverse=True))).encode())


class Stop(Exception):
    """The text is no program: the phase, and the byte."""


class Token:
    """A token. Its kind is its own text for keywords and signs, else name, whole, hexadecimal, fixed or text (in capitals)."""

    __slots__ = "kind", "text", "start", "end", "after_break"

    def __init__(self, kind, text, start, after_break):
        self.kind, self.text, self.start, self.end, self.after_break = kind, text, start, start + len(text), after_break


def end_of_comment(text, start):
    """The end of the block comment that begins here. Block comments nest."""
    depth, at = 1, start + 2
    while depth:
        sign = COMMENT_SIGN.search(text, at)
        if sign is None:
            raise Stop("lex", start)
        depth, at = depth + (1 if sign[0] == b"/*" else -1), sign.end()
    return at


def end_of_space(text, at):
    while True:
        space = SPACE.match(text, at)
        if space:
            at = space.end()
        elif text.startswith(b"/*", at):
            at = end_of_comment(text, at)
        else:
            return at


def value_of(digits, base):
    digits = digits.replace(b"_", b"").lstrip(b"0")
    return int(digits or b"0", base) if len(digits) <= 128 else MOST_WHOLE


def number_at(text, start):
    """The kind and the end of the number whose first digit stands here. The digits are read as far as they go, then judged."""
    base = {b"0b": 2, b"0o": 8, b"0x": 16}.get(text[start : start + 2], 10)
    digits = DIGITS[base].match(text, start + 2) if base != 10 else None
    if digits is None:
        base, digits = 10, DIGITS[10].match(text, start)
    decimals = DECIMALS.match(text, digits.end()) if base == 10 else None
    value = value_of(digits[0], base)
    if decimals:
        if value >= MOST_FIXED:
            raise Stop("lex", start)
        return "FIXED", decimals.end()
    if value >= MOST_WHOLE or LETTER.match(text, digits.end()):
        raise Stop("lex", start)
    return "HEXADECIMAL" if base == 16 else "WHOLE", digits.end()


def end_of_text(text, start):
    literal = TEXT.match(text, start)
    if literal is None:
        raise Stop("lex", start)
    for escape in SCALAR.finditer(literal[0]):
        if escape[1] and (int(escape[1], 16) > 0x10FFFF or 0xD800 <= int(escape[1], 16) < 0xE000):
            raise Stop("lex", start)
    return literal.end()


def token_at(text, at, after_break):
    name = NAME.match(text, at)
    if name:
        word = name[0]
        kind = word.decode() if word in KEYWORDS or word[-1] in b"?!" else "NAME"
        return Token(kind, word, at, after_break)
    if text[at : at + 1].isdigit():
        kind, end = number_at(text, at)
        return Token(kind, text[at:end], at, after_break)
    if text[at : at + 1] == b'"':
        return Token("TEXT", text[at : end_of_text(text, at)], at, after_break)
    sign = SIGN.match(text, at)
    if sign is None:
        raise Stop("lex", at)
    return Token(sign[0].decode(), sign[0], at, after_break)


def lex(text):
    """The tokens of these bytes."""
    try:
        text.decode()
    except UnicodeDecodeError as wrong:
        raise Stop("lex", wrong.start) from None
    tokens, at = [], 0
    while True:
        start = end_of_space(text, at)
        if start == len(text):
            return tokens
        tokens.append(token_at(text, start, b"\n" in text[at:start]))
        at = tokens[-1].end


class Refused(Exception):
    """What stands at the cursor can't be read as what is asked for."""


LEVELS = [["||"], ["&&"], ["<", "<=", ">", ">=", "==", "!="], ["??"], ["|"], ["^"], ["&"], ["+", "-"], ["*", "/", "%"]]
LEVEL = {sign: level for level, signs in enumerate(LEVELS) for sign in signs}
RIGHT = LEVEL["??"]  # the level of two operands that binds to the right
CASTS = {"as", "as?", "as!"}
PREFIXES = {"-", "!", "*", "<-", "destroy", "&"}
LITERALS = {"WHOLE", "HEXADECIMAL", "FIXED", "TEXT", "true", "false", "nil"}
FIRST = LITERALS | PREFIXES | {"NAME", "self", "create", "(", "[", "{", "/"}  # what an expression begins with
NOT_FIRST = {"{", "-", "*", "&", "<-", "/"}  # with what a condition or an expression as a statement doesn't begin
MOVES = {"=", "<-", "<-!"}
END = Token("", b"", 0, False)


class Cursor:
    """A place in a list of tokens, with the number of nestings that are open there."""

    def __init__(self, tokens):
        self.tokens, self.at, self.open = tokens + [END] * 3, 0, 0

    def ahead(self, count):
        return self.tokens[self.at + count]

    @property
    def kind(self):
        return self.tokens[self.at].kind

    @property
    def after_break(self):
        return self.tokens[self.at].after_break

    def is_word(self, word, ahead=0):
        """Whether a name with this text stands there: a word that is no keyword, with a meaning in its place."""
        return self.ahead(ahead).kind == "NAME" and self.ahead(ahead).text == word

    def has(self, *kinds):
        """Takes the token where it is one of these kinds."""
        if self.kind not in kinds:
            return False
        self.at += 1
        return True

    def need(self, *kinds):
        if not self.has(*kinds):
            raise Refused

    def need_word(self, word):
        if not self.is_word(word):
            raise Refused
        self.at += 1

    def nest(self):
        """One more nesting is open, from this token on."""
        self.open += 1
        if self.open > MOST_OPEN:
            raise Refused

    def operator(self):
        """A sign or word that opens a nesting up to the end of the largest expression or type in which it stands."""
        self.nest()
        self.at += 1

    def bracket(self, opening, content, closing):
        """A bracket that opens a nesting up to its closing sign."""
        if self.kind != opening:
            raise Refused
        self.operator()
        content()
        self.need(closing)
        self.open -= 1

    def items(self, item, end):
        """One item or more with commas between, and perhaps one more comma before the end."""
        item()
        while self.has(","):
            if self.kind == end:
                return
            item()

    def items_or_none(self, item, end):
        if self.kind != end:
            self.items(item, end)

    def name(self):
        self.need("NAME")

    def dotted(self):
        self.name()
        while self.has("."):
            self.name()


class Types(Cursor):
    def whole_type(self, at_sign=False):
        """A type in no other expression or type, or directly in brackets: what it opened is closed behind it."""
        before = self.open
        if at_sign:
            self.has("@")
        self.core()
        while self.kind in ("?", "??"):
            self.optional()
        self.open = before

    def annotation(self):
        self.whole_type(True)

    def optional(self):
        if self.kind == "??":  # counts as two
            self.nest()
        self.operator()

    def core(self):
        if self.kind in ("auth", "&"):
            if self.has("auth"):
                self.bracket("(", self.entitlements, ")")
            if self.kind != "&":
                raise Refused
            self.operator()
            self.core()
        elif self.kind == "(":
            self.bracket("(", self.whole_type, ")")
        elif self.kind == "[":
            self.bracket("[", self.whole_type, "]")
        elif self.kind == "{":
            self.bracket("{", self.braces, "}")
        else:
            self.dotted()
            if self.kind == "<":
                self.type_arguments()

    def braces(self):
        """A dictionary's key and value, or the interfaces of an intersection."""
        before = self.at
        self.whole_type()
        if self.has(":"):
            self.whole_type()
        else:
            self.at = before
            self.items(self.dotted, "}")

    def type_arguments(self):
        self.bracket("<", lambda: self.items(self.annotation, ">"), ">")

    def entitlements(self):
        self.dotted()
        if self.kind == "|":
            while self.has("|"):
                self.dotted()
        elif self.has(","):
            self.items_or_none(self.dotted, ")")


class Expressions(Types):
    def expression(self):
        """A whole expression: one in no other, or directly in brackets. What it opened is closed behind it."""
        before = self.open
        self.conditional()
        self.open = before

    def conditional(self):
        self.operands(0)
        if self.kind == "?":
            self.operator()
            self.conditional()
            self.need(":")
            self.conditional()

    def operands(self, least):
        """Operators of this level or a closer one."""
        self.cast()
        while LEVEL.get(self.kind, -1) >= least:
            level = LEVEL[self.kind]
            self.operator()
            self.operands(level if level == RIGHT else level + 1)

    def cast(self):
        self.prefixed()
        while self.kind in CASTS:
            self.operator()
            self.has("@")
            self.cast_type()

    def cast_type(self):
        """The type of an `as` form. A `?` behind it may be the form's or a looser operator."""
        self.core()
        while self.kind in ("?", "??"):
            after = self.ahead(1)
            if not after.after_break and after.kind != "{" and after.kind in FIRST:
                return
            self.optional()

    def prefixed(self):
        if self.kind not in PREFIXES:
            self.postfixed()
            return
        reference = self.kind == "&"
        self.operator()
        self.prefixed()
        if reference:
            if self.kind != "as":
                raise Refused
            self.operator()
            self.cast_type()

    def postfixed(self):
        named = self.kind == "NAME"  # whether a `<` that stands here may begin type arguments
        self.primary()
        while True:
            if self.kind in (".", "?."):
                self.operator()
                self.name()
                named = True
            elif self.kind == "<" and named and self.begins_type_arguments():
                self.type_arguments()
                if self.after_break:
                    raise Refused
                self.call()
                named = False
            elif self.kind in ("[", "(", "!") and not self.after_break:
                self.call_or_index()
                named = False
            else:
                return

    def call_or_index(self):
        if self.kind == "!":
            self.operator()
        elif self.kind == "[":
            self.operator()
            self.expression()
            self.need("]")
        else:
            self.call()

    def call(self):
        """The bracket of a call or an index stays open up to the end of the whole expression, as an operator's nesting."""
        self.operator()
        self.items_or_none(self.argument, ")")
        self.need(")")

    def begins_type_arguments(self):
        before = self.at, self.open
        try:
            self.type_arguments()
            return self.kind == "("
        except Refused:
            return False
        finally:
            self.at, self.open = before

    def argument(self):
        if self.kind == "NAME" and self.ahead(1).kind == ":":
            self.at += 2
        self.expression()

    def primary(self):
        if self.has("NAME", "self", *LITERALS):
            return
        if self.has("create"):
            self.dotted()
            self.bracket("(", lambda: self.items_or_none(self.argument, ")"), ")")
        elif self.kind == "(":
            self.bracket("(", self.expression, ")")
        elif self.kind == "[":
            self.bracket("[", lambda: self.items_or_none(self.expression, "]"), "]")
        elif self.kind == "{":
            self.bracket("{", lambda: self.items_or_none(self.pair, "}"), "}")
        else:
            self.path()

    def pair(self):
        self.expression()
        self.need(":")
        self.expression()

    def path(self):
        self.need("/")
        if not (self.is_word(b"storage") or self.is_word(b"public")):
            raise Refused
        self.at += 1
        self.need("/")
        self.name()


class Statements(Expressions):
    def block(self):
        self.bracket("{", lambda: self.apart(self.statement, "}"), "}")

    def apart(self, item, *ends):
        """Statements or conditions, with a line break or `;` between. One `;` may follow each, also the last."""
        while self.kind not in ends:
            item()
            if not self.has(";") and self.kind not in ends and not self.after_break:
                raise Refused

    def statement(self):
        kind = self.kind
        if kind in ("let", "var"):
            self.variable()
            if self.has(*MOVES):
                self.expression()
        elif kind == "if":
            self.if_statement()
        elif self.has("while"):
            self.expression()
            self.block()
        elif self.has("for"):
            self.for_statement()
        elif self.has("switch"):
            self.expression()
            self.bracket("{", self.cases, "}")
        elif self.has("return"):
            if self.kind in FIRST and not self.after_break:
                self.expression()
        elif self.has("emit"):
            self.expression()
        elif not self.has("break", "continue"):
            self.first_expression()
            if self.has("<->", *MOVES):
                self.expression()

    def first_expression(self):
        if self.kind in NOT_FIRST:
            raise Refused
        self.expression()

    def variable(self):
        """`let` or `var`, the name, perhaps its type, and the value."""
        self.need("let", "var")
        self.name()
        if self.has(":"):
            self.annotation()
        self.need(*MOVES)
        self.expression()

    def if_statement(self):
        """Each `else` before `if` opens a nesting up to the end of the outermost `if`."""
        before = self.open
        while True:
            self.need("if")
            if self.kind in ("let", "var"):
                self.variable()
            else:
                self.expression()
            self.block()
            if not self.has("else"):
                break
            if self.kind != "if":
                self.block()
                break
            self.nest()
        self.open = before

    def for_statement(self):
        self.name()
        if self.has(","):
            self.name()
        self.need("in")
        self.expression()
        self.block()

    def cases(self):
        while self.has("case"):
            self.expression()
            self.need(":")
            self.apart(self.statement, "case", "default", "}")
        if self.has("default"):
            self.need(":")
            self.apart(self.statement, "}")

    def conditions(self):
        self.bracket("{", lambda: self.apart(self.condition, "}"), "}")

    def condition(self):
        if self.has("emit"):
            self.expression()
            return
        self.first_expression()
        if self.has(":"):
            self.expression()

    def function_block(self):
        def content():
            if self.has("pre"):
                self.conditions()
            if self.has("post"):
                self.conditions()
            self.apart(self.statement, "}")

        self.bracket("{", content, "}")


class Programs(Statements):
    def imports(self):
        self.need("import")
        self.name()
        while self.has(","):
            if self.is_word(b"from") and self.ahead(1).kind in ("WHOLE", "HEXADECIMAL"):
                break
            self.name()
        self.need_word(b"from")
        self.need("HEXADECIMAL")

    def declaration(self):
        if self.kind == "transaction":
            self.transaction()
            return
        self.access()
        if self.has("contract"):
            self.name()
            self.bracket("{", lambda: self.members(self.contract_member), "}")
        else:
            self.function(True)

    def members(self, member):
        while self.kind != "}":
            member()

    def access(self):
        self.need("access")
        self.bracket("(", self.access_words, ")")

    def access_words(self):
        """`all` and `account` are entitlements only beside another name."""
        if self.has("self", "contract"):
            return
        if self.is_word(b"mapping") and self.ahead(1).kind == "NAME":
            self.at += 1
            self.dotted()
            return
        first = self.at
        single = (self.is_word(b"all") or self.is_word(b"account")) and self.ahead(1).kind in (")", ",")
        self.entitlements()
        if single and self.at == first + 2:  # the name and one comma
            raise Refused

    def function(self, needs_block):
        if self.is_word(b"view"):
            self.at += 1
        self.need("fun")
        self.name()
        self.parameters()
        if self.has(":"):
            self.annotation()
        if needs_block or self.kind == "{":
            self.function_block()

    def parameters(self, defaults=False):
        def parameter():
            self.name()
            if self.kind == "NAME":
                self.name()
            self.need(":")
            self.annotation()
            if defaults:
                self.need("=")
                self.expression()

        self.bracket("(", lambda: self.items_or_none(parameter, ")"), ")")

    def field(self):
        self.need("let", "var")
        self.name()
        self.need(":")
        self.annotation()

    def initializer(self):
        if self.is_word(b"view"):
            self.at += 1
        self.need("init")
        self.parameters()
        self.function_block()

    def event(self, has_access):
        self.need("event")
        destroyed = self.is_word(b"ResourceDestroyed")
        if not has_access and not destroyed:
            raise Refused
        self.name()
        self.parameters(destroyed)

    def composite_member(self):
        """A field, function, initializer or event."""
        if self.kind == "event":
            self.event(False)
        elif self.kind == "access":
            self.access()
            self.after_access()
        else:
            self.initializer()

    def after_access(self):
        if self.kind in ("let", "var"):
            self.field()
        elif self.kind == "event":
            self.event(True)
        else:
            self.function(True)

    def contract_member(self):
        if self.kind != "access":
            self.composite_member()
            return
        self.access()
        if self.has("struct", "resource"):
            self.composite_or_interface()
        elif self.has("enum"):
            self.enum()
        elif self.is_word(b"entitlement"):
            self.at += 1
            self.entitlement_or_mapping()
        else:
            self.after_access()

    def composite_or_interface(self):
        member = self.interface_member if self.has("interface") else self.composite_member
        self.name()
        if self.has(":"):
            self.items(self.dotted, "{")
        self.bracket("{", lambda: self.members(member), "}")

    def interface_member(self):
        """A field, also without `let` or `var`, or a function, also without a block."""
        self.access()
        if self.kind in ("let", "var"):
            self.field()
        elif self.kind == "fun" or self.is_word(b"view") and self.ahead(1).kind == "fun":
            self.function(False)
        else:
            self.name()
            self.need(":")
            self.annotation()

    def enum(self):
        def case():
            self.access()
            self.need("case")
            self.name()

        self.name()
        self.need(":")
        self.dotted()
        self.bracket("{", lambda: self.members(case), "}")

    def entitlement_or_mapping(self):
        if self.is_word(b"mapping") and self.ahead(1).kind == "NAME" and self.ahead(2).kind == "{":
            self.at += 2
            self.bracket("{", lambda: self.members(self.mapping_item), "}")
        else:
            self.name()

    def mapping_item(self):
        if self.is_word(b"include") and self.ahead(1).kind == "NAME":
            self.at += 1
            self.need_word(b"Identity")
        else:
            self.dotted()
            self.need("->")
            self.dotted()

    def transaction(self):
        def content():
            while self.kind in ("let", "var"):
                self.field()
            if self.has("prepare"):
                self.parameters()
                self.block()
            if self.has("pre"):
                self.conditions()
            if self.has("execute"):
                self.block()
            if self.has("post"):
                self.conditions()

        self.need("transaction")
        if self.kind == "(":
            self.parameters()
        self.bracket("{", content, "}")


def stop_of(text):
    """None where these bytes are a program, else the phase and the byte where they stop."""
    try:
        cursor = Programs(lex(text))
    except Stop as stop:
        return stop.args
    read = cursor.imports
    while cursor.kind:
        start = cursor.ahead(0)
        if start.kind != "import":
            read = cursor.declaration
        try:
            read()
        except Refused:
            return "parse", start.start
    return None
