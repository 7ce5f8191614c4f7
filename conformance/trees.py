"""Trees of Python 3.11 made by chance, and for each a source that can have no other tree: every expression in it has brackets of its own.

All classes of nodes and all their fields occur but those of what pyast leaves out: without `--whole` floats, complex numbers, f-strings
and `match`. A maker can be asked for the types of Python 3.12 too, the statement `type` and parameters of types, or for the whole language.
"""

import ast
import collections
import keyword
import struct
import unicodedata

NAMES = ["a", "b", "c", "x", "y", "f", "self", "match", "case", "type", "_", "gr\u00f6\u00dfe", "\u4e2d",
         "a_name_of_more_than_thirty_bytes"]
# What rare names are put together of. None may begin with the last.
PIECES = ["a", "i", "f", "s", "n", "o", "t", "_", "\u00e9", "\u0436", "\u4e2d", "\u00b7"]
NUMBERS = [0, 1, 2, 10, 255, 2**63, 2**64 - 1, 2**64, 2**128 - 1]
TEXTS = ["", "a", "it's", '"', "'\"", "a\nb", "\t\\", "\0\x7f\x85", "\u00e9", "\u4e2d", "\ud800", "\U0001f600", "{x}"]
# Texts that need no escape, as they may stand in a field of an f-string.
BARE_TEXTS = ["", "a", "a b", "{x}", "#", "%"]
BINARY = {ast.Add: "+", ast.Sub: "-", ast.Mult: "*", ast.MatMult: "@", ast.Div: "/", ast.Mod: "%", ast.Pow: "**", ast.LShift: "<<",
          ast.RShift: ">>", ast.BitOr: "|", ast.BitXor: "^", ast.BitAnd: "&", ast.FloorDiv: "//"}
UNARY = {ast.Invert: "~", ast.Not: "not ", ast.UAdd: "+", ast.USub: "-"}
BOOLEAN = {ast.And: "and", ast.Or: "or"}
COMPARISONS = {ast.Eq: "==", ast.NotEq: "!=", ast.Lt: "<", ast.LtE: "<=", ast.Gt: ">", ast.GtE: ">=", ast.Is: "is",
               ast.IsNot: "is not", ast.In: "in", ast.NotIn: "not in"}

# A parameter of a type, of Python 3.12: what stands before its name, `*`, `**` or nothing, and the bound that it may have then.
TypeParam = collections.namedtuple("TypeParam", "mark name bound")


class TypeAlias(ast.stmt):
    """The statement `type` of Python 3.12."""

    _fields = ("name", "type_params", "value")


# --- making -----------------------------------------------------------------------------------------------------------


class Maker:
    """Makes trees by chance, each the tree of some source, with types or without, of the whole language or of the plain one.

    A depth is how many more nodes may be nested.
    """

    def __init__(self, chance, types=False, whole=False):
        self.chance = chance
        self.types = types
        self.whole = whole
        # In how many fields of f-strings stands what is made.
        self.fields = 0

    def one_of(self, things):
        """One of some things."""
        return self.chance.choice(list(things))

    def is_rare(self):
        """Yes, now and then."""
        return self.chance.random() < 0.1

    def some(self, least, most, make, *given):
        """A few of what a maker makes."""
        return [make(*given) for _ in range(self.chance.randint(least, most))]

    def perhaps(self, make, *given):
        """What a maker makes, or None."""
        return make(*given) if self.chance.random() < 0.5 else None

    # Expressions.

    def expr(self, depth):
        """An expression that may stand wherever one may."""
        leaves = [self.name, self.name, self.constant]
        inner = [self.bool_op, self.named, self.bin_op, self.unary_op, self.lambda_, self.if_exp, self.dict_, self.set_, self.list_comp,
                 self.set_comp, self.dict_comp, self.generator, self.await_, self.yield_, self.yield_from, self.compare, self.call,
                 self.attribute, self.subscript, self.list_, self.tuple_, self.constant] + [self.joined] * (self.whole and self.fields < 2)
        return self.one_of(inner if depth > 0 else leaves)(depth - 1)

    def element(self, depth):
        """An element of a list, or an argument: it may have a star."""
        return self.starred(depth) if self.is_rare() else self.expr(depth)

    def value(self, depth):
        """What may stand after `=`, `in` of `for` or `return`: a star alone, too."""
        return self.starred(depth) if self.is_rare() and self.is_rare() else self.expr(depth)

    def starred(self, depth):
        """A star before an expression."""
        return ast.Starred(self.expr(depth - 1), ast.Load())

    def word(self, _=0):
        """A name as a text."""
        if self.chance.randrange(40):
            return self.one_of(NAMES)
        text = "".join(self.some(1, 6, self.one_of, PIECES))
        return text if text.isidentifier() and not keyword.iskeyword(text) else f"n{text}"

    def dotted(self):
        """Names with dots between them."""
        return ".".join(self.some(1, 3, self.word))

    def name(self, _):
        return ast.Name(self.word(), ast.Load())

    def double(self):
        """A double from 0 on, infinity too: one of some digits, or of any bits."""
        if self.chance.randrange(2):
            return float(f"{self.chance.randrange(10 ** self.chance.randint(1, 18))}e{self.chance.randint(-340, 310)}")
        return struct.unpack("<d", struct.pack("<Q", self.chance.randint(0, 0x7ff << 52)))[0]

    def number(self):
        """A whole number: a marked one, or any; or any other number, where all are wanted."""
        if self.whole and self.chance.randrange(2):
            return self.one_of((self.double(), complex(0, self.double()), self.chance.getrandbits(self.chance.randint(128, 14_000))))
        return self.one_of(NUMBERS) if self.chance.randrange(2) else self.chance.getrandbits(self.chance.choice((4, 64, 128)))

    def text(self):
        """A text: a marked one, or any code point that is assigned, as newer ones have other reprs."""
        found = chr(self.chance.randrange(0x110000))
        return self.one_of(TEXTS) if self.chance.randrange(3) or unicodedata.category(found) == "Cn" else found

    def bare_constant(self):
        """A constant as it may stand in a field: in two fields none is in quotes."""
        if self.fields == 2 or self.is_rare():
            return ast.Constant(self.number())
        text = self.one_of(BARE_TEXTS)
        return self.one_of((ast.Constant(text), ast.Constant(text, "u"), ast.Constant(text.encode())))

    def constant(self, _):
        if self.fields:
            return self.bare_constant()
        kind = self.chance.randrange(6)
        if kind == 0:
            return ast.Constant(self.one_of([None, True, False, ...]))
        if kind == 1:
            return ast.Constant(bytes(self.some(0, 4, self.chance.randrange, 256)))
        if kind == 2:
            return ast.Constant(self.one_of(TEXTS), "u")
        if kind == 3:
            return ast.Constant(self.number())
        return ast.Constant("".join(self.some(0, 3, self.text)) if kind == 4 else self.chance.randrange(100))

    def joined(self, depth):
        """An f-string."""
        return ast.JoinedStr(self.pieces(depth, self.one_of((None, None, "u")), 0))

    def pieces(self, depth, kind, level):
        """The values of an f-string, or of a format spec at a level."""
        made = []
        for _ in range(self.chance.randrange(3) if level < 2 else 0):
            made += [*self.piece(kind, level), self.field(depth, kind, level)]
        return made + self.piece(None if level else kind, level)

    def piece(self, kind, level):
        """A text of an f-string, or none."""
        text = "".join(self.some(0, 2, self.one_of, BARE_TEXTS)) if self.fields else "".join(self.some(0, 2, self.text))
        if self.fields and level:
            text = text.replace("{x}", "")
        return [ast.Constant(text, kind)] if text else []

    def field(self, depth, kind, level):
        """A field of an f-string."""
        self.fields += 1
        value = self.expr(depth)
        self.fields -= 1
        spec = ast.JoinedStr(self.pieces(depth - 1, kind, level + 1)) if self.is_rare() else None
        return ast.FormattedValue(value, self.one_of((-1, -1, *map(ord, "sra"))), spec)

    def bool_op(self, depth):
        return ast.BoolOp(self.one_of(BOOLEAN)(), self.some(2, 3, self.expr, depth))

    def named(self, depth):
        return ast.NamedExpr(ast.Name(self.word(), ast.Store()), self.expr(depth))

    def bin_op(self, depth):
        return ast.BinOp(self.expr(depth), self.one_of(BINARY)(), self.expr(depth))

    def unary_op(self, depth):
        return ast.UnaryOp(self.one_of(UNARY)(), self.expr(depth))

    def lambda_(self, depth):
        return ast.Lambda(self.arguments(depth, False), self.expr(depth))

    def if_exp(self, depth):
        return ast.IfExp(self.expr(depth), self.expr(depth), self.expr(depth))

    def dict_(self, depth):
        values = self.some(0, 3, self.expr, depth)
        return ast.Dict([None if self.is_rare() else self.expr(depth) for _ in values], values)

    def set_(self, depth):
        return ast.Set(self.some(1, 3, self.element, depth))

    def list_(self, depth):
        return ast.List(self.some(0, 3, self.element, depth), ast.Load())

    def tuple_(self, depth):
        return ast.Tuple(self.some(0, 3, self.element, depth), ast.Load())

    def list_comp(self, depth):
        return ast.ListComp(self.expr(depth), self.some(1, 2, self.comprehension, depth))

    def set_comp(self, depth):
        return ast.SetComp(self.expr(depth), self.some(1, 2, self.comprehension, depth))

    def dict_comp(self, depth):
        return ast.DictComp(self.expr(depth), self.expr(depth), self.some(1, 2, self.comprehension, depth))

    def generator(self, depth):
        return ast.GeneratorExp(self.expr(depth), self.some(1, 2, self.comprehension, depth))

    def comprehension(self, depth):
        return ast.comprehension(self.target(depth), self.expr(depth), self.some(0, 2, self.expr, depth), self.chance.randrange(2))

    def await_(self, depth):
        return ast.Await(self.expr(depth))

    def yield_(self, depth):
        return ast.Yield(self.perhaps(self.value, depth))

    def yield_from(self, depth):
        return ast.YieldFrom(self.expr(depth))

    def compare(self, depth):
        operators = self.some(1, 3, self.one_of, COMPARISONS)
        return ast.Compare(self.expr(depth), [one() for one in operators], [self.expr(depth) for _ in operators])

    def call(self, depth):
        return ast.Call(self.expr(depth), self.some(0, 2, self.element, depth), self.some(0, 2, self.keyword, depth))

    def keyword(self, depth):
        return ast.keyword(self.perhaps(self.word), self.expr(depth))

    def attribute(self, depth, context=ast.Load):
        return ast.Attribute(self.expr(depth), self.word(), context())

    def subscript(self, depth, context=ast.Load):
        index = self.one_of([self.expr, self.slice, self.slices])
        return ast.Subscript(self.expr(depth), index(depth), context())

    def slice(self, depth):
        return ast.Slice(*(self.perhaps(self.expr, depth) for _ in range(3)))

    def slices(self, depth):
        parts = self.some(0, 2, self.element, depth)
        parts.insert(self.chance.randint(0, len(parts)), self.slice(depth))
        return ast.Tuple(parts, ast.Load())

    # Targets and parameters.

    def target(self, depth, context=ast.Store):
        """What may be assigned to, or with the context Del be deleted."""
        kind = self.chance.randrange(6) if depth > 0 else 0
        if kind in (3, 4):
            make = self.target if context is ast.Del else self.element_target
            return (ast.Tuple, ast.List)[kind - 3](self.some(0, 3, make, depth - 1, context), context())
        return self.starred_target(depth) if kind == 5 and context is ast.Store and self.is_rare() else self.single_target(depth, context)

    def element_target(self, depth, context):
        """A target in a list: it may have a star."""
        return self.starred_target(depth) if self.is_rare() else self.target(depth, context)

    def starred_target(self, depth):
        """A star before a target that has none."""
        found = self.target(depth - 1)
        return ast.Starred(found.value if isinstance(found, ast.Starred) else found, ast.Store())

    def single_target(self, depth, context=ast.Store):
        """A name, an attribute or a subscript."""
        make = self.one_of([None, self.attribute, self.subscript])
        return make(depth - 1, context) if make and depth > 0 else ast.Name(self.word(), context())

    def arguments(self, depth, annotated):
        """Parameters, in `def` with annotations."""
        first, then, named = (self.some(0, 2, self.arg, depth, annotated) for _ in range(3))
        defaults = self.some(0, len(first + then), self.expr, depth)
        rest = self.perhaps(self.arg, depth, annotated)
        if rest and annotated and self.is_rare():
            rest.annotation = self.starred(depth)
        return ast.arguments(first, then, rest, named, [self.perhaps(self.expr, depth) for _ in named],
                             self.perhaps(self.arg, depth, annotated), defaults)

    def arg(self, depth, annotated):
        return ast.arg(self.word(), self.perhaps(self.expr, depth) if annotated else None)

    # Statements.

    def module(self, depth):
        """A module of a few statements."""
        return ast.Module(self.some(1, 2, self.stmt, depth), [])

    def block(self, depth):
        """The statements of a clause."""
        return self.some(1, 2, self.stmt, depth - 1)

    def stmt(self, depth):
        """A statement."""
        simple = [self.return_, self.delete, self.assign, self.aug_assign, self.ann_assign, self.raise_, self.assert_, self.import_,
                  self.import_from, self.global_, self.expr_stmt, self.bare] + [self.type_alias] * self.types
        inner = [self.function, self.class_, self.for_, self.while_, self.if_, self.with_, self.try_] + [self.match] * self.whole
        return self.one_of(simple + inner if depth > 0 else simple)(depth)

    def function(self, depth):
        kind = self.one_of([ast.FunctionDef, ast.AsyncFunctionDef])
        made = kind(self.word(), self.arguments(depth - 1, True), self.block(depth), self.some(0, 2, self.expr, depth - 1),
                    self.perhaps(self.expr, depth - 1))
        return self.with_types(made, depth)

    def class_(self, depth):
        made = ast.ClassDef(self.word(), self.some(0, 2, self.element, depth - 1), self.some(0, 2, self.keyword, depth - 1),
                            self.block(depth), self.some(0, 2, self.expr, depth - 1))
        return self.with_types(made, depth)

    def with_types(self, node, depth):
        """A definition, with parameters of types where there may be some: Python 3.11 knows nothing of such a field."""
        node.type_params = self.type_params(depth - 1) if self.types else []
        return node

    def type_params(self, depth):
        """Parameters of types, or none."""
        return self.perhaps(self.some, 1, 3, self.type_param, depth) or []

    def type_param(self, depth):
        """A parameter of a type."""
        mark = self.one_of(["", "*", "**"])
        return TypeParam(mark, self.word(), None if mark else self.perhaps(self.expr, depth))

    def type_alias(self, depth):
        return TypeAlias(ast.Name(self.word(), ast.Store()), self.type_params(depth), self.expr(depth))

    def for_(self, depth):
        kind = self.one_of([ast.For, ast.AsyncFor])
        return kind(self.target(depth - 1), self.value(depth - 1), self.block(depth), self.perhaps(self.block, depth) or [])

    def while_(self, depth):
        return ast.While(self.expr(depth - 1), self.block(depth), self.perhaps(self.block, depth) or [])

    def if_(self, depth):
        return ast.If(self.expr(depth - 1), self.block(depth), self.perhaps(self.block, depth) or [])

    def with_(self, depth):
        return self.one_of([ast.With, ast.AsyncWith])(self.some(1, 3, self.item, depth - 1), self.block(depth))

    def item(self, depth):
        return ast.withitem(self.expr(depth), self.perhaps(self.target, depth))

    def try_(self, depth):
        kind = self.one_of([ast.Try, ast.TryStar])
        handlers = self.some(int(kind is ast.TryStar), 2, self.handler, depth, kind)
        orelse = self.perhaps(self.block, depth) if handlers else None
        finalbody = self.perhaps(self.block, depth) if handlers else self.block(depth)
        return kind(self.block(depth), handlers, orelse or [], finalbody or [])

    def handler(self, depth, kind):
        of = self.expr(depth - 1) if kind is ast.TryStar or not self.is_rare() else None
        return ast.ExceptHandler(of, self.perhaps(self.word) if of else None, self.block(depth))

    def match(self, depth):
        return ast.Match(self.expr(depth - 1), self.some(1, 3, self.case, depth))

    def case(self, depth):
        return ast.match_case(self.pattern(depth - 1), self.perhaps(self.expr, depth - 1), self.block(depth))

    def captured(self):
        """A name that a pattern captures."""
        return next(name for name in iter(self.word, None) if name != "_")

    def pattern(self, depth):
        """A pattern, but for one with a star."""
        simple = [self.match_value, self.match_singleton, self.capture]
        inner = [self.match_sequence, self.match_mapping, self.match_class, self.match_as, self.match_or]
        return self.one_of(simple + inner if depth > 0 else simple)(depth - 1)

    def literal(self):
        """A text, bytes, a number with a sign or without, or a sum of a real and an imaginary one."""
        real = ast.Constant(self.one_of((self.double(), self.chance.randrange(1000))))
        real = ast.UnaryOp(ast.USub(), real) if self.chance.randrange(2) else real
        total = ast.BinOp(real, self.one_of((ast.Add, ast.Sub))(), ast.Constant(complex(0, self.double())))
        return self.one_of((real, total, self.joined(1), ast.Constant(self.number()), ast.Constant("".join(self.some(0, 3, self.text))),
                            ast.Constant(bytes(self.some(0, 4, self.chance.randrange, 256)))))

    def part(self, names):
        """Names with points between, at least so many, the first of them no wildcard."""
        node = ast.Name(self.captured(), ast.Load())
        for _ in range(self.chance.randint(names, names + 2) - 1):
            node = ast.Attribute(node, self.word(), ast.Load())
        return node

    def match_value(self, _):
        return ast.MatchValue(self.part(2) if self.is_rare() else self.literal())

    def match_singleton(self, _):
        return ast.MatchSingleton(self.one_of((None, True, False)))

    def capture(self, _):
        return ast.MatchAs(None, self.perhaps(self.captured))

    def starred_pattern(self, depth):
        """An element of a sequence."""
        return ast.MatchStar(self.perhaps(self.captured)) if self.is_rare() else self.pattern(depth)

    def match_sequence(self, depth):
        return ast.MatchSequence(self.some(0, 3, self.starred_pattern, depth))

    def match_mapping(self, depth):
        keys = [self.one_of((self.literal(), self.part(2), ast.Constant(None))) for _ in range(self.chance.randrange(3))]
        return ast.MatchMapping(keys, [self.pattern(depth) for _ in keys], self.perhaps(self.captured))

    def match_class(self, depth):
        names = self.some(0, 2, self.captured)
        return ast.MatchClass(self.part(1), self.some(0, 2, self.pattern, depth), names, [self.pattern(depth) for _ in names])

    def match_as(self, depth):
        return ast.MatchAs(self.pattern(depth), self.captured())

    def match_or(self, depth):
        return ast.MatchOr(self.some(2, 3, self.pattern, depth))

    def return_(self, depth):
        return ast.Return(self.perhaps(self.value, depth))

    def delete(self, depth):
        return ast.Delete(self.some(1, 2, self.target, depth, ast.Del))

    def assign(self, depth):
        return ast.Assign(self.some(1, 2, self.target, depth), self.value(depth))

    def aug_assign(self, depth):
        return ast.AugAssign(self.single_target(depth), self.one_of(BINARY)(), self.value(depth))

    def ann_assign(self, depth):
        target = self.single_target(depth)
        simple = self.chance.randrange(2) if isinstance(target, ast.Name) else 0
        return ast.AnnAssign(target, self.expr(depth), self.perhaps(self.value, depth), simple)

    def raise_(self, depth):
        of = self.perhaps(self.expr, depth)
        return ast.Raise(of, self.perhaps(self.expr, depth) if of else None)

    def assert_(self, depth):
        return ast.Assert(self.expr(depth), self.perhaps(self.expr, depth))

    def import_(self, _):
        return ast.Import([ast.alias(self.dotted(), self.perhaps(self.word)) for _ in range(self.chance.randint(1, 3))])

    def import_from(self, _):
        level = self.chance.choice((0, 0, 1, 2, 3, 4, 7))
        names = [ast.alias(self.word(), self.perhaps(self.word)) for _ in range(self.chance.randint(1, 3))]
        return ast.ImportFrom(None if level and self.is_rare() else self.dotted(), [ast.alias("*")] if self.is_rare() else names, level)

    def global_(self, _):
        return self.one_of([ast.Global, ast.Nonlocal])(self.some(1, 3, self.word))

    def expr_stmt(self, depth):
        return ast.Expr(self.value(depth))

    def bare(self, _):
        return self.one_of([ast.Pass, ast.Break, ast.Continue])()


# --- writing ----------------------------------------------------------------------------------------------------------


def bracketed(node):
    """An expression in brackets of its own; a star or a slice, which can't have them, with its parts so."""
    if isinstance(node, ast.Starred):
        return f"*{bracketed(node.value)}"
    if isinstance(node, ast.Slice):
        return sliced(node)
    return f"({bare(node)})"


def optional(front, node):
    """A part that may be missing, after its front."""
    return "" if node is None else f"{front}{bracketed(node)}"


def listed(nodes):
    """Parts, each with a comma after it."""
    return "".join(f"{bracketed(node)}, " for node in nodes)


def literal(value):
    """The literal of a constant's value."""
    if value is ...:
        return "..."
    # A float that no literal is: one past the largest.
    return ascii(value).replace("inf", "1e309") if isinstance(value, (float, complex)) else ascii(value)


def has_kind(values):
    """Whether a text of an f-string, or of its format specs, is of the kind `u`."""
    return any(value.kind == "u" if isinstance(value, ast.Constant) else value.format_spec and has_kind(value.format_spec.values) for value in values)


def formatted(values, level):
    """The texts and fields of an f-string, or of a format spec at a level."""
    made = ""
    for value in values:
        if isinstance(value, ast.FormattedValue):
            # What stands in a field has no quotes but those of its literals.
            conversion = "" if value.conversion == -1 else f"!{chr(value.conversion)}"
            spec = "" if value.format_spec is None else f":{formatted(value.format_spec.values, level + 1)}"
            made += "{" + bracketed(value.value).replace("'", '"') + conversion + spec + "}"
        else:
            # A text with a double quote is shown in single ones.
            text = ascii('"' + value.value)[2:-1]
            made += text.replace("{", "\\x7b").replace("}", "\\x7d") if level else text.replace("{", "{{").replace("}", "}}")
    return made


def bare(node):
    """An expression without brackets round it."""
    match node:
        case ast.BoolOp():
            return f" {BOOLEAN[type(node.op)]} ".join(map(bracketed, node.values))
        case ast.NamedExpr():
            return f"{node.target.id} := {bracketed(node.value)}"
        case ast.BinOp():
            return f"{bracketed(node.left)} {BINARY[type(node.op)]} {bracketed(node.right)}"
        case ast.UnaryOp():
            return f"{UNARY[type(node.op)]}{bracketed(node.operand)}"
        case ast.Lambda():
            return f"lambda {parameters(node.args)}: {bracketed(node.body)}"
        case ast.IfExp():
            return f"{bracketed(node.body)} if {bracketed(node.test)} else {bracketed(node.orelse)}"
        case ast.Await():
            return f"await {bracketed(node.value)}"
        case ast.Yield():
            return f"yield {optional('', node.value)}"
        case ast.YieldFrom():
            return f"yield from {bracketed(node.value)}"
        case ast.Compare():
            rest = (f" {COMPARISONS[type(op)]} {bracketed(one)}" for op, one in zip(node.ops, node.comparators))
            return bracketed(node.left) + "".join(rest)
        case ast.Call():
            return f"{bracketed(node.func)}({given(node.args, node.keywords)})"
        case ast.Constant():
            return (node.kind or "") + literal(node.value)
        case ast.JoinedStr():
            return "u'' " * has_kind(node.values) + f"f'{formatted(node.values, 0)}'"
        case ast.Attribute():
            return f"{bracketed(node.value)}.{node.attr}"
        case ast.Subscript():
            return f"{bracketed(node.value)}[{index_of(node.slice)}]"
        case ast.Name():
            return node.id
    return display(node)


def display(node):
    """An expression that begins and ends in brackets."""
    match node:
        case ast.Tuple():
            return f"({listed(node.elts)})"
        case ast.List():
            return f"[{listed(node.elts)}]"
        case ast.Set():
            return f"{{{listed(node.elts)}}}"
        case ast.Dict():
            pairs = (f"**{bracketed(value)}, " if key is None else f"{bracketed(key)}: {bracketed(value)}, "
                     for key, value in zip(node.keys, node.values))
            return f"{{{''.join(pairs)}}}"
        case ast.ListComp():
            return f"[{bracketed(node.elt)}{clauses(node)}]"
        case ast.SetComp():
            return f"{{{bracketed(node.elt)}{clauses(node)}}}"
        case ast.DictComp():
            return f"{{{bracketed(node.key)}: {bracketed(node.value)}{clauses(node)}}}"
        case ast.GeneratorExp():
            return f"({bracketed(node.elt)}{clauses(node)})"
    raise TypeError(type(node))


def clauses(node):
    """The `for` and `if` of a comprehension."""
    return "".join(f"{' async' * one.is_async} for {bracketed(one.target)} in {bracketed(one.iter)}"
                   + "".join(f" if {bracketed(test)}" for test in one.ifs) for one in node.generators)


def given(arguments, keywords):
    """The arguments of a call or the bases of a class."""
    return listed(arguments) + "".join(f"{one.arg + '=' if one.arg else '**'}{bracketed(one.value)}, " for one in keywords)


def sliced(node):
    """A slice."""
    return f"{optional('', node.lower)}:{optional('', node.upper)}{optional(':', node.step)}"


def index_of(node):
    """What stands in the brackets of a subscript."""
    if isinstance(node, ast.Tuple) and any(isinstance(one, ast.Slice) for one in node.elts):
        return listed(node.elts)
    return bracketed(node)


def parameters(arguments):
    """The parameters of a function."""
    first, then = len(arguments.posonlyargs), arguments.posonlyargs + arguments.args
    defaults = [None] * (len(then) - len(arguments.defaults)) + arguments.defaults
    parts = [parameter(one, default) for one, default in zip(then, defaults)]
    parts[first:first] = ["/"] if first else []
    if arguments.vararg or arguments.kwonlyargs:
        parts.append(f"*{parameter(arguments.vararg)}" if arguments.vararg else "*")
    parts += [parameter(one, default) for one, default in zip(arguments.kwonlyargs, arguments.kw_defaults)]
    return ", ".join(parts + ([f"**{parameter(arguments.kwarg)}"] if arguments.kwarg else []))


def parameter(arg, default=None):
    """A parameter."""
    return f"{arg.arg}{optional(': ', arg.annotation)}{optional('=', default)}"


def type_parameters(node):
    """The parameters of types of a definition or a `type`, in their brackets, if there are some."""
    parts = (f"{one.mark}{one.name}{optional(': ', one.bound)}" for one in node.type_params)
    return f"[{', '.join(parts)}]" if node.type_params else ""


def aliases(names):
    """The names of an import."""
    return ", ".join(one.name + (f" as {one.asname}" if one.asname else "") for one in names)


def closed(node):
    """A pattern that may stand anywhere, in brackets where it has none; a star as it is."""
    match node:
        case ast.MatchValue():
            return f"({plain(node.value)})"
        case ast.MatchSingleton():
            return f"({node.value})"
        case ast.MatchStar():
            return f"*{node.name or '_'}"
        case ast.MatchSequence():
            return f"[{', '.join(map(closed, node.patterns))}]"
        case ast.MatchMapping():
            pairs = [f"{plain(key)}: {closed(one)}" for key, one in zip(node.keys, node.patterns)]
            return f"{{{', '.join(pairs + [f'**{node.rest}'] * bool(node.rest))}}}"
        case ast.MatchClass():
            named = [f"{name}={closed(one)}" for name, one in zip(node.kwd_attrs, node.kwd_patterns)]
            return f"{plain(node.cls)}({', '.join([*map(closed, node.patterns), *named])})"
        case ast.MatchOr():
            return f"({' | '.join(map(closed, node.patterns))})"
    return f"({closed(node.pattern)} as {node.name})" if node.pattern else f"({node.name or '_'})"


def plain(node):
    """A value, key or class of a pattern, which has no brackets."""
    match node:
        case ast.UnaryOp():
            return f"-{plain(node.operand)}"
        case ast.BinOp():
            return f"{plain(node.left)} {BINARY[type(node.op)]} {plain(node.right)}"
        case ast.Attribute():
            return f"{plain(node.value)}.{node.attr}"
    return bare(node)


def clause(header, body):
    """The lines of a header and its block."""
    return [f"{header}:", *(f" {line}" for statement in body for line in lines_of(statement))]


def perhaps_clause(header, body):
    """The lines of a clause that is there where it has a block."""
    return clause(header, body) if body else []


def lines_of(node):
    """The lines of a statement."""
    word = "async " if isinstance(node, (ast.AsyncFunctionDef, ast.AsyncFor, ast.AsyncWith)) else ""
    match node:
        case ast.FunctionDef() | ast.AsyncFunctionDef():
            header = f"{word}def {node.name}{type_parameters(node)}({parameters(node.args)}){optional(' -> ', node.returns)}"
            return decorators(node) + clause(header, node.body)
        case ast.ClassDef():
            return decorators(node) + clause(f"class {node.name}{type_parameters(node)}({given(node.bases, node.keywords)})", node.body)
        case ast.For() | ast.AsyncFor():
            header = f"{word}for {bracketed(node.target)} in {bracketed(node.iter)}"
            return clause(header, node.body) + perhaps_clause("else", node.orelse)
        case ast.While():
            return clause(f"while {bracketed(node.test)}", node.body) + perhaps_clause("else", node.orelse)
        case ast.If():
            return clause(f"if {bracketed(node.test)}", node.body) + perhaps_clause("else", node.orelse)
        case ast.With() | ast.AsyncWith():
            items = (f"{bracketed(one.context_expr)}{optional(' as ', one.optional_vars)}" for one in node.items)
            return clause(f"{word}with {', '.join(items)}", node.body)
        case ast.Match():
            cases = (clause(f"case {closed(one.pattern)}{optional(' if ', one.guard)}", one.body) for one in node.cases)
            return [f"match {bracketed(node.subject)}:", *(f" {line}" for lines in cases for line in lines)]
        case ast.Try() | ast.TryStar():
            lines = clause("try", node.body)
            for one in node.handlers:
                header = "except" + "*" * isinstance(node, ast.TryStar) + optional(" ", one.type)
                lines += clause(header + (f" as {one.name}" if one.name else ""), one.body)
            return lines + perhaps_clause("else", node.orelse) + perhaps_clause("finally", node.finalbody)
    return [simple(node)]


def decorators(node):
    """The lines before a definition."""
    return [f"@{bracketed(one)}" for one in node.decorator_list]


def simple(node):
    """The line of a statement without a block."""
    match node:
        case ast.Return():
            return f"return{optional(' ', node.value)}"
        case ast.Delete():
            return f"del {', '.join(map(bracketed, node.targets))}"
        case ast.Assign():
            return "".join(f"{bracketed(one)} = " for one in node.targets) + bracketed(node.value)
        case TypeAlias():
            return f"type {node.name.id}{type_parameters(node)} = {bracketed(node.value)}"
        case ast.AugAssign():
            return f"{bracketed(node.target)} {BINARY[type(node.op)]}= {bracketed(node.value)}"
        case ast.AnnAssign():
            target = node.target.id if node.simple else bracketed(node.target)
            return f"{target}: {bracketed(node.annotation)}{optional(' = ', node.value)}"
        case ast.Raise():
            return f"raise{optional(' ', node.exc)}{optional(' from ', node.cause)}"
        case ast.Assert():
            return f"assert {bracketed(node.test)}{optional(', ', node.msg)}"
        case ast.Import():
            return f"import {aliases(node.names)}"
        case ast.ImportFrom():
            return f"from {'.' * node.level}{node.module or ''} import {aliases(node.names)}"
        case ast.Global() | ast.Nonlocal():
            return f"{type(node).__name__.lower()} {', '.join(node.names)}"
        case ast.Expr():
            return bracketed(node.value)
        case ast.Pass() | ast.Break() | ast.Continue():
            return type(node).__name__.lower()
    raise TypeError(type(node))


def source_of(statements):
    """A source that is surely these statements."""
    return "".join(f"{line}\n" for statement in statements for line in lines_of(statement)).encode()


def random_source(chance, whole=False):
    """A source of a tree made by chance, which Python's parser is asked to confirm."""
    tree = Maker(chance, whole=whole).module(chance.choice((1, 2, 2, 3, 3, 4)))
    source = source_of(tree.body)
    if ast.dump(ast.parse(source)) != ast.dump(tree):
        raise ValueError(f"this isn't the source of its tree: {source.decode()}")
    return source
