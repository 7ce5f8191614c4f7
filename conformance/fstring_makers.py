"""f-strings that are made by chance, the places where they are tried, short ones without end, and hostile ones."""

import collections
import itertools
import random
import re

QUOTES = ("'", '"', "'''", '"""')
PREFIXES = ("f", "f", "f", "f", "F", "rf", "fr", "Rf", "fR", "RF")
OTHER_PREFIXES = ("", "", "", "u", "u", "U", "r", "R", "b")
NAMES = ("a", "b", "x", "self", "é", "match", "_")
NUMBERS = ("0", "12", "1_0", "0x1f", "1.5", "1e400", "2j", ".5", "012.5")
# What a text has beside letters: some of it isn't allowed everywhere.
TEXTS = ("a", "bc", " ", "{{", "}}", "#", ":", "!", "=", "'", '"', "é", "\U0001f40d", "\t", "\\n", "\\'", '\\"', "\\\\", "\\x41", "\\u00e9",
         "\\ud800", "\\0", "\\101", "\\{{", "\\", "\\q", "\\N{DASH}", "\\x4", "\n", "\r\n", "}")
SPECS = (">", "5", ".3f", "%Y", "é", ":", "!r", "=", "#x", "\\x7b", "\\n", "'", '"', " ", "\\\\", "\n")
OPERATORS = ("+", "-", "**", "%", "==", "!=", "<=", ">=", "<", "and", "or", "in", "is not", "@", ">>")
BLANKS = ("", "", "", "", " ", "  ", "\t")
ALPHABET = "{}!:=a'\"\\()#f"
# Where a short body stands: alone, after a name in a field, in a format spec, and in a raw f-string.
FRAMES = ("f'''{}'''\n", "f'''{{a{}}}'''\n", "f'''{{a:{}}}'''\n", 'rF"{}"\n', "f'''{{f\"{}\"}}'''\n")
# The places of a module where f-strings may stand or have to be refused, two blanks between them.
PLACES = r"""{0}  x = {0}  {0}; {0}  {0}.a  {0}[0]  x[{0}]  x[{0}:{0}]  {0}({0})  f({0}, *{0}, a={0}, **{0})  -{0}  not {0}  {0} + {0}  {0} % x
{0} in {0} is {0}  {0} if {0} else {0}  lambda a={0}: {0}  ({0})  ({0},)  {0}, {0}  [{0}, *{0}]  {{{0}}}  {{{0}: {0}, **{0}}}
[{0} for a in {0} if {0}]  (a := {0})  yield {0}  await {0}  @{0}\ndef f(): pass  @{0}\nclass A: pass  def f(a={0}, /, b={0}, *, c={0}): pass
def f(a: {0}) -> {0}: pass  class A({0}, k={0}): pass  def f():\n {0}\n x  class A:\n {0}\n x  def f(): {0}  async def f():\n {0}  {0}\nx
def f(): return {0}  del x[{0}]  assert {0}, {0}  raise {0} from {0}  x: {0} = {0}  x += {0}  x = y = {0}  if {0}: x\nelif {0}: y  while {0}: {0}
for a in {0}: {0}  with {0} as a, {0}: x  with ({0}, {0}): x  try: x\nexcept {0}: y  try: x\nexcept* {0} as e: y  global x; {0}
match {0}:\n case a: pass  match {0}, {0}:\n case a if {0}: {0}  match x:\n case {0}: pass  match x:\n case {{{0}: {0}, **r}}: pass
match x:\n case A({0}, k={0}): pass  match x:\n case {0} | [{0}, *_] as a: pass  match x:\n case ({0}): pass
match x:\n case {{{0}: _, {0}: _}}: pass  {0}.a = 1  {0}[0] = 1  {0}.a: int  del {0}.a  for {0}.a in x: pass  with x as {0}[0]: pass  {0} = 1
{0}, a = 1  [*{0}] = 1  x = {0} = 1  {0} += 1  {0}: int  {0}: int = 1  ({0}): int  del {0}  del a, {0}  for {0} in x: pass  [a for {0} in x]
with x as {0}: pass  ({0} := 1)  import {0}  from {0} import x  from a import {0}  global {0}  def {0}(): pass  def f({0}): pass  class {0}: pass
f({0}=1)  x.{0}  try: x\nexcept a as {0}: y  lambda {0}: x  match x:\n case -{0}: pass  match x:\n case {0} + 1j: pass  match x:\n case {0}(): pass
match x:\n case {0}.a: pass  match x:\n case A({0}=1): pass  match x:\n case a as {0}: pass  match x:\n case *{0}, a: pass
match x:\n case {{**{0}}}: pass  1{0}  {0}1  {0} x  x {0}  b'' {0}  {0} b''"""
FEW = ("f''", "f'a'", "f'{x}'", "f'{x!r:>{w}}' 'b'", "u'' f'{x}{{'", "rf'''\n{ x = }'''")
PIECE = re.compile(r"\w+|.", re.DOTALL)
OTHERS = (*"{}!:='\"\\()[]#,.*fruabxs1 \n", "{{", "}}", "!r", "!=", "==", ":=", "{a}", "{a", "f'", '"a"', "'''", "\\N", "\\x4", "lambda", "f\"{a}\"",
          "=}")
# A hostile source is to be refused with a text, or to have the tree of a shorter one that Python reads, or that which Python gives it.
Hostile = collections.namedtuple("Hostile", "name source fault like", defaults=(None, None))
MANY = 1_000_000
MALFORMED = "f-string"


# --- by chance --------------------------------------------------------------------------------------------------------


class Maker:
    """Makes f-strings by chance; most of them are some."""

    def __init__(self, chance):
        self.chance = chance

    def rarely(self, often):
        """Whether this is one of so many times."""
        return self.chance.randrange(often) == 0

    def blanks(self, around):
        """Blanks, and line ends where the quotes around allow them."""
        if self.rarely(12) and around and all(len(quote) == 3 for quote in around):
            return "\n "
        return self.chance.choice(BLANKS)

    def quotes(self, around):
        """Quotes that may stand within those around, or None."""
        inner = [quote for quote in QUOTES if not any(outer in quote for outer in around)]
        return self.chance.choice(inner) if inner else None

    def text(self, quote, pieces, most):
        """Some pieces of a text, few of which these quotes don't allow."""
        made = [self.chance.choice(pieces) for _ in range(self.chance.randrange(most))]
        wrong = ("\\N{DASH}", "\\x4", "}", "\\", quote[0], *("\n", "\r\n")[:2 if len(quote) == 1 else 0])
        return "".join(piece for piece in made if piece not in wrong or self.rarely(15))

    def plain(self, around):
        """A literal that is no f-string."""
        quote = self.quotes(around)
        if quote is None:
            return self.chance.choice(NAMES)
        prefix = self.chance.choice(OTHER_PREFIXES)
        pieces = ("a", "b c", "{", "}", "#", "(") if around and not self.rarely(12) else TEXTS
        return f"{prefix}{quote}{self.text(quote, pieces, 3)}{quote}"

    def formatted(self, around, depth):
        """An f-string."""
        quote = self.quotes(around)
        if quote is None:
            return self.chance.choice(NAMES)
        within = (*around, quote)
        body = ""
        for _ in range(self.chance.choice((0, 1, 1, 1, 2, 3))):
            pieces = ("a", " ", "{{", "}}", "#", ":", "!") if around and not self.rarely(20) else TEXTS
            body += self.text(quote, pieces, 3) + self.field(within, depth, 0)
        return f"{self.chance.choice(PREFIXES)}{quote}{body}{self.text(quote, TEXTS if not around else ('a',), 3)}{quote}"

    def literals(self, around=(), depth=2):
        """Literals side by side, one of them an f-string."""
        made = [self.plain(around) for _ in range(self.chance.choice((0, 0, 0, 0, 1, 2)))]
        made.insert(self.chance.randint(0, len(made)), self.formatted(around, depth))
        if self.rarely(6):
            made.append(self.formatted(around, depth))
        return " ".join(made)

    def field(self, around, depth, level):
        """A field at a level of format specs."""
        expression = self.value(around, depth)
        if expression.startswith("{") and not self.rarely(20):
            expression = f" {expression}"
        may_show = len(around) == 1 or self.rarely(4)
        equal = f"{self.blanks(())}={self.blanks(())}" if may_show and self.rarely(6) else ""
        conversion = self.chance.choice(("", "", "", "!s", "!r", "!a", "!q" if self.rarely(10) else "!r"))
        spec = f":{self.spec(around, depth, level + 1)}" if self.rarely(3) else ""
        return f"{{{self.blanks(around)}{expression}{self.blanks(around)}{equal}{conversion}{spec}}}"

    def spec(self, around, depth, level):
        """A format spec."""
        made = self.text(around[-1], SPECS if len(around) == 1 else (">", "5", "é"), 3)
        if self.rarely(3 if level == 1 else 30):
            made += self.field(around, depth, level) + self.text(around[-1], SPECS if len(around) == 1 else (">",), 2)
        return made

    def value(self, around, depth):
        """What may stand in a field: an expression, or what may stand in brackets."""
        inner = lambda: self.expression(around, depth)  # noqa: E731
        return self.chance.choice((
            *[inner] * 5,
            lambda: f"{inner()}, {inner()}",
            lambda: f"*{inner()}, {inner()}",
            lambda: f"{inner()},",
            lambda: f"yield {inner()}",
            lambda: "yield",
            lambda: f"yield from {inner()}",
            lambda: f"{inner()} for a in {inner()}",
            lambda: f"lambda: {inner()}",
            lambda: f"x := {inner()}",
            lambda: f"*{inner()}",
            lambda: f"await {inner()}",
        ))()

    def expression(self, around, depth):
        """An expression."""
        atoms = (lambda: self.chance.choice(NAMES), lambda: self.chance.choice(NUMBERS), lambda: self.plain(around))
        if depth == 0:
            return self.chance.choice((*atoms, *atoms[:1] * 3))()
        inner = lambda: self.expression(around, depth - 1)  # noqa: E731
        return self.chance.choice((
            *atoms,
            atoms[0],
            lambda: self.literals(around, depth - 1),
            lambda: f"{inner()} {self.chance.choice(OPERATORS)} {inner()}",
            lambda: f"{inner()}{self.chance.choice(('!=', '==', '<=', '>=', '<', '='))}{inner()}",
            lambda: f"{self.chance.choice(('-', '~', 'not ', 'await '))}{inner()}",
            lambda: f"{inner()}.real",
            lambda: f"{inner()}[{inner()}{self.chance.choice(('', ':', ', ', ':' + inner()))}]",
            lambda: f"f({inner()}, k={inner()}, *{inner()})",
            lambda: f"({inner()})",
            lambda: f"({inner()} := {inner()})",
            lambda: f"(lambda a={inner()}: {inner()})",
            lambda: f"({inner()}, {inner()})",
            lambda: f"[{inner()}{self.blanks(around)}for a in {inner()} if {inner()}]",
            lambda: f"{{{inner()}: {inner()}, **{inner()}}}",
            lambda: f"{{{inner()}, {inner()}}}[0]",
            lambda: f"{inner()} if {inner()} else {inner()}",
        ))()


def random_source(seed, number):
    """A line with f-strings made by chance, the same for the same seed and number."""
    maker = Maker(random.Random(f"{seed}-{number}"))
    if maker.rarely(3):
        return f"{maker.chance.choice(places()).format(maker.literals())}\n".encode("utf-8", "surrogatepass")
    return f"x = {maker.literals()}\n".encode("utf-8", "surrogatepass")


def mutant(source, seed, number):
    """A source with some of its pieces changed, taken away, doubled or exchanged."""
    chance = random.Random(f"changed {seed}-{number}")
    pieces = PIECE.findall(source.decode("utf-8", "surrogatepass"))
    for _ in range(chance.choice((1, 1, 1, 2, 3))):
        at, other = chance.randint(0, len(pieces)), chance.randint(0, len(pieces))
        new = ([], [chance.choice(OTHERS)], [chance.choice(OTHERS)], pieces[other:other + 1], pieces[at:at + 1] * 2)
        pieces[at:at + chance.randrange(2)] = chance.choice(new)
    return "".join(pieces).encode("utf-8", "surrogatepass")


# --- all of a kind ----------------------------------------------------------------------------------------------------


def places():
    """The places, each as a line with holes."""
    return [place.replace("\\n", "\n") for line in PLACES.splitlines() for place in line.split("  ")]


def sources_at_places():
    """Some f-strings at each place: name and source."""
    for place, literal in itertools.product(places(), FEW):
        yield f"{literal!r} at {place!r}", f"{place.format(literal)}\n".encode()


def short_sources(most):
    """All short bodies in each frame: name and source."""
    for length in range(most + 1):
        for body in map("".join, itertools.product(ALPHABET, repeat=length)):
            for frame in FRAMES:
                yield f"the body {body!r} in {frame!r}", frame.format(body).encode()


# --- hostile ----------------------------------------------------------------------------------------------------------


def in_field(text):
    """A field, alone in an f-string."""
    return f"f'{{{text}}}'\n"


def deep(count, opened="(", closed=")"):
    """A name in so many brackets, in a field."""
    return in_field(opened * count + "x" + closed * count)


def hostile_texts():
    """Texts without end."""
    half = MANY // 2
    yield Hostile("pairs of braces", "f'" + "{{" * half + "'\n")
    yield Hostile("pairs of closing braces", "f'" + "}}" * half + "'\n")
    yield Hostile("pairs of braces and one", "f'" + "{{" * half + "{'\n", MALFORMED)
    yield Hostile("opening braces, an odd number, and a name", "f'" + "{{" * half + "{x}'\n")
    yield Hostile("pairs of closing braces and one", "f'" + "}}" * half + "}'\n", MALFORMED)
    yield Hostile("backslashes", "f'" + "\\\\" * half + "'\n")
    yield Hostile("backslashes before braces", "f'" + "\\{{" * half + "'\n")
    yield Hostile("escapes", "f'" + "\\x41\\n\\'" * (MANY // 8) + "'\n")
    yield Hostile("a bad escape after all else", "f'" + "a" * MANY + "\\x4'\n", "bad escape")
    yield Hostile("a named escape after all else", "f'" + "{x}" * (MANY // 30) + "\\N{DASH}'\n", "named escape")
    yield Hostile("`\\N{` without an end", "f'" + "\\N{" * (MANY // 3) + "'\n", "named escape")
    yield Hostile("a text in a raw f-string", "rf'" + "\\n" * half + "'\n")
    yield Hostile("lines", "f'''" + "a\n" * half + "'''\n")
    yield Hostile("quotes of the other kind", "f'" + '"' * MANY + "'\n")


def hostile_fields():
    """Fields without end, and fields that have none."""
    yield Hostile("many fields", "f'" + "{x}" * (MANY // 30) + "'\n")
    yield Hostile("many fields with all that they may have", "f'" + "{x=!r:>{w}}" * (MANY // 100) + "'\n")
    yield Hostile("many f-strings side by side", "(" + "f'a'\n" * (MANY // 10) + ")\n")
    yield Hostile("many lines", "f'{x}'\n" * (MANY // 30))
    yield Hostile("many kinds `u`", "(u'a'" + " f'{x:{y}b}'" * (MANY // 100) + ")\n")
    yield Hostile("a long name", in_field("x" * MANY))
    yield Hostile("a long list", in_field("[" + "a, " * (MANY // 30) + "]"))
    yield Hostile("a long string", in_field('"' + "a" * MANY + '"'))
    yield Hostile("a long nested f-string", in_field('f"' + "{x}a" * (MANY // 40) + '"'))
    yield Hostile("a long spec", in_field("x:" + "a" * MANY))
    yield Hostile("a spec of many fields", in_field("x:" + "{y}" * (MANY // 30)))
    yield Hostile("a spec with pairs of braces", in_field("x:" + "{{" * (MANY // 2)), MALFORMED)
    yield Hostile("many blanks", in_field(" " * MANY), MALFORMED)
    yield Hostile("many blanks and a name", in_field(" " * MANY + "x"), None, "f'{x}'\n")
    yield Hostile("many fields without a name", "f'" + "{}" * (MANY // 2) + "'\n", MALFORMED)
    yield Hostile("a last field without a name", "f'" + "{x}" * (MANY // 30) + "{}'\n", MALFORMED)
    yield Hostile("a field without an end", "f'{" + "x" * MANY + "'\n", MALFORMED)
    yield Hostile("a string in a field without an end", "f'{" + '"' * (MANY + 1) + "'\n", MALFORMED)
    for sign in ("!", "#", "\\\\", "!r", ")"):
        yield Hostile(f"many `{sign}` in a field", in_field("x" + sign * (MANY // len(sign))), MALFORMED)
    yield Hostile("many `:` in a field", in_field("x" + ":" * MANY))
    for word in ("=", "!=", " x"):
        yield Hostile(f"many `{word}` in a field", in_field("x" + word * (MANY // len(word))), "invalid syntax")


def hostile_depths():
    """Brackets, specs and expressions, as deep as they may be and deeper."""
    yield Hostile("599 brackets in a field", deep(599), None, "f'{x}'\n")
    yield Hostile("600 brackets in a field", deep(600), MALFORMED)
    yield Hostile("600 brackets around an f-string with 599", "(" * 600 + deep(599).strip() + ")" * 600 + "\n", None, "f'{x}'\n")
    yield Hostile("many brackets in a field", deep(MANY // 2), MALFORMED)
    yield Hostile("many brackets that stay open", in_field("(" * MANY), MALFORMED)
    yield Hostile("brackets that stay open", in_field("(" * 599), MALFORMED)
    yield Hostile("many braces in a field", in_field(" " + "{" * MANY), MALFORMED)
    yield Hostile("brackets of three kinds in a field", in_field("[({x: y}, " * 90 + "z" + ")]" * 90))
    yield Hostile("498 lists in a field", deep(498, "[", "]"), "too deep")
    yield Hostile("497 signs in a field", in_field("-" * 497 + "x"))
    yield Hostile("498 signs in a field", in_field("-" * 498 + "x"), "too deep")
    yield Hostile("many signs in a field", in_field("-" * MANY + "x"), "too deep")
    yield Hostile("495 signs in a nested f-string", in_field('f"{' + "-" * 495 + 'x}"'))
    yield Hostile("496 signs in a nested f-string", in_field('f"{' + "-" * 496 + 'x}"'), "too deep")
    yield Hostile("496 signs in a spec", in_field("x:{" + "-" * 495 + "y}"))
    yield Hostile("a chain of attributes in a field", in_field("x" + ".a" * (MANY // 20)), "too deep")
    yield Hostile("specs in specs", "f'" + "{x:" * (MANY // 3) + "'\n", MALFORMED)
    yield Hostile("specs in specs, closed", "f'" + "{x:" * 3 + "}" * 3 + "'\n", MALFORMED)
    yield Hostile("many specs in specs, closed", "f'" + "{x:" * (MANY // 4) + "}" * (MANY // 4) + "'\n", MALFORMED)
    yield Hostile("f-strings in f-strings", "f'''{f\"\"\"{f'{f\"{x}\"}'}\"\"\"}'''\n", MALFORMED)


def hostile_sources():
    """All hostile sources."""
    return [*hostile_texts(), *hostile_fields(), *hostile_depths()]
