"""f-strings as they stand in sources that Python 3.11 accepts: their texts and fields, and what pyast leaves out of them."""

import collections
import io
import itertools
import keyword
import re
import tokenize
import unicodedata

from compare import LITERAL

# What a text is made of outside format specs, and in them; of a raw f-string and of another one.
UNITS = {
    (False, 0): re.compile(r"\\N\{[^}]*\}?|\\N.?|\\[^{}]|\{\{|\}\}|[^{}]", re.DOTALL),
    (False, 1): re.compile(r"\\N\{[^}]*\}?|\\N.?|\\[^{}]|[^{}]", re.DOTALL),
    (True, 0): re.compile(r"\{\{|\}\}|[^{}]", re.DOTALL),
    (True, 1): re.compile(r"[^{}]", re.DOTALL),
}
# What the text of an expression is made of, where its literals and its brackets are looked for.
PIECE = re.compile(r"'''.*?'''|\"\"\".*?\"\"\"|'[^']*'|\"[^\"]*\"|[!=<>]=|.", re.DOTALL)
AFTER = re.compile(r"(=[ \t\n\v\f]*)?(?:![sra])?")
NO_TOKENS = (tokenize.ENCODING, tokenize.NL, tokenize.NEWLINE, tokenize.ENDMARKER)

QUOTED = "left out: quote or line end in a field"
EQUAL = "left out: `=` in a nested f-string"
NAMED = "left out: named escape"
FORM = "name form"

# The units of the texts of an f-string, and its fields: the text of each expression, and whether `=` stands after it.
Parts = collections.namedtuple("Parts", "units fields")


def body_of(literal):
    """The prefix of a literal, in small letters, and what stands between its quotes."""
    prefix, quote = LITERAL.match(literal).groups()
    return prefix.lower(), literal[len(prefix + quote):-len(quote)].replace("\r\n", "\n")


def is_formatted(token):
    """Whether a token is an f-string."""
    return token.type == tokenize.STRING and "f" in body_of(token.string)[0]


def end_of_expression(body, at):
    """Where the expression of a field ends."""
    opened = 0
    while at < len(body):
        piece = PIECE.match(body, at)[0]
        if not opened and piece in ("}", "!", ":", "="):
            break
        opened += (piece in ("(", "[", "{")) - (piece in (")", "]", "}"))
        at += len(piece)
    return at


def add_pieces(body, at, units, parts):
    """Adds the texts and fields of a body from a place on, or of a format spec there; answers where it ends."""
    while True:
        while unit := UNITS[units].match(body, at):
            parts.units.append(unit[0])
            at = unit.end()
        if body[at:at + 1] != "{":
            return at
        end = end_of_expression(body, at + 1)
        after = AFTER.match(body, end)
        parts.fields.append((body[at + 1:end], after[1] is not None))
        at = after.end()
        if body[at:at + 1] == ":":
            at = add_pieces(body, at + 1, (units[0], 1), parts)
        at += 1


def parts_of(literal):
    """The parts of an f-string, those of its format specs among them."""
    prefix, body = body_of(literal)
    parts = Parts([], [])
    add_pieces(body, 0, ("r" in prefix, 0), parts)
    return parts


def tokens_of(text):
    """The tokens of the expression of a field."""
    tokens = list(tokenize.generate_tokens(io.StringIO(f"({text})").readline))
    return [token for token in tokens if token.type not in NO_TOKENS][1:-1]


def tokens_in_fields(literal):
    """The tokens of all fields of an f-string."""
    return list(itertools.chain.from_iterable(tokens_of(text) for text, _ in parts_of(literal).fields))


def with_fields(tokens):
    """Some tokens, and after each f-string those of its fields, at any depth."""
    for token in tokens:
        yield token
        if is_formatted(token):
            yield from with_fields(tokens_in_fields(token.string))


def all_tokens(text):
    """The tokens of a source, in bytes, those of fields among them."""
    return with_fields(tokenize.tokenize(io.BytesIO(text).readline))


def is_other_keyword(token):
    """Whether a token is a name whose form for comparison is a keyword."""
    if token.type != tokenize.NAME or token.string.isascii():
        return False
    form = unicodedata.normalize("NFKC", token.string)
    return form != token.string and keyword.iskeyword(form)


def left_out_in_field(token):
    """What pyast leaves out in a token of a field, or None."""
    if is_other_keyword(token):
        return FORM
    if token.type != tokenize.STRING:
        return None
    prefix, body = body_of(token.string)
    if re.search("['\"\n]", body):
        return QUOTED
    if "f" not in prefix:
        return None
    if any(has_equal for _, has_equal in parts_of(token.string).fields):
        return EQUAL
    return next(filter(None, map(left_out_in_field, tokens_in_fields(token.string))), None)


def left_out(literal):
    """What pyast leaves out in an f-string that Python accepts, and how it reports that; or None."""
    try:
        found = next(filter(None, map(left_out_in_field, tokens_in_fields(literal))), None)
    except (tokenize.TokenError, SyntaxError, IndexError):
        return None
    if found:
        return found, "f-string"
    has_named = any(unit.startswith("\\N") for unit in parts_of(literal).units) and "r" not in body_of(literal)[0]
    return (NAMED, "named escape") if has_named else None
