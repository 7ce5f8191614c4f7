#!/usr/bin/env python3
"""Compares `pyast tokens` with the module `tokenize` of Python 3.11, byte for byte.

    conformance/compare.py [FOLDER ..] [--quick] [--mutate N]

Every .py file below the folders is listed by both, with and without -e, and from the standard input too; by default the folder is
that of Python's own library, and the sources of the library's own tests of `tokenize` are listed too. Where the two differ, what
pyast has to write is worked out again from the module's tokens and the rules of docs/DECISIONS.md: if pyast wrote that, to the
byte, the difference has the class of the rule. Any other difference is a failure, shown by the smallest input that has it.

The exit status is 0 where every difference has a class, 1 where one has none, and 2 where nothing could be compared; with
--or-skip it is 0 too where there is no Python 3.11.
"""

import argparse
import collections
import contextlib
import functools
import io
import os
import random
import re
import sys
import sysconfig
import tempfile
import time
import token as token_module
import tokenize
import unicodedata
import unittest
from unittest import mock

from common import (Outcome, UNEXPLAINED, chosen_files, files_parser, go_on_with_python_311, outcome_of, read_options, refuse,
                    results_of, run, short_name, show_end, show_table, smallest)

BLANKS = " \t\f"
BYTE_ORDER_MARK = b"\xef\xbb\xbf"
PREFIXES = {"b", "r", "u", "f", "br", "rb", "fr", "rf"}
LITERAL = re.compile(r"""([A-Za-z]{0,2})('''|\"\"\"|'|\")""")
UNIT = re.compile(r"\\(?:\r\n|.)|.", re.DOTALL)
COOKIE = re.compile(rb"[ \t\f]*#.*?coding[:=][ \t]*([-\w.]+)")
EMPTY_LINE = re.compile(rb"[ \t\f]*(?:#|\r?\n|\Z)")
LONE_RETURN = re.compile(rb"\r(?!\n)")
# Assigned before Unicode 14, and made parts of identifiers after it.
LATER_IN_NAMES = "\u200c\u200d\u30fb\uff65"

SAME = "no difference"
ENCODING = "another encoding"
MARK = "byte order mark with a cookie"
BYTES = "bytes outside the encoding"
RETURN = "lone carriage return"
NAMES = "identifier characters"
NEWER = "characters newer than Unicode 14"
PREFIX = "prefix of an unfinished literal"
PAIRS = "two backslashes before a line end"
CLOSER = "closing bracket at depth 0"
ERROR = "a fault for an ERRORTOKEN"
LAST = "last line without LF"
BEFORE = "tokens before a fault"

# The classes, in the order of the table, each with sources that have to fall into it.
SAMPLES = {
    SAME: [b"", b"x = 1\n", b"if x:\n  '''a\n b''' # c", "\u00e9 = '\u4e2d'\r\n".encode(), b"# coding: US_ASCII\nx\n"],
    ENCODING: [b"# coding: latin-1\n", b"\n# coding: unheard-of\n", b"# \xff\n# coding: latin-1\n"],
    MARK: [BYTE_ORDER_MARK + b"# coding: utf8\nx\n", BYTE_ORDER_MARK + b"# coding: ascii\nx\n"],
    BYTES: [b"x\na\xc3b\n", b"\xff", b"# coding: ascii\n\n\xc3\xa9\n"],
    RETURN: [b"x\ry\n", b" \rx\n# coding: latin-1\n", b"'''\r'''\n"],
    NAMES: ["x\u0301\n".encode(), "\u00b2\n".encode(), "a\u30fbb\n".encode(), "\U00011f04\n".encode()],
    NEWER: ["'\U0001fae8'\n".encode()],
    PREFIX: [b"x b'a\n", b"Rb\""],
    PAIRS: [b"'a\\\nb\\\\\nc'\n", b"x '\\\n\\\\\n"],
    CLOSER: [b")\n", b"(]]\n"],
    ERROR: [b"x $\n", b"if x:\n  'a\n", b"a \\ b\n", b"'\\\nb\nc\n"],
    LAST: [b"'''\n\x0b# '''", "if x:\n '''\n\u00a0# '''".encode()],
    BEFORE: [b"x = (\n", b"x '''\n", b"if a:\n    b\n  c\n", b"x \\\n"],
}

Result = collections.namedtuple("Result", "name path data found seconds")


class Fault(Exception):
    """A fault that ends pyast's listing: its place, its text, and the class of a difference that it makes."""

    def __init__(self, row, column, text, rule):
        super().__init__(row, column, text, rule)
        self.row, self.column, self.text, self.rule = row, column, text, rule


# --- the two programs -------------------------------------------------------------------------------------------------


def real_outcome(words, stdin=None):
    """What `python -m tokenize WORDS` does. Its own main is called, since a process for each file would take long."""
    out, err, status = io.StringIO(), io.StringIO(), 0
    stdin = io.TextIOWrapper(io.BytesIO(stdin or b""), encoding="utf-8")
    with contextlib.redirect_stdout(out), contextlib.redirect_stderr(err), \
            mock.patch.object(sys, "argv", ["tokenize", *words]), mock.patch.object(sys, "stdin", stdin):
        try:
            tokenize.main()
        except SystemExit as stop:
            status = stop.code
        except Exception:  # main shows it and lets it pass: the process ends with a traceback
            status = 1
    return Outcome(status, *(side.getvalue().encode("utf-8", "surrogatepass") for side in (out, err)))


def program_outcome(program, words, stdin=b""):
    """What `pyast tokens WORDS` does."""
    return outcome_of(program, ["tokens", *words], stdin)


def main_is_the_real_program():
    """Whether calling main gives what a process gives, seen on this file: all comparisons rest on it."""
    path = os.path.abspath(__file__)
    with open(path, "rb") as file:
        data = file.read()
    in_utf8 = {**os.environ, "PYTHONIOENCODING": "utf-8"}
    return all(run([sys.executable, "-m", "tokenize", *words], env=in_utf8, input=data) == real_outcome(words, data)
               for words in ([path], ["-e", path], []))


# --- characters -------------------------------------------------------------------------------------------------------


@functools.lru_cache(maxsize=None)
def accepts(program, source):
    """Whether pyast lists a source without a fault."""
    return program_outcome(program, [], source.encode()).status == 0


@functools.lru_cache(maxsize=None)
def shows(program, character):
    """Whether pyast shows a character in a repr as it is."""
    return character.encode() in program_outcome(program, [], f"'{character}'\n".encode()).out


def is_newer(character):
    """Whether Python doesn't know the character: what pyast makes of it can't be said beforehand, so it is asked."""
    return unicodedata.category(character) == "Cn"


def begins_name(program, character):
    """Whether pyast has to let a name begin with the character."""
    return accepts(program, character + "\n") if is_newer(character) else character.isidentifier()


def continues_name(program, character):
    """Whether for pyast a name has to continue with the character."""
    if is_newer(character):
        return accepts(program, f"a{character}\n")
    return character in LATER_IN_NAMES or f"a{character}".isidentifier()


def pattern_by_identifiers(program, text):
    """The module's pattern of tokens with names of identifier characters, where its own takes all word characters."""
    strange = sorted({character for character in text if not character.isascii()})
    start = "".join(re.escape(one) for one in strange if begins_name(program, one))
    inside = "".join(re.escape(one) for one in strange if continues_name(program, one))
    name = f"[A-Za-z_{start}][0-9A-Za-z_{inside}]*"
    return tokenize.Whitespace + tokenize.group(
        tokenize.PseudoExtras, tokenize.Number, tokenize.Funny, tokenize.ContStr, name)


def repr_with(text, plain):
    """The repr of a text in which some characters stand as they are: stand-ins that Python knows go through its repr."""
    free = (chr(point) for point in range(0x4E00, 0x9FA5) if chr(point) not in text)
    stand_ins = dict(zip(plain & set(text), free))
    shown = repr(text.translate({ord(one): other for one, other in stand_ins.items()}))
    return shown.translate({ord(other): one for one, other in stand_ins.items()})


# --- the source, by pyast's rules -------------------------------------------------------------------------------------


def find_cookie(body):
    """The row and text of a source's cookie, or (0, "")."""
    lines = io.BytesIO(body)
    first, second = lines.readline(), lines.readline()
    found = COOKIE.match(first)
    if found:
        return 1, found[1].decode()
    found = EMPTY_LINE.match(first) and COOKIE.match(second)
    return (2, found[1].decode()) if found else (0, "")


def read_encoding(data):
    """The encoding's name as it is shown, the bytes after a mark, and the class of a difference that comes from here."""
    marked = data.startswith(BYTE_ORDER_MARK)
    body = data[len(BYTE_ORDER_MARK):] if marked else data
    row, cookie = find_cookie(body)
    folded = cookie.lower().replace("_", "-")
    if not cookie or folded == "utf-8" or folded.startswith("utf-8-"):
        return "utf-8", body, None
    if folded not in ("utf8", "ascii", "us-ascii"):
        raise Fault(row, 0, "unsupported encoding", ENCODING)
    if not marked:
        return cookie, body, None
    if folded != "utf8":
        raise Fault(row, 0, "byte order mark with another encoding", MARK)
    return "utf-8", body, MARK


def bad_byte(line, encoding):
    """The offset of a line's first bad byte, the fault's text and its class; None for a good line."""
    found = []
    try:
        line.decode(encoding)
    except UnicodeDecodeError as error:
        ascii_only = "ascii" in encoding.lower()
        found.append((error.start, "not ASCII" if ascii_only else "invalid UTF-8", BYTES))
    lone = LONE_RETURN.search(line)
    if lone:
        found.append((lone.start(), "carriage return without line feed", RETURN))
    return min(found, default=None)


def good_lines(body, encoding):
    """The lines up to the first bad one, and then its fault."""
    for row, line in enumerate(io.BytesIO(body), 1):
        bad = bad_byte(line, encoding)
        if bad:
            at, text, rule = bad
            raise Fault(row, len(line[:at].decode(encoding)), text, rule)
        yield line


def good_text(body, encoding):
    """The text of the good lines, each with its end."""
    lines = []
    with contextlib.suppress(Fault):
        for line in good_lines(body, encoding):
            lines.append(line.decode(encoding))
    return lines


# --- what pyast has to list -------------------------------------------------------------------------------------------


def is_cut_by_line_end(literal):
    """Whether a literal in one quote has a line end that no single backslash stands before."""
    opener = LITERAL.match(literal)
    if not opener or len(opener[2]) == 3:
        return False
    return any(unit[0] in ("\r", "\n") for unit in UNIT.finditer(literal, opener.end()))


def open_literal_fault(tokens, lines):
    """The fault of a literal that the module took to be open up to the end, where a line end cuts it."""
    row, column = max(tokens[-1].end, (1, 0))
    rest = "".join([lines[row - 1][column:], *lines[row:]]) if row <= len(lines) else ""
    start = re.match(r"(?:[ \t\f]|\\\r?\n)*", rest).end()
    if not is_cut_by_line_end(rest[start:]):
        return None
    before = rest[:start]
    place = (row, column + start) if "\n" not in before else (row + before.count("\n"), start - before.rindex("\n") - 1)
    return Fault(*place, "unterminated string literal", PAIRS)


def module_listing(body, encoding, pattern):
    """The module's tokens of the good lines, and the fault that ended them, if any."""
    tokens = []
    with mock.patch.object(tokenize, "PseudoToken", pattern):
        try:
            for token in tokenize._tokenize(good_lines(body, encoding).__next__, encoding):
                tokens.append(token)
        except IndentationError as error:
            return tokens, Fault(*error.args[1][1:3], error.args[0], BEFORE)
        except tokenize.TokenError as error:
            fault = Fault(*error.args[1], error.args[0], BEFORE)
        except Fault as bad_line:
            fault = bad_line
        else:
            return tokens, None
    return tokens, open_literal_fault(tokens, good_text(body, encoding)) or fault


def error_cut(tokens, index):
    """Where the listing ends for an ERRORTOKEN, and the fault: the module gives the blanks before a bad character too."""
    bad = next(token for token in tokens[index:] if token.string not in BLANKS)
    if not LITERAL.match(bad.string):
        return index, Fault(*bad.start, "unexpected character", ERROR)
    last = tokens[index - 1]
    if last.type == tokenize.NAME and last.end == bad.start and last.string.lower() in PREFIXES:
        return index - 1, Fault(*last.start, "unterminated string literal", PREFIX)
    return index, Fault(*bad.start, "unterminated string literal", ERROR)


def first_cut(tokens):
    """The first token that pyast has a fault for, by its index, and the fault; None where there is none."""
    depth = 0
    for index, token in enumerate(tokens):
        if token.type == tokenize.ERRORTOKEN:
            return error_cut(tokens, index)
        if token.type == tokenize.STRING and token.start[0] < token.end[0] and is_cut_by_line_end(token.string):
            return index, Fault(*token.start, "unterminated string literal", PAIRS)
        if token.type == tokenize.OP and token.string in ("(", "[", "{"):
            depth += 1
        if token.type == tokenize.OP and token.string in (")", "]", "}"):
            if depth == 0:
                return index, Fault(*token.start, "unmatched closing bracket", CLOSER)
            depth -= 1
    return None


def with_newline(tokens, lines):
    """The tokens with a NEWLINE for a last line whose first character looks like a blank to the module alone."""
    last = lines[-1] if lines else ""
    if last.endswith("\n") or not last.strip().startswith("#") or last.lstrip(BLANKS).startswith("#"):
        return tokens
    end = next(i for i, token in enumerate(tokens) if token.start > (len(lines), len(last)))
    places = (len(lines), len(last)), (len(lines), len(last) + 1)
    return [*tokens[:end], tokenize.TokenInfo(tokenize.NEWLINE, "", *places, ""), *tokens[end:]]


def as_names(tokens):
    """The module takes names whose first character it doesn't know for operators."""
    return [token._replace(type=tokenize.NAME)
            if token.type == tokenize.OP and token.string not in token_module.EXACT_TOKEN_TYPES else token
            for token in tokens]


def due_listing(data, pattern):
    """The tokens that pyast has to list, the fault or None, and the class of the rule that was needed, or None."""
    try:
        encoding, body, rule = read_encoding(data)
    except Fault as fault:
        return [], fault, fault.rule
    tokens, fault = module_listing(body, encoding, pattern)
    cut = first_cut(tokens)
    if cut:
        tokens, fault = tokens[:cut[0]], cut[1]
    elif not fault:
        longer = with_newline(tokens, good_text(body, encoding))
        rule = rule or (LAST if longer is not tokens else None)
        tokens = longer
    return tokens, fault, rule or (fault.rule if fault else None)


def due_outcome(tokens, fault, path, exact, plain=frozenset()):
    """What pyast has to write for a listing, with some characters shown as they are."""
    lines = []
    for token in tokens:
        place = "%d,%d-%d,%d:" % (token.start + token.end)
        kind = token_module.tok_name[token.exact_type if exact else token.type]
        lines.append(f"{place:20}{kind:15}{repr_with(token.string, plain) if plain else repr(token.string):15}\n")
    told = f"{path}:{fault.row}:{fault.column}: error: {fault.text}\n" if fault else ""
    return Outcome(1 if fault else 0, "".join(lines).encode(), told.encode("utf-8", "surrogateescape"))


# --- one comparison ---------------------------------------------------------------------------------------------------


def due_by_characters(program, data):
    """The tokens and fault due by all rules, those on single characters too, and the characters to show as they are."""
    text = data.decode("utf-8", "ignore")
    tokens, fault, _ = due_listing(data, pattern_by_identifiers(program, text))
    return as_names(tokens), fault, {one for one in set(text) if is_newer(one) and shows(program, one)}


def class_of(program, mine, data, path, exact):
    """The class of a difference; None if no rule gives what pyast wrote."""
    tokens, fault, rule = due_listing(data, tokenize.PseudoToken)
    if rule and mine == due_outcome(tokens, fault, path, exact):
        return rule
    by_words = [token[:4] for token in tokens]
    tokens, fault, plain = due_by_characters(program, data)
    if data.isascii() or mine != due_outcome(tokens, fault, path, exact, plain):
        return None
    return NEWER if [token[:4] for token in tokens] == by_words else NAMES


def can_be_text(data):
    """Whether Python reads a source from its standard input, as text in UTF-8 with universal newlines, as it stands."""
    try:
        return b"\r" not in data and not data.startswith(BYTE_ORDER_MARK) and data.decode() is not None
    except UnicodeDecodeError:
        return False


def stream_differs(program, path, mine, found, data):
    """What is wrong with pyast's listing of the standard input, if anything. It has to be the file's, but for the name.
    Python's own has to be the same less the line of ENCODING, where the file made no difference or only that the tokens
    before a fault are left out: from its standard input Python shows these."""
    stream = program_outcome(program, [], data)
    told = mine.err.removeprefix(os.fsencode(path))
    if stream != mine._replace(err=told if told == mine.err else b"<stdin>" + told):
        return "pyast lists the standard input otherwise than the file"
    after_encoding = stream._replace(out=stream.out.partition(b"\n")[2])
    if found in (SAME, BEFORE) and can_be_text(data) and after_encoding != real_outcome([], data):
        return "tokenize lists the standard input otherwise, ENCODING aside"
    return None


def compare_files(program, path, data):
    """The class of the first difference of a file's two listings, pyast's plain one, and the seconds that both took."""
    seconds, found = [0.0, 0.0], SAME
    for exact in (True, False):  # the plain one last, since it is kept
        words = [*["-e"] * exact, path]
        times = [time.perf_counter()]
        mine = program_outcome(program, words)
        times.append(time.perf_counter())
        real = real_outcome(words)
        times.append(time.perf_counter())
        seconds = [seconds[i] + times[i + 1] - times[i] for i in (0, 1)]
        if mine != real:
            one = class_of(program, mine, data, path, exact) or UNEXPLAINED
            found = one if found in (SAME, one) else UNEXPLAINED
    return found, mine, seconds


def compare_path(program, path):
    """The class of a file's difference, the standard input's too, and the seconds that both took for the file."""
    with open(path, "rb") as file:
        data = file.read()
    found, mine, seconds = compare_files(program, path, data)
    return UNEXPLAINED if stream_differs(program, path, mine, found, data) else found, seconds


def compare_data(program, folder, data):
    """The same for a source that is no file; it is put in one, which each process has for its own."""
    path = os.path.join(folder, f"{os.getpid()}.py")
    with open(path, "wb") as file:
        file.write(data)
    return compare_path(program, path)


def compare_case(program, folder, case):
    """The comparison of one case: its name, and its path or its bytes."""
    name, path, data = case
    found, seconds = compare_path(program, path) if path else compare_data(program, folder, data)
    return Result(name, path, data, found, seconds)


# --- what is shown ----------------------------------------------------------------------------------------------------


def show_outcomes(program, data, path, exact, mine, real):
    """Prints what pyast, the rules and the module give: the first line in which pyast leaves the rules, and the fault."""
    tokens, fault, plain = due_by_characters(program, data)
    due = due_outcome(tokens, fault, path, exact, plain)
    sides = [side.out.decode("utf-8", "replace").split("\n") for side in (mine, due, real)]
    at = next((i for i, (a, b) in enumerate(zip(*sides[:2])) if a != b), 0)
    for name, side, lines in zip(("pyast", "the rules", "tokenize"), (mine, due, real), sides):
        shown = lines[at].split() if at < len(lines) else []
        told = side.err.decode("utf-8", "replace").strip().rpartition("\n")[2].replace(path, "FILE")
        print(f"  {name + ' -e' * exact:13} status {side.status}, line {at + 1}: {' '.join(shown)}   {told}")


def show_failure(program, folder, result, reduce):
    """Prints a difference without class, on its smallest input unless asked not to look for it."""
    data = result.data
    if result.path:
        with open(result.path, "rb") as file:
            data = file.read()
    print(f"\n{UNEXPLAINED}: {result.name}")
    if not reduce:
        return
    data = smallest(data, lambda source: compare_data(program, folder, source)[0] == UNEXPLAINED)
    path = os.path.join(folder, "smallest.py")
    with open(path, "wb") as file:
        file.write(data)
    print(f"  smallest input: {data!r}")
    for exact in (False, True):
        words = [*["-e"] * exact, path]
        mine, real = program_outcome(program, words), real_outcome(words)
        if mine != real:
            show_outcomes(program, data, path, exact, mine, real)
    found, mine, _ = compare_files(program, path, data)
    print(f"  {stream_differs(program, path, mine, found, data) or 'the standard input is listed as the file is'}")


# --- the cases --------------------------------------------------------------------------------------------------------


def recorded(function, sources):
    """A function over a readline, which also keeps the lines that it reads."""

    def call(readline, *rest, **named):
        lines = []
        sources.append(lines)

        def read():
            line = readline()
            lines.append(line if isinstance(line, bytes) else line.encode())
            return line

        return function(read, *rest, **named)

    return call


def recorded_text(function, sources):
    """The same for a function over a whole source."""

    def call(source, *rest):
        sources.append([source if isinstance(source, bytes) else source.encode()])
        return function(source, *rest)

    return call


def sources_of_tests():
    """The sources that Python's own tests of `tokenize` read: the tests are run, and what they read is kept."""
    try:
        from test import test_tokenize as tests
    except ImportError:
        return []
    sources = []
    if hasattr(tests, "TestRoundtrip"):  # it reads whole files of the library, by chance
        tests.TestRoundtrip.test_random_files = lambda self: None
    wrappers = {"tokenize": recorded, "generate_tokens": recorded, "_tokenize": recorded, "detect_encoding": recorded,
                "_generate_tokens_from_c_tokenizer": recorded_text}
    with contextlib.ExitStack() as stack:
        for name, wrapper in wrappers.items():
            if hasattr(tests, name):
                stack.enter_context(mock.patch.object(tests, name, wrapper(getattr(tests, name), sources)))
        stack.enter_context(contextlib.redirect_stdout(io.StringIO()))
        stack.enter_context(contextlib.redirect_stderr(io.StringIO()))
        unittest.defaultTestLoader.loadTestsFromModule(tests).run(unittest.TestResult())
    return list(dict.fromkeys(b"".join(lines) for lines in sources))


def files_of_tests():
    """The files of sources that the library's tests keep for `tokenize`."""
    folder = os.path.join(sysconfig.get_path("stdlib"), "test")
    wanted = re.compile(r"tokenize_tests.*\.txt|bad_?coding.*\.py|badsyntax_.*\.py|coding\d+\.py")
    for path, _, names in os.walk(folder):
        yield from (os.path.join(path, name) for name in sorted(names) if wanted.fullmatch(name))


PIECES = [piece.encode() for piece in (
    "( ) [ ] { } ( ] : , . ; = == -> ... := != ! ? $ ` ~ # #c \\ \\\\ ' \" ''' \"\"\" b' Rb\" f''' u' rb br x if 0 00 012 "
    "1_ 0x 0b1 0o 1e 1e5 .5 1. 2j \u00e9 \u00b2 \u4e2d \u0301 \u30fb \u0663 \u2118 \U0001f600 \U0001fae8").split()] + [
    b" ", b"  ", b"        ", b"\t", b"\f", b"\n", b"\n\n", b"\r\n", b"\r", b"\\\n", b"\\\r\n", b"\\\\\n", b"\x00", b"\x0b",
    "\u00a0".encode(), b"\xff", b"\xe4\xb8", b"\xed\xa0\x80", BYTE_ORDER_MARK, b"# coding: utf8\n", b"# coding: ascii\n",
    b"#coding=latin-1\n", b"if x:\n", b"  y\n", b"\ty\n", b"'a\\\nb\\\nc'", b"'''\n#", b"\n # c", b"pass\n"]


def mutant(chance, bases):
    """A few lines of a base, in which some pieces were put in, left out or taken for others."""
    lines = io.BytesIO(bases(chance)).readlines()
    start = chance.randrange(len(lines) + 1)
    data = b"".join(lines[start:start + chance.randint(0, 8)])
    for _ in range(chance.choice((0, 1, 1, 2, 2, 3, 5, 8))):
        at = chance.randint(0, len(data))
        end = at + chance.choice((0, 0, 0, 1, 2, 6))
        data = data[:at] + (chance.choice(PIECES) if chance.random() < 0.8 else b"") + data[end:]
    return data[:chance.randint(0, len(data))] if chance.random() < 0.2 else data


def mutants(count, seed, paths, sources):
    """Sources that nobody would write, the same for the same seed."""

    def bases(chance):
        if sources and chance.random() < 0.4:
            return chance.choice(sources)
        with open(chance.choice(paths), "rb") as file:
            return file.read()

    for number in range(count):
        yield f"mutant {number} of seed {seed}", None, mutant(random.Random(f"{seed}-{number}"), bases)


def all_cases(options):
    """The number of cases, and the cases: name, path or None, bytes or None."""
    paths = chosen_files(options)
    samples = [source for group in SAMPLES.values() for source in group]
    sources = sources_of_tests() if options.replay else []
    if options.replay and not sources:
        print("The library's own test, test/test_tokenize.py, isn't there: its cases are left out.")
    kept = list(files_of_tests()) if options.replay else []
    if options.replay and not any(os.path.basename(path) == "tokenize_tests.txt" for path in kept):
        print("The library's tests have no tokenize_tests.txt here: it is left out.")
    files = [(short_name(path), path, None) for path in dict.fromkeys(paths + kept)]
    replayed = [(f"case {number} of test_tokenize", None, source) for number, source in enumerate(sources)]
    count = len(files) + len(replayed) + options.mutate
    print(f"{len(files)} files, {len(replayed)} cases of Python's own tests, {options.mutate} mutants", flush=True)
    changed = mutants(options.mutate, options.seed, paths, samples + sources)
    return count, (case for group in (files, replayed, changed) for case in group)


# --- the run ----------------------------------------------------------------------------------------------------------


def misplaced_samples(program, folder):
    """The samples that don't fall into their class: then the table of classes would say what isn't so."""
    for name, sources in SAMPLES.items():
        for source in sources:
            found = compare_data(program, folder, source)[0]
            if found != name:
                yield Result(f"the sample {source!r} of the class `{name}`, found in `{found}`", None, source, UNEXPLAINED, None)


def compare_all(options, folder):
    """The results of all cases."""
    count, cases = all_cases(options)
    work = functools.partial(compare_case, options.program, folder)
    return [result._replace(data=None) if result.found == SAME else result for result in results_of(work, count, cases, options.jobs)]


def show_times(results, started):
    """Prints how long all took, and of it each of the programs."""
    mine, real = (sum(result.seconds[side] for result in results) for side in (0, 1))
    print(f"\n{time.monotonic() - started:.0f} s in all; summed over the jobs: pyast {mine:.0f} s, tokenize {real:.0f} s")


def compare(options):
    """Compares all, prints what was found, and answers the exit status."""
    started = time.monotonic()
    print(f"pyast: {' '.join(options.program)}\ntokenize: {tokenize.__file__} of Python {sys.version.split()[0]}")
    with tempfile.TemporaryDirectory() as folder:
        failures = list(misplaced_samples(options.program, folder))
        results = compare_all(options, folder)
        failures += sorted((one for one in results if one.found == UNEXPLAINED), key=lambda one: one.name)
        for number, failure in enumerate(failures):
            show_failure(options.program, folder, failure, number < options.smallest)
    show_table(results, {name: sources[0] for name, sources in SAMPLES.items()})
    show_times(results, started)
    return show_end(failures, len(results))


def main():
    """Finds what is needed, and compares."""
    go_on_with_python_311()
    parser = files_parser("Compares `pyast tokens` with Python 3.11's module tokenize, byte for byte.")
    parser.add_argument("--replay", action=argparse.BooleanOptionalAction, default=True,
                        help="also the cases of Python's own tests of tokenize, where they are installed")
    options = read_options(parser)
    if not main_is_the_real_program():
        refuse(f"{sys.executable} -m tokenize doesn't do what its main does: nothing can be compared")
    return compare(options)


if __name__ == "__main__":
    sys.exit(main())
