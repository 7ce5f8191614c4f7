#!/usr/bin/env python3
"""Compares `pyast dump` with `ast.parse` and `ast.dump` of Python 3.11, byte for byte.

    conformance/dumps.py [FOLDER ..] [--quick] [--mutate N] [--whole] [--attributes]

Every .py file below the folders (by default that of Python's own library with its tests) is dumped in three styles: plain, with
--indent 2 and with --bare. What pyast writes has to be what `ast.dump` gives, or both have to refuse the source. Where pyast refuses
what Python accepts, or the other way round, the difference has to be of a class of docs/DECISIONS.md. The forms that pyast leaves
out are such classes: there the fault has to be the first such form of the source, at its place; and the parts of the file without
one are compared as sources of their own: its statements, and those within statements that have one. Any other difference is a
failure, shown by the smallest input that has it. With --whole it is `pyast dump --whole` that is compared, which leaves out no number, no `match`
statement, and of f-strings only those with a string in a field that has a quote or a line end, and those with a `=` in a nested f-string.
With --attributes each style is compared with the places of nodes; what stands in the fields of f-strings has its true places, which Python
3.11 doesn't give, and a format spec that of its row of literals, so that there the trees are compared, without those places and in the
plain style alone. Outside f-strings, of the nodes with one place each has to be directly below the one before; and the texts of some expressions
have to be read as these.

The exit status is 0 where every difference has a class, 1 where one has none, and 2 where nothing could be compared; with
--or-skip it is 0 too where there is no Python 3.11.
"""

import ast
import collections
import copy
import functools
import io
import random
import re
import sys
import time
import tokenize
import warnings

import compare as listings
from common import (UNEXPLAINED, chosen_files, files_parser, go_on_with_python_311, outcome_of, read_options, results_of, short_name,
                    show_end, show_table, smallest)
from compare import LATER_IN_NAMES, is_newer
from formatted import EQUAL, FORM, NAMED, QUOTED, is_formatted, is_other_keyword, left_out
from values import reason_of

STYLES = {(): {}, ("--indent", "2"): {"indent": 2}, ("--bare",): {"annotate_fields": False}}
FAULT_LINE = re.compile(r"<stdin>:(\d+):(\d+): error: (.*)\n")
OCTAL_IN_BYTES = re.compile(rb"\\[4-7][0-7][0-7]")
# A backslash with what it takes along, or another byte.
UNIT = re.compile(rb"\\[0-7]{1,3}|\\.|[^\\]", re.DOTALL)
JOINED_MARGIN = re.compile(rb"^[ \t\f]*(?:\\\r?\n[ \t\f]*)+", re.MULTILINE)
MARGIN = re.compile(r"[ \t\f]*")
ANNOTATED = re.compile(rb"AnnAssign\(target=(Attribute|Subscript)\(")
HIGHEST = 500

SAME = "the same tree"
REFUSED = "refused by both"
FLOAT = "left out: float"
COMPLEX = "left out: complex number"
FSTRING = "left out: f-string"
LARGE = "left out: integer too large"
MATCH = "left out: match statement"
OCTAL = "octal escape above 377 in bytes"
ENCODING = "another encoding"
MARK = "byte order mark with a cookie"
BYTES = "bytes outside the encoding"
RETURN = "lone carriage return"
DEEP = "too deep"
LIMIT = "a limit of Python's parser"
NUMBER = "number with a letter after it"
TARGET = "annotated target with a front in brackets"
NAMES = "identifier characters"
NEWER = "characters newer than Unicode 14"
JOIN = "line that begins with a join"
TAB = "tab before a join that begins a line"

# The classes, in the order of the table, each with a source that has to fall into it.
SAMPLES = {
    SAME: b"if x:\n  '''a\n b''' # c",
    REFUSED: b"x = )\n",
    FLOAT: b"x = 'a', 1.5\n",
    COMPLEX: b"x\n1e5J\n",
    FSTRING: b"x = 'a' f'b'\n",
    LARGE: b"x = 340282366920938463463374607431768211456\n",
    NAMED: b"'\\N{EM DASH}'\n",
    MATCH: b"if x:\n  match x:\n    case 1: pass\n",
    FORM: "x.\uff49\uff46 = 1\n".encode(),
    OCTAL: b"b'\\400'\n",
    ENCODING: b"# coding: latin-1\n",
    MARK: b"\xef\xbb\xbf# coding: utf8\nx\n",
    BYTES: b"x\n# \xff\n",
    RETURN: b"x\ry\n",
    DEEP: b"-" * 500 + b"x\n",
    LIMIT: b"(" * 201 + b"x" + b")" * 201 + b"\n",
    NUMBER: b"with 1as x: pass\n",
    TARGET: b"(b).c: d\n",
    NAMES: "a\u30fbb\n".encode(),
    NEWER: "'\U0001fae8'\n".encode(),
    JOIN: b"if x:\n y\n\\\n z\n",
    TAB: b"if x:\n\t\\\ny\n\tz\n",
}
LEFT_OUT = {"Float": (FLOAT, "float literal"), "Complex": (COMPLEX, "complex literal"), "FString": (FSTRING, "f-string"),
            "IntegerTooLarge": (LARGE, "integer too large"), "NamedEscape": (NAMED, "named escape"), "Match": (MATCH, "match statement")}
# Those that `--whole` lets in. No whole number of more than 4,300 digits is tried: Python refuses to write one.
OF_WHOLE = ("Float", "Complex", "FString", "IntegerTooLarge", "Match")
# What it leaves out of f-strings.
OF_FIELDS = {
    QUOTED: b"x = f'''{\"it's\"}'''\n",
    EQUAL: b"x = f'a' f'{f\"{x=}\"}'\n",
}
# What calls the program with `--whole` after all other words.
WITH_WHOLE = ("sh", "-c", 'exec "$0" "$@" --whole')
# What Python's parser says where it stops at a limit of its own, looks closer at a number than the tokens do, or takes the brackets
# of `(b).c: d` for those of the whole target.
LIMITS = ("too many nested parenthes", "too many levels of indentation", "parser stack overflow", "maximum recursion depth exceeded")
NUMBERS = ("invalid decimal literal", "invalid hexadecimal literal", "invalid octal literal", "invalid binary literal",
           "invalid imaginary literal")

Fault = collections.namedtuple("Fault", "row column text rule")
Result = collections.namedtuple("Result", "name data found parts seconds has_fstring", defaults=(False,))


# --- the two programs -------------------------------------------------------------------------------------------------


def program_outcome(program, words, data):
    """What `pyast dump WORDS` does with a source."""
    return outcome_of(program, ["dump", *words], data)


def python_tree(data):
    """The tree that Python's parser gives a source, or None, and why there is none."""
    try:
        return ast.parse(data), None
    except (SyntaxError, ValueError, RecursionError, MemoryError) as error:
        return None, error


def python_dump(tree, named):
    """What pyast has to write for a tree, in a style."""
    return ast.dump(tree, **named).encode("utf-8", "surrogatepass") + b"\n"


def nodes_of_field(field):
    """The nodes of a field of an f-string whose places Python 3.11 gives otherwise: its expression's, its format spec and the texts in that."""
    texts = [value for value in getattr(field.format_spec, "values", []) if isinstance(value, ast.Constant)]
    return [*ast.walk(field.value), *([field.format_spec] if field.format_spec else []), *texts]


def without_fields(tree):
    """The dump of a tree with the places of all nodes but those in the fields of f-strings."""
    for field in ast.walk(tree):
        for node in nodes_of_field(field) if isinstance(field, ast.FormattedValue) else ():
            for name in ("lineno", "col_offset", "end_lineno", "end_col_offset"):
                node.__dict__.pop(name, None)
    return ast.dump(tree, include_attributes=True)


def same_but_fields(out, tree):
    """Whether a dump with names and places is that of a tree, but for places in the fields of f-strings."""
    shown = eval(out.decode("utf-8", "surrogatepass"), {**vars(ast), "Ellipsis": ...})  # pylint: disable=eval-used
    return without_fields(shown) == without_fields(copy.deepcopy(tree))


# --- what is left out -------------------------------------------------------------------------------------------------


def own_fault(token):
    """What pyast leaves out in a token of a source that Python accepts, or None: a class and its text."""
    if token.type in (tokenize.NUMBER, tokenize.STRING):
        reason = reason_of(token.type, token.string)
        if reason in LEFT_OUT:
            return LEFT_OUT[reason]
    if is_formatted(token):
        return left_out(token.string)
    if token.type == tokenize.STRING and "b" in re.match(r"\w*", token.string)[0].lower() and "r" not in token.string[:2].lower():
        if any(OCTAL_IN_BYTES.match(unit) for unit in UNIT.findall(token.string.encode())):
            return OCTAL, "bad escape"
    return (FORM, "name form") if is_other_keyword(token) else None


def first_match(tree, data):
    """The place of the first `match` statement of a tree, or None."""
    found = [(node.lineno, node.col_offset) for node in ast.walk(tree) if isinstance(node, ast.Match)]
    if not found:
        return None
    row, offset = min(found)
    line = data.split(b"\n")[row - 1].removeprefix(b"\xef\xbb\xbf" if row == 1 else b"")
    return row, len(line[:offset].decode())


def due_fault(tree, data):
    """The fault that pyast has to report of a source that Python accepts, for the first form that it leaves out; None without one."""
    try:
        for token in tokenize.tokenize(io.BytesIO(data).readline):
            found = own_fault(token)
            if found:
                return Fault(*token.start, found[1], found[0])
    except (tokenize.TokenError, SyntaxError, ValueError):
        return None
    place = first_match(tree, data) if "Match" in LEFT_OUT else None
    return Fault(*place, "match statement", MATCH) if place else None


def byte_fault(data):
    """The fault of a source's first line with a byte outside the encoding, or with a lone carriage return; None without one."""
    try:
        encoding, body, _ = listings.read_encoding(data)
        for _ in listings.good_lines(body, encoding):
            pass
    except listings.Fault as fault:
        return Fault(fault.row, fault.column, fault.text, None)
    return None


# --- one comparison ---------------------------------------------------------------------------------------------------


def told_fault(outcome):
    """The fault that pyast reports, without a class, or None."""
    line = FAULT_LINE.fullmatch(outcome.err.decode("utf-8", "replace"))
    return Fault(int(line[1]), int(line[2]), line[3], None) if line and outcome.status == 1 and not outcome.out else None


def is_high(tree):
    """Whether more than 500 expressions or statements of a tree are nested."""
    pending = [(tree, 0, 0)]
    while pending:
        node, expressions, statements = pending.pop()
        expressions += isinstance(node, ast.expr)
        statements += isinstance(node, ast.stmt)
        if max(expressions, statements) > HIGHEST:
            return True
        pending += [(child, expressions, statements) for child in ast.iter_child_nodes(node)]
    return False


def class_of_refusal(told, tree, data):
    """The class of a source that pyast refuses and Python accepts, or None."""
    due = due_fault(tree, data)
    if due and due._replace(rule=None) == told:
        return due.rule
    if told.text in ("unsupported encoding", "byte order mark with another encoding"):
        return ENCODING
    if told.text == "carriage return without line feed" and re.search(rb"\r(?!\n)", data):
        return RETURN
    if told.text in ("invalid UTF-8", "not ASCII") and told == byte_fault(data):
        return BYTES
    return DEEP if told.text == "too deep" and is_high(tree) else None


def class_of_acceptance(mine, error, data):
    """The class of a source that pyast accepts and Python refuses, or None."""
    said = str(error)
    if isinstance(error, (RecursionError, MemoryError)) or any(limit in said for limit in LIMITS):
        return LIMIT
    if any(number in said for number in NUMBERS):
        return NUMBER
    if re.search(r"illegal target for annotation|only single target", said) and ANNOTATED.search(mine.out):
        return TARGET
    if "utf8 with BOM" in said:
        return MARK
    later = any(is_newer(one) or one in LATER_IN_NAMES for one in data.decode("utf-8", "replace"))
    return NAMES if later and "invalid" in said else None


def as_escapes(out):
    """A dump in which characters that Python doesn't know are escaped, as it shows them."""
    text = out.decode("utf-8", "surrogatepass")
    newer = {ord(one): f"\\U{ord(one):08x}" if ord(one) > 0xFFFF else f"\\u{ord(one):04x}" for one in set(text) if is_newer(one)}
    return text.translate(newer).encode("utf-8", "surrogatepass")


def shown_by_itself(node):
    """The dump of an expression, as it is read where its value is asked for."""
    return re.sub(r"ctx=(?:Store|Del)\(\)", "ctx=Load()", ast.dump(node))


def is_read_as(node, text):
    """Whether the text of an expression's place is read as this expression; in brackets, as it may have line ends."""
    try:
        return shown_by_itself(ast.parse(b"(" + text + b"\n)", mode="eval").body) == shown_by_itself(node)
    except (SyntaxError, ValueError):
        return False


def spans_are_lawful(tree, data, most=40):
    """Whether of the nodes with one place each is directly below the one before, and the texts of some expressions are read as these. Nodes of f-strings
    aren't asked, nor the texts of slices and of starred expressions, which are none by themselves."""
    data = data.removeprefix(b"\xef\xbb\xbf")
    starts = [0, *(found.end() for found in re.finditer(rb"\n", data))]
    above, spans, expressions, nodes = {}, {}, [], [tree]
    while nodes:
        node = nodes.pop()
        if isinstance(node, ast.JoinedStr):
            continue
        for child in ast.iter_child_nodes(node):
            above[child] = node
            nodes.append(child)
        if hasattr(node, "lineno"):
            span = starts[node.lineno - 1] + node.col_offset, starts[node.end_lineno - 1] + node.end_col_offset
            spans.setdefault(span, []).append(node)
            if isinstance(node, ast.expr) and not isinstance(node, (ast.Slice, ast.Starred)):
                expressions.append((node, span))
    if any(above[lower] is not upper for same in spans.values() for upper, lower in zip(same, same[1:])):
        return False
    asked = random.Random(len(data)).sample(expressions, min(most, len(expressions)))
    asked = [(node, span) for node, span in asked if not any(isinstance(one, (ast.JoinedStr, ast.Slice)) for one in ast.walk(node))]
    return all(is_read_as(node, data[first:last]) for node, (first, last) in asked)


def class_of_tree(program, data, tree, plain, styles):
    """The class of a source that both accept: pyast's plain dump is given, the other styles are asked for."""
    outs = [plain, *(program_outcome(program, words, data) for words in list(styles)[1:])]
    due = [python_dump(tree, named) for named in styles.values()]
    if any(outcome.status != 0 or outcome.err for outcome in outs):
        return None
    if [outcome.out for outcome in outs] == due:
        return SAME if "include_attributes" not in styles[next(iter(styles))] or spans_are_lawful(tree, data) else None
    if "include_attributes" in styles[next(iter(styles))] and has_fstring(data) and same_but_fields(plain.out, tree):
        return SAME
    return NEWER if [as_escapes(outcome.out) for outcome in outs] == due else None


def blanks_of(found):
    """The blanks before each join that a line begins with, and those after the last."""
    return re.split(rb"\\\r?\n", found[0])


def python_margin(found):
    """What Python takes for the margin of such a line: the first of these that have a width, a tab as eight columns in both counts, or the last."""
    *before, last = blanks_of(found)
    return next(filter(None, (part.rpartition(b"\f")[2].expandtabs(8) for part in before)), last)


def class_of_joined(program, data, styles):
    """The class of a source with lines that begin with a join, or None: pyast measures such a line by its own blanks, Python as said above."""
    own, theirs = JOINED_MARGIN.sub(lambda found: blanks_of(found)[0], data), JOINED_MARGIN.sub(python_margin, data)
    trees = [tree and ast.dump(tree) for tree, _ in map(python_tree, (data, theirs))]
    outs = [program_outcome(program, (), source).out for source in (data, own)]
    if trees[0] != trees[1] or outs[0] != outs[1] or not class_of(program, own, styles, False):
        return None
    return TAB if any(b"\t" in part for found in JOINED_MARGIN.finditer(data) for part in blanks_of(found)[:-1]) else JOIN


def class_of(program, data, styles=STYLES, joins=True):
    """The class of what both make of a source, in some styles of which the plain one is the first."""
    return class_of_outcome(program, data, program_outcome(program, next(iter(styles)), data), styles, joins)


def class_of_outcome(program, data, mine, styles=STYLES, joins=True):
    """The same where the plain dump is there already."""
    tree, error = python_tree(data)
    told = told_fault(mine)
    if mine.status == 0 and tree is not None:
        found = class_of_tree(program, data, tree, mine, styles)
    elif mine.status == 0:
        found = class_of_acceptance(mine, error, data) if not mine.err else None
    elif told and tree is not None:
        found = class_of_refusal(told, tree, data)
    else:
        found = REFUSED if told else None
    if found is None and joins and JOINED_MARGIN.search(data):
        found = class_of_joined(program, data, styles)
    return found


# --- the parts of a file ----------------------------------------------------------------------------------------------


def rows_of(statement):
    """The first and the last row of a statement, its decorators included."""
    return min([statement.lineno, *(one.lineno for one in getattr(statement, "decorator_list", []))]), statement.end_lineno


def groups_of(statements):
    """The rows of statements; those that share a row stand together."""
    groups = []
    for statement in statements:
        first, last = rows_of(statement)
        if groups and first <= groups[-1][1]:
            groups[-1] = groups[-1][0], max(last, groups[-1][1])
        else:
            groups.append((first, last))
    return groups


def bodies_of(statement):
    """The lists of statements that stand within a statement."""
    yield from (getattr(statement, field, []) for field in ("body", "orelse", "finalbody"))
    yield from (part.body for part in getattr(statement, "handlers", []) + getattr(statement, "cases", []))


def cut_out(lines, first, last):
    """Rows of a source, less the margin of the first of them in each that has it."""
    rows = lines[first - 1:last]
    margin = MARGIN.match(rows[0])[0]
    return "".join(row.removeprefix(margin) for row in rows)


def parts_of(text):
    """The parts of a source without a form that is left out, the largest that are statements: each a source that Python accepts."""
    tree, _ = python_tree(text.encode())
    if tree is None:
        return
    lines = text.splitlines(keepends=True) if "\f" not in text and "\v" not in text else re.findall(r".*\n|.+", text)
    if lines and not lines[-1].endswith("\n"):
        lines[-1] += "\n"
    pending = [tree.body]
    while pending:
        statements = pending.pop()
        for first, last in groups_of(statements):
            part = cut_out(lines, first, last)
            whole, _ = python_tree(part.encode())
            if whole is not None and due_fault(whole, part.encode()) is None:
                yield part
                continue
            for statement in statements:
                if first <= rows_of(statement)[0] <= last:
                    pending += [body for body in bodies_of(statement) if body and rows_of(body[0])[0] > statement.lineno]


def differing_parts(parts, find):
    """The parts in which pyast differs from Python by the class that is found: all are taken as one source, and by halves where
    that differs."""
    if not parts:
        return []
    found = find("".join(parts).encode())
    if found in (SAME, NEWER):
        return []
    if len(parts) == 1:
        return parts if found is None else []
    half = len(parts) // 2
    return differing_parts(parts[:half], find) + differing_parts(parts[half:], find)


def parts_of_case(found, path, data):
    """The parts without a left-out form of a case of a class: none where all of it was compared."""
    if not (path and found.startswith("left out") or found in (OCTAL, FORM)):
        return []
    with tokenize.open(path) if path else io.StringIO(data.decode()) as source:
        return list(parts_of(source.read()))


def has_fstring(data):
    """Whether Python's parser takes a source, and it has an f-string."""
    tree, _ = python_tree(data)
    return tree is not None and any(isinstance(node, ast.JoinedStr) for node in ast.walk(tree))


def compare_case(program, case):
    """The comparison of one case: a path or bytes. Of what is refused for a form that is left out, the parts without one too."""
    name, path, data = case
    started = time.perf_counter()
    if path:
        with open(path, "rb") as file:
            data = file.read()
    found = class_of(program, data) or UNEXPLAINED
    parts = parts_of_case(found, path, data)
    wrong = differing_parts(parts, functools.partial(class_of, program))
    if wrong:
        return Result(f"{name}, a part of it", wrong[0].encode(), UNEXPLAINED, len(parts), time.perf_counter() - started)
    kept = None if path and found != UNEXPLAINED else data
    return Result(name, kept, found, len(parts), time.perf_counter() - started, bool(path) and has_fstring(data))


# --- mutants ----------------------------------------------------------------------------------------------------------

PIECE = re.compile(r"\w+|[ \t]+|\r?\n|.", re.DOTALL)
LARGEST_BASE = 8
FILES_OF_BASES = 200
WORDS = """x y self f 1 2 0 'a' b'b' u'c' ( ) [ ] { } , : ; = := == != < >= not in is and or if elif else for while lambda * ** + - ~ | ^ & <<
// @ . ... -> += async await yield from import as with return def del class try except finally raise assert global nonlocal pass break
None True type match case _ 1.5 2j f'x' '\\N{DASH}' b'\\400' 0x1f 012 1_0 \\ # \u00e9 \ufb01 \uff49\uff46""".split() + [
    " ", "  ", "\n", "\n ", "\n  ", "\n\t", "\\\n", ":\n  ", "\r\n", "\t", "\f"]


def mutant(chance, text):
    """A text in which some pieces were put in, left out, doubled or taken for others."""
    pieces = PIECE.findall(text)
    for _ in range(chance.choice((0, 1, 1, 1, 1, 2, 2, 3))):
        at, other = chance.randint(0, len(pieces)), chance.randint(0, len(pieces))
        how = chance.randrange(5)
        if how == 0:
            del pieces[at:at + 1]
        elif how == 1:
            pieces[at:at] = [chance.choice(WORDS)]
        elif how == 2:
            pieces[at:at + 1] = [" ", chance.choice(WORDS), " "]
        elif how == 3:
            pieces[at:at] = pieces[other:other + 1]
        else:
            pieces[at:at + 1], pieces[other:other + 1] = pieces[other:other + 1], pieces[at:at + 1]
    return "".join(pieces)


def short_statements(path):
    """The statements of a file that have a few rows, each less its margin."""
    with open(path, "rb") as file:
        text = file.read().decode("utf-8", "replace")
    tree, _ = python_tree(text.encode())
    lines = re.findall(r".*\n|.+", text)
    for node in ast.walk(tree) if tree else ():
        first, last = rows_of(node) if isinstance(node, ast.stmt) else (1, len(lines))
        if lines and last - first < LARGEST_BASE:
            yield cut_out(lines, first, last)


def mutants(count, seed, paths):
    """Sources that nobody would write, the same for the same seed: short statements of some files, changed in some pieces."""
    chance = random.Random(seed)
    some = chance.sample(paths, min(len(paths), FILES_OF_BASES)) if count else []
    bases = [text for path in some for text in short_statements(path)]
    for number in range(count if bases else 0):
        chance = random.Random(f"{seed}-{number}")
        data = mutant(chance, "".join(chance.choice(bases) for _ in range(chance.choice((1, 1, 1, 2)))))
        yield f"mutant {number} of seed {seed}", None, data.encode("utf-8", "surrogatepass")


# --- the run ----------------------------------------------------------------------------------------------------------


def show_failure(program, result, reduce):
    """Prints a difference without class, on its smallest input unless asked not to look for it."""
    print(f"\n{UNEXPLAINED}: {result.name}")
    if not reduce:
        return
    data = smallest(result.data, lambda source: class_of(program, source) is None)
    print(f"  smallest input: {data!r}")
    tree, error = python_tree(data)
    for words, named in STYLES.items():
        mine = program_outcome(program, words, data)
        print(f"  {' '.join(('pyast', 'dump', *words)):24} status {mine.status}: {(mine.out or mine.err).decode('utf-8', 'replace').strip()}")
        if tree is not None:
            print(f"  {'ast.dump':24} {python_dump(tree, named).decode('utf-8', 'replace').strip()}")
    if tree is None:
        print(f"  ast.parse: {error!r}")


def all_cases(options):
    """The number of cases, and the cases: name, path or None, bytes or None."""
    paths = chosen_files(options)
    files = [(short_name(path), path, None) for path in paths]
    print(f"{len(files)} files, {options.mutate} mutants", flush=True)
    changed = mutants(options.mutate, options.seed, paths)
    return len(files) + options.mutate, (case for group in (files, changed) for case in group)


def compare_all(options):
    """The results of all cases."""
    count, cases = all_cases(options)
    work = functools.partial(compare_case, options.program)
    return results_of(work, count, cases, options.jobs, functools.partial(prepare, options.whole, getattr(options, "attributes", False)))


def read_language(parser):
    """The command line of a comparison that may be of the whole language."""
    parser.add_argument("--whole", action="store_true", help="compare what the program does with --whole")
    options = read_options(parser)
    options.plain = options.program
    if options.whole:
        options.program = WITH_WHOLE + options.program
    prepare(options.whole, getattr(options, "attributes", False))
    return options


def prepare(whole=False, attributes=False):
    """What each process needs: no warnings of the sources, room for high trees, and what is left out."""
    for words in list(STYLES) if attributes and () in STYLES else ():
        STYLES[("--attributes", *words)] = STYLES.pop(words) | {"include_attributes": True}
    for reason in OF_WHOLE if whole else ():
        if reason in LEFT_OUT:
            name, _ = LEFT_OUT.pop(reason)
            SAMPLES[SAME] = SAMPLES.pop(name) + SAMPLES[SAME]
    SAMPLES.update(OF_FIELDS if whole else {})
    warnings.simplefilter("ignore")
    sys.setrecursionlimit(20_000)


def misplaced_samples(program):
    """The samples that don't fall into their class: then the table of classes would say what isn't so."""
    for name, source in SAMPLES.items():
        found = class_of(program, source)
        if found != name:
            yield Result(f"the sample {source!r} of the class `{name}`, found in `{found}`", source, UNEXPLAINED, 0, 0)


def show_fstrings(results):
    """Prints how many files have f-strings, class by class."""
    counts = collections.Counter(result.found for result in results if result.has_fstring)
    shown = "".join(f", {count} of the class `{name}`" for name, count in counts.most_common())
    print(f"\n{sum(counts.values())} files have f-strings{shown}.")


def compare(options):
    """Compares all, prints what was found, and answers the exit status."""
    started = time.monotonic()
    print(f"pyast: {' '.join(options.program)}\nast: Python {sys.version.split()[0]}")
    failures = list(misplaced_samples(options.program))
    results = compare_all(options)
    failures += sorted((one for one in results if one.found == UNEXPLAINED), key=lambda one: one.name)
    for number, failure in enumerate(failures):
        show_failure(options.program, failure, number < options.smallest)
    show_table(results, SAMPLES)
    show_fstrings(results)
    parts = sum(result.parts for result in results)
    print(f"\nOf files with a form that is left out {parts} parts without one were compared.")
    print(f"{time.monotonic() - started:.0f} s in all; {sum(result.seconds for result in results):.0f} s summed over the jobs")
    return show_end(failures, len(results))


def main():
    """Finds what is needed, and compares."""
    go_on_with_python_311()
    parser = files_parser("Compares `pyast dump` with Python 3.11's ast.dump, byte for byte.")
    parser.add_argument("--attributes", action="store_true", help="compare with the places of nodes")
    return compare(read_language(parser))


if __name__ == "__main__":
    sys.exit(main())
