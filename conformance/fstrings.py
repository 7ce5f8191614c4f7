#!/usr/bin/env python3
"""Compares f-strings as `pyast dump --whole` and `pyast unparse --whole` read and write them with Python 3.11's module `ast`.

    conformance/fstrings.py [FOLDER ..] [--quick] [--random N] [--mutate N] [--length N]

The f-strings are those of every .py file below the folders (by default Python's own library with its tests), each once; some at each place
of a module; all bodies of at most N characters that may stand for something there; N that are made by chance; and N of all these that are
changed. What `dump` writes has to be what `ast.dump` gives, for some of them in all styles, or both have to refuse the source. The text of
`unparse` has to give that tree again, with no more brackets and no more tokens than that of `ast.unparse`, and it has to be what
docs/DECISIONS.md says of literals, but for brackets that it saves. Each difference has to be of a class that docs/DECISIONS.md has.

Before that hostile f-strings are tried, of a megabyte or nested as deep as they may be: each has to be refused for its reason, or to have
its tree.

The exit status is 0 where every difference has a class, 1 where one has none, and 2 where nothing could be compared; with --or-skip it is
0 too where there is no Python 3.11.
"""

import ast
import functools
import random
import re
import sys
import tokenize

from common import UNEXPLAINED, Outcome, chosen_files, files_parser, go_on_with_python_311, outcome_of, results_of
from dumps import prepare, python_dump, python_tree, read_language
from formatted import body_of
from fstring_makers import hostile_sources, mutant, random_source, short_sources, sources_at_places
from sources import results_of_cases, show_results, show_versions, why_too_long
from unparse import Result, coming_back, misplaced_samples
from values import tokens_in

UNBARE = re.compile(r"[\0\r\n\\'\"\ud800-\udfff]")
# What `ast.unparse` has otherwise than pyast: a blank after `except*`, and empty lines before functions and classes.
OTHERWISE = {"except* ": "except *", "\n\n": "\n"}
BRACKETS_AND_BLANKS = str.maketrans("", "", "() ")


# --- the text that is due ---------------------------------------------------------------------------------------------


def kinds(values):
    """The kinds of the texts of an f-string, those of its format specs among them."""
    for value in values:
        if isinstance(value, ast.Constant):
            yield value.kind
        elif value.format_spec is not None:
            yield from kinds(value.format_spec.values)


class Writer(ast._Unparser):  # pylint: disable=protected-access
    """Writes trees as `ast.unparse` does, but literals as pyast does; all brackets that this writes may stand, but not all have to."""

    def __init__(self, fields=0):
        super().__init__()
        self.fields = fields

    def check_bare(self, text, most):
        """Ends the writing where a text in more than so many fields, or one that needs an escape in any, should have been refused."""
        if self.fields > most or self.fields and UNBARE.search(text):
            raise ValueError(f"{text!r} can't be written in {self.fields} fields")

    def get_raw_docstring(self, node):
        """A docstring is written as any other text."""

    def visit_Attribute(self, node):
        """A number has a blank before the point, any number."""
        self.set_precedence(ast._Precedence.ATOM, node.value)
        self.traverse(node.value)
        is_number = isinstance(node.value, ast.Constant) and type(node.value.value) in (int, float, complex)
        self.write(" ." if is_number else ".", node.attr)

    def visit_Subscript(self, node):
        """One starred element in an index has no comma after it."""
        elts = node.slice.elts if isinstance(node.slice, ast.Tuple) else ()
        if len(elts) != 1 or not isinstance(elts[0], ast.Starred):
            super().visit_Subscript(node)
            return
        self.set_precedence(ast._Precedence.ATOM, node.value)
        self.traverse(node.value)
        with self.delimit("[", "]"):
            self.traverse(elts[0])

    def _write_constant(self, value):
        if self.fields and isinstance(value, (str, bytes)):
            characters = value if isinstance(value, str) else value.decode("ascii")
            self.check_bare(characters, 1)
            self.write("b" * isinstance(value, bytes), '"', characters, '"')
        else:
            super()._write_constant(value)

    def visit_JoinedStr(self, node):
        """One f-string, after a text of kind `u` where it has that kind."""
        values = node.values
        self.check_bare("", 1)
        if "u" in kinds(values):
            is_text = isinstance(values[0], ast.Constant)
            self.write("u")
            self._write_constant(values[0].value if is_text else "")
            self.write(" ")
            values = values[is_text:]
        quote = '"' if self.fields else "'"
        self.write("f", quote)
        self.write_values(values, False)
        self.write(quote)

    def write_values(self, values, is_spec):
        """The texts and fields of an f-string or of a format spec."""
        for value in values:
            if isinstance(value, ast.Constant):
                self.write_text(value.value, is_spec)
            else:
                self.write_field(value)

    def write_text(self, text, is_spec):
        """A text of an f-string or of a format spec."""
        self.check_bare(text, 0 if is_spec and set(text) & set("{}") else 1)
        for character in text:
            if character in "{}":
                self.write(f"\\x{ord(character):02x}" if is_spec else character * 2)
            elif self.fields:
                self.write(character)
            else:
                self.write("\\'" if character == "'" else repr(character)[1:-1])

    def write_field(self, node):
        """A field."""
        inner = type(self)(self.fields + 1)
        inner.set_precedence(ast._Precedence.TEST.next(), node.value)
        text = inner.visit(node.value)
        self.write("{", " " * text.startswith("{"), text, "" if node.conversion == -1 else f"!{chr(node.conversion)}")
        if node.format_spec is not None:
            self.write(":")
            self.write_values(node.format_spec.values, True)
        self.write("}")


def judge(text, tree):
    """What is wrong with pyast's text of a tree, or None."""
    why = why_too_long(text, tree)
    if why or any(isinstance(node, ast.Match) for node in ast.walk(tree)):
        return why
    try:
        due = Writer().visit(tree)
    except RecursionError:
        return None
    except ValueError as error:
        return str(error)
    mine = text.decode("utf-8", "surrogatepass").removesuffix("\n")
    for other, own in OTHERWISE.items():
        mine, due = mine.replace(other, own), due.replace(other, own)
    same = mine == due if mine.count("(") == due.count("(") else mine.translate(BRACKETS_AND_BLANKS) == due.translate(BRACKETS_AND_BLANKS)
    return None if same else f"the text is {mine!r}, and should be {due!r}"


# --- hostile f-strings ------------------------------------------------------------------------------------------------


def why_hostile(program, case):
    """What is wrong with the answers to a hostile f-string, or None."""
    data = case.source.encode()
    dumped, mine = (outcome_of(program, [command], data) for command in ("dump", "unparse"))
    if case.fault:
        due = Outcome(1, b"", f"<stdin>:1:0: error: {case.fault}\n".encode())
        wrong = [one for one in (dumped, mine) if one != due]
    else:
        tree, error = python_tree((case.like or case.source).encode())
        if tree is None:
            return f"Python refuses it: {error}"
        wrong = [dumped] if dumped != Outcome(0, python_dump(tree, {}), b"") else []
    if wrong:
        return f"status {wrong[0].status}: {(wrong[0].out[:200] or wrong[0].err).decode('utf-8', 'replace')!r} in place of {case.fault or 'its tree'!r}"
    return None if case.fault else coming_back(program, (), dumped, mine)


def compare_hostile(program, case):
    """The result of a hostile f-string."""
    why = why_hostile(program, case)
    return Result(f"the hostile f-string of {case.name}", None, UNEXPLAINED if why else None, why, 0, 0, None)


def hostile_failures(options):
    """The hostile f-strings with another answer than they should have."""
    cases = hostile_sources()
    results = results_of(functools.partial(compare_hostile, options.program), len(cases), cases, options.jobs, functools.partial(prepare, True))
    failures = [one for one in results if one.found]
    for failure in failures:
        print(f"{failure.name}: {failure.why}")
    print(f"{len(cases)} hostile f-strings, {len(failures)} of them with another answer than they should have", flush=True)
    return failures


# --- the run ----------------------------------------------------------------------------------------------------------


def formatted_in(path):
    """The f-strings of a file."""
    return {text for kind, text in tokens_in(path) if kind == tokenize.STRING and "f" in body_of(text)[0]}


def found_sources(options):
    """The f-strings of all files, each once: name and source."""
    files = chosen_files(options)
    found = set().union(*results_of(formatted_in, len(files), files, options.jobs))
    for text in sorted(found):
        yield f"the f-string {text[:80]!r} of a file", f"x = {text}\n".encode("utf-8", "surrogatepass")


def all_cases(options):
    """The cases: name and source."""
    found, placed, short = list(found_sources(options)), list(sources_at_places()), list(short_sources(options.length))
    made = [(f"random f-string {number} of seed {options.seed}", random_source(options.seed, number)) for number in range(options.random)]
    bases = random.Random(options.seed).choices(found + placed + 4 * made, k=options.mutate)
    mutants = [(f"{name}, changed", mutant(source, options.seed, number)) for number, (name, source) in enumerate(bases)]
    print(f"{len(found)} f-strings of files, {len(placed)} at places of modules, {len(short)} of short bodies, {len(made)} made by chance, "
          f"{len(mutants)} changed", flush=True)
    return found + placed + short + made + mutants


def compare(options):
    """Compares all, prints what was found, and answers the exit status."""
    show_versions(options)
    failures = hostile_failures(options)
    results = [*misplaced_samples(options.program), *results_of_cases(options, all_cases(options), judge)]
    return show_results(options, results, judge) or int(bool(failures))


def main():
    """Finds what is needed, and compares."""
    go_on_with_python_311()
    parser = files_parser("Compares f-strings with Python 3.11's ast, as `pyast dump --whole` and `pyast unparse --whole` have them.")
    parser.add_argument("--random", type=int, default=0, metavar="N", help="also N f-strings made by chance")
    parser.add_argument("--length", type=int, default=2, metavar="N", help="the most characters of the short bodies; default: 2")
    parser.set_defaults(whole=True)
    return compare(read_language(parser))


if __name__ == "__main__":
    sys.exit(main())
