#!/usr/bin/env python3
"""Compares match statements as `pyast dump --whole` and `pyast unparse --whole` read and write them with Python 3.11's module `ast`.

    conformance/matches.py [FOLDER ..] [--quick] [--random N] [--mutate N]

The match statements are those of every .py file below the folders (by default Python's own library with its tests), each a source of its
own; N that are made by chance, of all patterns and subjects, with more brackets and commas than they need; and N of both kinds that are
changed in one token. What `dump` writes has to be what `ast.dump` gives, or both have to refuse the source; `unparse`'s text has to give that
tree again, with no more brackets and no more tokens than the text of `ast.unparse` has. Each difference has to be of a class
that docs/DECISIONS.md has.

The exit status is 0 where every difference has a class, 1 where one has none, and 2 where nothing could be compared; with --or-skip it is
0 too where there is no Python 3.11.
"""

import ast
import random
import sys
import textwrap

from common import chosen_files, files_parser, go_on_with_python_311, short_name
from dumps import python_tree, read_language
from sources import changed, results_of_cases, show_results, show_versions, why_too_long

NAMES = ("a", "b", "match", "case", "_", "__", "x1")
LITERALS = ("0", "-1", "0x1f", "-1.5", "2j", "-2J", "1 + 2j", "-1.5 - 0j", "'k'", "'a' \"b\"", "b'c'", "u'd'", "None", "True", "False",
            "f'e{f!r:>{g}}'", "u'' f'{h}' 'i'")
SUBJECTS = ("x", "x, y", "x,", "*x, y", "(x)", "-x", "(yield)", "x := 1", "f(x)[1:2]", "lambda: x", "x if y else z", "(x, *y)", "[]", "match", "not x")
SUITES = (" pass", " y; z", "\n  y")
GUARDS = ("", "", " if x", " if y := x", " if (x, y)", " if lambda: x", " if not x")
OTHERS = ("(", ")", "[", "]", "{", "}", ",", "|", "*", "**", "as", "if", "=", ":", ".", "+", "-", "1", "2j", "'s'", "a", "_", "None", "not", "...", "case", "match")


# --- match statements -------------------------------------------------------------------------------------------------


def of_file(path):
    """The match statements of a file, each a source of its own."""
    with open(path, "rb") as file:
        data = file.read()
    tree, _ = python_tree(data)
    if tree is None or not any(isinstance(node, ast.Match) for node in ast.walk(tree)):
        return
    lines = data.decode("utf-8", "replace").splitlines(keepends=True)
    for node in ast.walk(tree):
        if isinstance(node, ast.Match):
            source = textwrap.dedent("".join(lines[node.lineno - 1:node.end_lineno])).encode()
            if python_tree(source)[0] is not None:
                yield f"{short_name(path)}:{node.lineno}", source


def listed(chance, parts, least=0):
    """Some of what is made, with commas between, and perhaps one after."""
    made = [parts() for _ in range(chance.randint(least, 3))]
    return ", ".join(made) + ("," if made and chance.randrange(3) == 0 else "")


def dotted(chance):
    """Names with points between, two at least."""
    return ".".join(chance.choice(("a", "b", "case")) for _ in range(chance.randint(2, 3)))


def starred(chance, depth):
    """An element of a sequence."""
    return f"*{chance.choice(NAMES)}" if chance.randrange(5) == 0 else pattern(chance, depth)


def key_pattern(chance, depth):
    """A key with its pattern."""
    return f"{chance.choice((*LITERALS, dotted(chance)))}: {pattern(chance, depth)}"


def mapping(chance, depth):
    """A mapping, perhaps with a rest."""
    inner = listed(chance, lambda: key_pattern(chance, depth))
    rest = f"{'' if not inner or inner.endswith(',') else ','} **{chance.choice(('r', 'match'))}" if chance.randrange(3) == 0 else ""
    return f"{{{inner}{rest}}}"


def class_pattern(chance, depth):
    """A class with its patterns."""
    alone = [pattern(chance, depth) for _ in range(chance.randrange(3))]
    named = [f"{chance.choice(('k', 'case', 'a'))}={pattern(chance, depth)}" for _ in range(chance.randrange(3))]
    return f"{chance.choice(('A', 'match', dotted(chance)))}({', '.join(alone + named)})"


def closed(chance, depth):
    """What may stand before `|`."""
    if depth == 0:
        return chance.choice((*NAMES, *LITERALS, dotted(chance)))
    inner = depth - 1
    return chance.choice((
        lambda: chance.choice((*NAMES, *LITERALS, dotted(chance))),
        lambda: f"({pattern(chance, inner)})",
        lambda: f"({starred(chance, inner)},)",
        lambda: f"[{listed(chance, lambda: starred(chance, inner))}]",
        lambda: f"({starred(chance, inner)}, {listed(chance, lambda: starred(chance, inner), 1)})",
        lambda: mapping(chance, inner),
        lambda: class_pattern(chance, inner),
    ))()


def pattern(chance, depth):
    """A pattern."""
    made = " | ".join(closed(chance, depth) for _ in range(chance.choice((1, 1, 1, 2, 3))))
    return f"{made} as {chance.choice(('a', 'case'))}" if chance.randrange(6) == 0 else made


def random_match(seed, number):
    """A match statement made by chance, the same for the same seed and number."""
    chance = random.Random(f"{seed}-{number}")
    cases = []
    for _ in range(chance.randint(1, 3)):
        whole = pattern(chance, chance.randint(0, 3))
        if chance.randrange(4) == 0:
            whole = f"{starred(chance, 1)}, {listed(chance, lambda: starred(chance, 1))}"
        cases.append(f" case {whole}{chance.choice(GUARDS)}:{chance.choice(SUITES)}\n")
    return f"match {chance.choice(SUBJECTS)}:\n{''.join(cases)}".encode()


# --- the run ----------------------------------------------------------------------------------------------------------


def all_cases(options):
    """The cases: name and source."""
    found = [case for path in chosen_files(options) for case in of_file(path)]
    made = [(f"random match {number} of seed {options.seed}", random_match(options.seed, number)) for number in range(options.random)]
    bases = (found + made) or [("a row", b"match x:\n case a: pass\n")]
    mutants = [(f"{name}, changed", changed(source, OTHERS, options.seed, number))
               for number, (name, source) in enumerate(random.Random(options.seed).choices(bases, k=options.mutate))]
    print(f"{len(found)} match statements of files, {len(made)} made by chance, {len(mutants)} changed", flush=True)
    return found + made + mutants


def compare(options):
    """Compares all, prints what was found, and answers the exit status."""
    show_versions(options)
    return show_results(options, results_of_cases(options, all_cases(options), why_too_long), why_too_long)


def main():
    """Finds what is needed, and compares."""
    go_on_with_python_311()
    parser = files_parser("Compares match statements with Python 3.11's ast, as `pyast dump --whole` and `pyast unparse --whole` have them.")
    parser.add_argument("--random", type=int, default=0, metavar="N", help="also N match statements made by chance")
    parser.set_defaults(whole=True)
    return compare(read_language(parser))


if __name__ == "__main__":
    sys.exit(main())
