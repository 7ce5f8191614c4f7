#!/usr/bin/env python3
"""Compares the texts of `pyast unparse` with the sources that they are made of, by Python 3.11's `ast.parse` and by `pyast dump`.

    conformance/unparse.py [FOLDER ..] [--quick] [--mutate N] [--random N] [--whole]

Of every .py file below the folders (by default that of Python's own library with its tests) that `dump` accepts, and of the largest
parts of the others that it accepts: Python has to give the text the tree of the source; `dump` has to write the same of both, byte for
byte; the text's own text has to be the text; and it may have no more opening brackets than that of `ast.unparse`, where that is a text of
the tree. A source that `dump` refuses has to be refused in the same words. Random sources are made of random trees, each expression in
brackets of its own, so that they can have no other tree. With --whole it is `pyast unparse --whole` that is compared, and the random
trees have all numbers.

Before that the worked examples are tried: each has its text, to the byte, and without any one pair of its round brackets the text is
refused or has another tree.

Where pyast and Python differ about a source, the difference has to be of a class of conformance/dumps.py. Any other is a failure, shown
by the smallest input that has it. The exit status is 0 where every difference has a class, 1 where one has none, and 2 where nothing
could be compared; with --or-skip it is 0 too where there is no Python 3.11.
"""

import ast
import collections
import functools
import io
import random
import sys
import time
import tokenize

from common import (UNEXPLAINED, Outcome, chosen_files, files_parser, go_on_with_python_311, outcome_of, refuse, results_of,
                    short_name, show_end, show_table, smallest)
from dumps import (LIMIT, NAMES, NEWER, SAME, SAMPLES, as_escapes, class_of_acceptance, class_of_outcome, differing_parts, mutants,
                   parts_of_case, prepare, python_dump, python_tree, read_language)
from formatted import all_tokens
from rows import ROWS
from trees import random_source

PLAIN = {(): {}}
# Of a row with more pairs of round brackets than these, some are tried, spread evenly.
PAIRS = 20

# The class of what both make of a source, None without one, and why there is none; and the opening brackets of pyast's text
# and of Python's, where both have been counted.
Finding = collections.namedtuple("Finding", "found why brackets", defaults=(None, None))
Result = collections.namedtuple("Result", "name data found why parts seconds brackets")


# --- one comparison ---------------------------------------------------------------------------------------------------


def opening_brackets(text):
    """How many opening brackets are among the tokens of a text, those of fields of f-strings with them."""
    return sum(token.type == tokenize.OP and token.string in "([{" for token in all_tokens(text))


def python_text(tree):
    """The text that `ast.unparse` gives a tree, or None where it isn't one of that tree."""
    try:
        text = ast.unparse(tree).encode()
    except (RecursionError, ValueError):
        return None
    again, _ = python_tree(text)
    return text if again is not None and ast.dump(again) == ast.dump(tree) else None


def with_brackets(found, text, tree):
    """The finding of a text that is as it should be otherwise."""
    other = python_text(tree)
    if other is None:
        return Finding(found)
    mine, real = opening_brackets(text), opening_brackets(other)
    why = f"{mine} opening brackets, and {real} in the text of ast.unparse" if mine > real else None
    return Finding(None if why else found, why, (mine, real))


def finding_of_text(found, dumped, text):
    """The finding of a text that pyast takes for the tree of its source, whose dump is given."""
    tree, error = python_tree(text)
    if tree is None:
        is_known = found not in (SAME, NEWER) and class_of_acceptance(dumped, error, text) in (LIMIT, NAMES)
        return Finding(found if is_known else None, f"Python refuses the text: {error}")
    if python_dump(tree, {}) not in (dumped.out, as_escapes(dumped.out)):
        return Finding(None, "Python gives the text another tree")
    return with_brackets(found, text, tree)


def coming_back(program, words, dumped, mine):
    """What is wrong with pyast's text by pyast itself, or None."""
    if mine.status != 0 or mine.err:
        return f"dump accepts the source, and unparse ends with status {mine.status}"
    if outcome_of(program, ["dump", *words], mine.out) != dumped:
        return "dump writes another tree of the text than of the source"
    return "the text's own text is another" if outcome_of(program, ["unparse", *words], mine.out) != mine else None


def examine(program, data, styles=PLAIN):
    """The finding of a source, whose dump is compared in some styles of which the plain one is the first."""
    dumped, mine = (outcome_of(program, [command], data) for command in ("dump", "unparse"))
    found = class_of_outcome(program, data, dumped, styles)
    if found is None:
        return Finding(None, "dump differs from ast.dump")
    if dumped.status != 0:
        return Finding(found) if mine == dumped else Finding(None, "dump refuses the source, and unparse does otherwise")
    why = coming_back(program, (), dumped, mine)
    return Finding(None, why) if why else finding_of_text(found, dumped, mine.out)


def compare_case(program, case):
    """The comparison of one case: a path or bytes. Of what is refused for a form that is left out, the parts without one too."""
    name, path, data = case
    started = time.perf_counter()
    if path:
        with open(path, "rb") as file:
            data = file.read()
    finding = examine(program, data)
    parts = parts_of_case(finding.found or "", path, data)
    if parts:
        whole = examine(program, "".join(parts).encode())
        wrong = [] if whole.found in (SAME, NEWER) else differing_parts(parts, lambda part: examine(program, part).found)
        if wrong:
            name, data, finding = f"{name}, a part of it", wrong[0].encode(), examine(program, wrong[0].encode())
        finding = finding._replace(brackets=whole.brackets)
    kept = None if path and finding.found else data
    return Result(name, kept, finding.found or UNEXPLAINED, finding.why, len(parts), time.perf_counter() - started, finding.brackets)


# --- the worked examples --------------------------------------------------------------------------------------------------


def pairs_of(text):
    """The places of each pair of round brackets of a text."""
    opened, pairs = [], []
    for token in tokenize.generate_tokens(io.StringIO(text).readline):
        if token.type == tokenize.OP and token.string == "(":
            opened.append(token.start)
        elif token.type == tokenize.OP and token.string == ")":
            pairs.append((opened.pop(), token.start))
    return pairs


def without(text, pair):
    """A text without a pair of brackets; the tokens beside them stay apart, and the first of a line where it begins."""
    lines = text.splitlines(keepends=True)
    for row, column in reversed(pair):
        front, back = lines[row - 1][:column], lines[row - 1][column + 1:]
        lines[row - 1] = front + (" " if front.strip() else "") + back
    return "".join(lines)


def faults_of_row(program, row):
    """What is wrong with a worked example: its source, its text and the words that it is read with."""
    source, text, words = row
    mine = outcome_of(program, ["unparse", *words], source.encode())
    if mine != Outcome(0, text.encode(), b""):
        yield f"status {mine.status}, {mine.out or mine.err!r}; should be {text!r}"
        return
    dumped = outcome_of(program, ["dump", *words], source.encode())
    why = coming_back(program, words, dumped, mine)
    if why:
        yield why
    pairs = pairs_of(text)
    for pair in pairs[::len(pairs) // PAIRS + 1]:
        less = outcome_of(program, ["dump", *words], without(text, pair).encode())
        if less.status not in (0, 1) or less.out == dumped.out:
            yield f"without the brackets at {pair} it is the same tree: {without(text, pair)!r}"


def compare_row(program, row):
    """What is wrong with a worked example, as results."""
    return [Result(f"the row {row[0][:200]!r}", None, UNEXPLAINED, why, 0, 0, None) for why in faults_of_row(program, row)]


# --- the run ----------------------------------------------------------------------------------------------------------


def random_sources(count, seed, whole):
    """Sources of random trees, the same for the same seed."""
    for number in range(count):
        try:
            source = random_source(random.Random(f"{seed}-{number}"), whole)
        except (ValueError, SyntaxError) as error:
            refuse(f"random tree {number} of seed {seed}: {error}")
        yield f"random tree {number} of seed {seed}", None, source


def show_failure(program, result, reduce, find=examine):
    """Prints a difference without class, on its smallest input unless asked not to look for it; a function finds the difference again."""
    print(f"\n{UNEXPLAINED}: {result.name}: {result.why}")
    if not reduce or result.data is None:
        return
    data = smallest(result.data, lambda source: find(program, source).found is None)
    print(f"  smallest input: {data!r}: {find(program, data).why}")
    mine = outcome_of(program, ["unparse"], data)
    sources = {"source": data, "text": mine.out} if mine.status == 0 else {"source": data}
    print(f"  pyast unparse           status {mine.status}: {mine.out or mine.err!r}")
    for name, source in sources.items():
        dumped, (tree, error) = outcome_of(program, ["dump"], source), python_tree(source)
        print(f"  pyast dump of the {name:6} status {dumped.status}: {(dumped.out or dumped.err).decode('utf-8', 'replace').strip()}")
        print(f"  ast.dump of the {name:6}   {ast.dump(tree) if tree is not None else repr(error)}")
    if tree is not None:
        print(f"  ast.unparse             {ast.unparse(tree)!r}")


def show_brackets(results):
    """Prints how many opening brackets the texts have."""
    counted = [result.brackets for result in results if result.brackets]
    mine, real = (sum(one[side] for one in counted) for side in (0, 1))
    print(f"\nOpening brackets of {len(counted)} texts: pyast {mine}, ast.unparse {real}.")
    for result in results:
        if result.brackets and result.brackets[0] > result.brackets[1]:
            print(f"  more in {result.name}: {result.brackets[0]}, and {result.brackets[1]} in the text of ast.unparse")


def misplaced_samples(program):
    """The samples that don't fall into their class: then the table of classes would say what isn't so."""
    for name, source in SAMPLES.items():
        finding = examine(program, source)
        if finding.found != name:
            why = f"found in `{finding.found}`: {finding.why}"
            yield Result(f"the sample {source[:200]!r} of the class `{name}`", None, UNEXPLAINED, why, 0, 0, None)


def all_cases(options):
    """The number of cases, and the cases: name, path or None, bytes or None."""
    paths = chosen_files(options)
    print(f"{len(ROWS)} rows, {len(paths)} files, {options.mutate} mutants, {options.random} random trees", flush=True)
    groups = ([(short_name(path), path, None) for path in paths], mutants(options.mutate, options.seed, paths),
              random_sources(options.random, options.seed, options.whole))
    return len(paths) + options.mutate + options.random, (case for group in groups for case in group)


def compare(options):
    """Compares all, prints what was found, and answers the exit status."""
    started = time.monotonic()
    print(f"pyast: {' '.join(options.program)}\nast: Python {sys.version.split()[0]}")
    count, cases = all_cases(options)
    failures = list(misplaced_samples(options.program))
    found = results_of(functools.partial(compare_row, options.plain), len(ROWS), ROWS, options.jobs)
    failures += sorted((one for row in found for one in row), key=lambda one: one.name)
    ready = functools.partial(prepare, options.whole)
    results = results_of(functools.partial(compare_case, options.program), count, cases, options.jobs, ready)
    failures += sorted((one for one in results if one.found == UNEXPLAINED), key=lambda one: one.name)
    for number, failure in enumerate(failures):
        show_failure(options.program, failure, number < options.smallest)
    show_table(results, SAMPLES)
    show_brackets(results)
    print(f"Of files with a form that is left out {sum(result.parts for result in results)} parts without one were compared.")
    print(f"{time.monotonic() - started:.0f} s in all; {sum(result.seconds for result in results):.0f} s summed over the jobs")
    return show_end(failures, len(results))


def main():
    """Finds what is needed, and compares."""
    go_on_with_python_311()
    parser = files_parser("Compares the texts of `pyast unparse` with their sources, by Python 3.11's ast and by `pyast dump`.")
    parser.add_argument("--random", type=int, default=0, metavar="N", help="also N sources of random trees")
    return compare(read_language(parser))


if __name__ == "__main__":
    sys.exit(main())
