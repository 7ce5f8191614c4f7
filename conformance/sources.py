"""What matches.py and fstrings.py share: short sources that are changed in one token, their comparison with Python 3.11, and the run."""

import functools
import io
import random
import sys
import time
import tokenize

from common import UNEXPLAINED, outcome_of, results_of, show_end, show_table
from dumps import SAME, SAMPLES, STYLES, prepare, python_tree
from formatted import all_tokens
from unparse import PLAIN, Result, examine, python_text, show_brackets, show_failure

# Of the sources, one in so many is dumped in all styles.
STYLED = 4


def changed(source, others, seed, number):
    """A source with one token of its first lines changed, taken away or doubled; others are what may come in its place."""
    chance = random.Random(f"changed {seed}-{number}")
    try:
        tokens = [token for token in tokenize.tokenize(io.BytesIO(source).readline) if token.string.strip() and token.type != tokenize.ENCODING]
    except (tokenize.TokenError, SyntaxError):
        return source
    (row, start), (_, end) = (token := chance.choice(tokens[:60])).start, token.end
    lines = source.decode().splitlines(keepends=True)
    new = chance.choice(("", f"{token.string} {token.string}", chance.choice(others), f"{token.string} {chance.choice(others)}"))
    if token.start[0] == token.end[0]:
        lines[row - 1] = f"{lines[row - 1][:start]}{new}{lines[row - 1][end:]}"
    return "".join(lines).encode()


def count_of_tokens(text):
    """How many tokens a text has, those of fields of f-strings with them."""
    return sum(bool(token.string.strip()) for token in all_tokens(text))


def why_too_long(mine, tree):
    """What is wrong with pyast's text of a tree if it has more tokens than Python's, or None."""
    other = python_text(tree)
    if other is not None and count_of_tokens(mine) > count_of_tokens(other):
        return f"more tokens than ast.unparse writes: {mine!r}"
    return None


def judged(program, data, judge, styles=PLAIN):
    """The finding of a source, whose text is judged by a function of it and its tree."""
    finding = examine(program, data, styles)
    tree, _ = python_tree(data) if finding.found == SAME else (None, None)
    why = judge(outcome_of(program, ["unparse"], data).out, tree) if tree is not None else None
    return finding._replace(found=None, why=why) if why else finding


def compare_case(program, judge, case):
    """The comparison of one source."""
    number, name, data = case
    started = time.perf_counter()
    finding = judged(program, data, judge, PLAIN if number % STYLED else STYLES)
    return Result(name, data, finding.found or UNEXPLAINED, finding.why, 0, time.perf_counter() - started, finding.brackets)


def results_of_cases(options, cases, judge):
    """The results of the cases: each a name and a source."""
    numbered = [(number, *case) for number, case in enumerate(cases)]
    work = functools.partial(compare_case, options.program, judge)
    return results_of(work, len(numbered), numbered, options.jobs, functools.partial(prepare, True))


def show_versions(options):
    """Prints what is compared with what."""
    print(f"pyast: {' '.join(options.program)}\nast: Python {sys.version.split()[0]}")


def show_results(options, results, judge):
    """Prints what was found, and answers the exit status."""
    failures = sorted((one for one in results if one.found == UNEXPLAINED), key=lambda one: one.name)
    for number, failure in enumerate(failures):
        show_failure(options.program, failure, number < options.smallest, functools.partial(judged, judge=judge))
    show_table(results, SAMPLES)
    show_brackets(results)
    return show_end(failures, len(results))
