#!/usr/bin/env python3
"""Checks that random trees, as they are and changed, come back when they are written and read again.

    conformance/random_trees.py [--count N] [--seed N] [--jobs N] [--program PATH]

Sources of trees of Python 3.11 and of 3.12, of all classes of nodes, are made by chance, each expression in brackets of its own. The
program of bench/measures.py reads them, writes each statement by `unparse`, reads its text by `decode` and `parse`, and compares the two trees by `same`, in
both versions. It does so too with three trees that it makes of each, in which a part of an expression, an expression and a name come
from other statements: so they stand where they may not, or as what they may not be. Each tree has to come back where `well_formed` says
that it is well formed, and nowhere else. At least N statements are compared. The exit status is 0 where all are as they should be,
1 where one is not (the smallest source is shown), and 2 where nothing could be compared. Any Python from 3.11 on will do.
"""

import argparse
import functools
import os
import random
import re
import sys
import time

from common import TOP, refuse, results_of, run, smallest
from trees import Maker, source_of

PROGRAM = os.path.join(TOP, "bench", "measures", "out", "measures")
# The statements of a source, at least.
PORTION = 500
TOLD = re.compile(rb"(\d+) statements: (\d+) well formed in 3\.11, (\d+) in 3\.12; (\d+) changed: (\d+) and (\d+)\n")


class Deep(Maker):
    """Makes trees of those that it made before, so that they are deep and not wide."""

    def __init__(self, chance):
        super().__init__(chance, types=True)
        self.exprs, self.stmts = [], []

    def expr(self, depth):
        """One that was made before, now and then, where no more may be made."""
        if depth <= 0 and self.exprs and self.chance.randrange(3):
            return self.exprs.pop()
        return super().expr(depth)

    def stmt(self, depth):
        """One that was made before, where no more may be made."""
        return self.stmts.pop() if depth <= 0 and self.stmts else super().stmt(depth)

    def statements(self):
        """Some statements. No more than 160 expressions are nested, and no more than 16 statements."""
        for _ in range(self.chance.randrange(9)):
            for _ in range(self.chance.randrange(6)):
                self.exprs.append(self.expr(self.chance.randint(1, 2)))
            self.stmts.append(self.stmt(self.chance.randint(0, 2)))
        made, self.exprs, self.stmts = self.stmts, [], []
        return made


def source(seed, number):
    """A source of so many statements, the same for the same seed and number."""
    maker = Deep(random.Random(f"{seed}-{number}"))
    statements = []
    while len(statements) < PORTION:
        statements += maker.statements()
    return source_of(statements)


def counts(program, data):
    """What the program counts in a source, or what else it writes."""
    done = run([program, "random"], input=data)
    told = TOLD.fullmatch(done.out)
    if done.status != 0 or not told:
        return None, f"status {done.status}: {(done.out + done.err).decode('utf-8', 'backslashreplace')}"
    found = tuple(int(one) for one in told.groups())
    return (found, None) if found[0] == found[2] else (None, f"read, but not well formed: {done.out.decode()}")


def compare(program, seed, number):
    """What is counted in a source, or its number and what is written of it."""
    found, told = counts(program, source(seed, number))
    return found, number, told


def show(program, seed, number, told):
    """Shows what is written of a source, and the smallest one of which it is written."""
    data = source(seed, number)
    print(f"source {number} of the seed {seed}: {told}")
    if told.endswith("lost\n"):
        least = smallest(data, lambda less: (counts(program, less)[1] or "").endswith("lost\n"))
        print(f"  smallest source: {least!r}: {counts(program, least)[1]}")


def main():
    parser = argparse.ArgumentParser(description=__doc__.partition("\n")[0])
    parser.add_argument("--count", type=int, default=100_000, metavar="N", help="how many statements are compared, at least")
    parser.add_argument("--seed", type=int, default=1, metavar="N", help="what is drawn depends on it")
    parser.add_argument("--jobs", type=int, default=os.cpu_count() or 1, metavar="N", help="processes; default: cores")
    parser.add_argument("--program", default=PROGRAM, metavar="PATH", help="the built program of bench/measures.py")
    words = parser.parse_args()
    if not os.access(words.program, os.X_OK):
        refuse(f"{words.program} isn't there: bench/measures.py builds it")
    started = time.monotonic()
    sources = -(-words.count // PORTION)
    results = results_of(functools.partial(compare, words.program, words.seed), sources, range(sources), words.jobs)
    wrong = sorted((number, told) for found, number, told in results if not found)
    for number, told in wrong[:10]:
        show(words.program, words.seed, number, told)
    sums = [sum(one) for one in zip((0,) * 6, *(found for found, _, _ in results if found))]
    print("{} statements: {} well formed in 3.11, {} in 3.12; {} changed: {} and {}".format(*sums))
    told = f"{len(wrong)} of {sources} sources are wrong" if wrong else "all came back where they should, and nowhere else"
    print(f"{told}, in {time.monotonic() - started:.0f} s")
    return int(bool(wrong))


if __name__ == "__main__":
    sys.exit(main())
