#!/usr/bin/env python3
"""Finds how much stack pyast's `dump`, `unparse` and `dump --attributes` take on the deepest sources that they accept.

    bench/stack.py [PROGRAM ..]

PROGRAM is a built pyast, or several, as LLVM and as Rattle's own compiler build it; without one it is the built program of this checkout.
A run is tried with less and less stack, to 4 KB: the least with which it ends well is shown, in KB. The exit status is 0, but 1 where a
source isn't accepted within the stack of a login shell, and 2 where nothing could be measured.
"""

import argparse
import resource
import subprocess
import sys
import tempfile

from timers import built_program

COMMANDS = (("dump", "--whole"), ("unparse", "--whole"), ("dump", "--whole", "--attributes"))
# The stack that a login shell gives, and how close the least is found, in bytes.
STACK, STEP = 8 << 20, 4 << 10


def within(levels, line):
    """A line in so many nested `if` statements."""
    return "".join(f"{' ' * i}if x:\n" for i in range(levels)) + " " * levels + line + "\n"


def case(pattern):
    """A `match` statement with a pattern."""
    return f"match x:\n case {pattern}: pass\n"


def in_fields(within, brackets=0):
    """600 brackets, 599 in a field within them, and 599 in a field of that, with something within that has some of these."""
    last = 599 - brackets
    return "(" * 600 + "f'{" + "(" * 599 + 'f"{' + "(" * last + within + ")" * last + '}"' + ")" * 599 + "}'" + ")" * 600


def sources():
    """The name of each source, and the source."""
    yield "600 brackets", "(" * 600 + "x" + ")" * 600 + "\n"
    yield "249 `[(yield`", "[(yield " * 249 + "x" + ")]" * 249 + "\n"
    yield "499 `lambda`", "lambda: " * 499 + "x\n"
    yield "499 `lambda a=`", "lambda a=" * 499 + "x" + ": x" * 499 + "\n"
    yield "499 `[x for x in`", "[x for x in " * 499 + "x" + "]" * 499 + "\n"
    yield "499 nested `if`", within(499, "pass")
    yield "499 `lambda` in 499 `if`", within(499, "lambda: " * 499 + "x")
    yield "249 `[(yield` in 499 `if`", within(499, "[(yield " * 249 + "x" + ")]" * 249)
    yield "600 brackets, 599 in a field, 599 in a field of that", in_fields("x") + "\n"
    yield "the same, 495 `lambda` within, in 499 `if`", within(499, in_fields("lambda: " * 495 + "x"))
    yield "the same, 495 `lambda a=`", within(499, in_fields("lambda a=" * 495 + "x" + ": x" * 495))
    yield "the same, 495 `[x for x in`", within(499, in_fields("[x for x in " * 495 + "x" + "]" * 495, 495))
    yield "600 brackets of a pattern", case("(" * 600 + "_" + ")" * 600)
    yield "499 `[` of a pattern", case("[" * 499 + "_" + "]" * 499)
    yield "498 `A(` of a pattern", case("A(" * 498 + "_" + ")" * 498)
    yield "499 `{1:` of a pattern", case("{1: " * 499 + "_" + "}" * 499)
    yield "499 nested `match`", "".join(f"{' ' * 2 * i}match x:\n{' ' * (2 * i + 1)}case _:\n" for i in range(499)) + " " * 998 + "pass\n"


def ends_well(program, words, file, stack):
    """Whether a run with so much stack ends with status 0."""
    limit = lambda: resource.setrlimit(resource.RLIMIT_STACK, (stack, stack))
    done = subprocess.run([program, *words, file], stdout=subprocess.DEVNULL, stderr=subprocess.DEVNULL, preexec_fn=limit, check=False)
    return done.returncode == 0


def least_stack(program, words, file):
    """The least stack, to STEP, with which a run ends well, or None where a login shell's is too little."""
    low, high = 0, STACK // STEP
    if not ends_well(program, words, file, STACK):
        return None
    while high - low > 1:
        middle = (low + high) // 2
        low, high = (low, middle) if ends_well(program, words, file, middle * STEP) else (middle, high)
    return high * STEP


def main():
    parser = argparse.ArgumentParser(description=__doc__.split("\n", 1)[0])
    parser.add_argument("program", nargs="*")
    programs = [built_program(one) for one in parser.parse_args().program or [None]]
    status = 0
    for name, text in sources():
        with tempfile.NamedTemporaryFile("w", suffix=".py") as file:
            file.write(text)
            file.flush()
            found = [least_stack(program, words, file.name) for program in programs for words in COMMANDS]
        status |= None in found
        shown = "  ".join("too much" if one is None else f"{one >> 10:,} KB".rjust(9) for one in found)
        print(f"{name:<30}{shown}", flush=True)
    return status


if __name__ == "__main__":
    sys.exit(main())
