#!/usr/bin/env python3
"""Tries 44 ways to nest an expression as deep as it is accepted, within the most brackets and statements, in some bytes of stack.

    bench/shapes.py [PROGRAM [BYTES]]

PROGRAM is a built pyast, by default that of this checkout, and BYTES the stack that `dump --whole --attributes` and `unparse --whole` get, by
default 4,200,000. Each way is written with how often it was nested and the two statuses. The exit status is 0, and 1 where one isn't 0.
"""

import os
import resource
import subprocess
import sys

TOP = os.path.dirname(os.path.dirname(os.path.abspath(__file__)))
# What opens and closes a level, and how many brackets and how much height a level takes.
SHAPES = (
    ("lambda: ", "", 0, 1), ("lambda a=", ": x", 0, 1), ("lambda *, a=", ": x", 0, 1), ("lambda a, /, b=", ": x", 0, 1),
    ("[x for x in ", "]", 1, 1), ("[x for x in y if ", "]", 1, 1), ("[", " for x in y]", 1, 1), ("{x for x in ", "}", 1, 1),
    ("{", " for x in y}", 1, 1), ("{x: y for x in ", "}", 1, 1), ("{x: ", "}", 1, 1), ("{", ": x}", 1, 1), ("{**", "}", 1, 1), ("{", "}", 1, 1),
    ("(x for x in ", ")", 1, 1), ("f(x for x in ", ")", 1, 2), ("f(", ")", 1, 1), ("f(a=", ")", 1, 1), ("f(*", ")", 1, 2), ("f(**", ")", 1, 1),
    ("a[", "]", 1, 1), ("a[:", "]", 1, 2), ("a[x, ", "]", 1, 2), ("a[*", "]", 1, 3), ("a[::", "]", 1, 2), ("(", ",)", 1, 1), ("(*", ",)", 1, 2),
    ("(x, ", ")", 1, 1), ("[*", "]", 1, 2), ("await (", ")", 1, 1), ("-", "", 0, 1), ("not ", "", 0, 1), ("x**", "", 0, 1), ("x+(", ")", 1, 1),
    ("x if y else ", "", 0, 1), ("(y := ", ")", 1, 1), ("(", " if x else y)", 1, 1), ("x<(", ")", 1, 1), ("x and (", ")", 1, 1),
    ("(yield ", ")", 1, 1), ("(yield from ", ")", 1, 1), ("[(yield ", ")]", 2, 2), ("(", ").a", 1, 1), ("[x async for x in ", "]", 1, 1),
)


def within(levels, line):
    """A line in so many nested statements."""
    return "".join(" " * level + "if x:\n" for level in range(levels)) + " " * levels + line + "\n"


def in_fields(text, brackets):
    """A text with so many brackets in a field of an f-string in a field, with as many brackets round each as are accepted."""
    last = 599 - brackets
    return "(" * 600 + "f'{" + "(" * 599 + 'f"{' + "(" * last + text + ")" * last + '}"' + ")" * 599 + "}'" + ")" * 600


def status_of(program, words, size, source):
    """The status of a command in so many bytes of stack."""
    limit = lambda: resource.setrlimit(resource.RLIMIT_STACK, (size, size))
    return subprocess.run([program, *words], input=source.encode(), stdout=subprocess.DEVNULL, stderr=subprocess.PIPE, preexec_fn=limit, check=False).returncode


def main(program=f"{TOP}/crates/pyast/out/pyast", size="4200000"):
    failed = False
    for opening, closing, brackets, height in SHAPES:
        placed, written = 1, 1
        for count in range(495 // height, 0, -1):
            if brackets * count <= 599:
                source = within(499, in_fields(opening * count + "x" + closing * count, brackets * count))
                placed = status_of(program, ["dump", "--whole", "--attributes"], int(size), source)
                if placed != 1:
                    written = status_of(program, ["unparse", "--whole"], int(size), source)
                    break
        failed |= placed != 0 or written != 0
        print(f"{opening + 'x' + closing:24} {count:4} levels, statuses {placed} and {written}", flush=True)
    return int(failed)


if __name__ == "__main__":
    sys.exit(main(*sys.argv[1:]))
