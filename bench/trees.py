#!/usr/bin/env python3
"""Times what is done with large trees, and finds how deep a tree may be: `drop`, `height`, `copy`, `same` and `dump` of pytree.

    bench/trees.py [--timer PATH] [--statements N]

The timer is the program of bench/measures.py, which is built where it isn't there; beside it comes that of the other compiler, for
--timer. Of a tree of N statements it reports how long each call takes, and of `dump` the megabytes of text a
second; of a tree of one statement how many expressions may be nested before the stack of 8 MB ends the program. The exit
status is 0, 1 where `dump` writes less than 200 MB a second, and 2 where nothing could be measured.
"""

import argparse
import os
import resource
import subprocess
import sys

from measures import PROGRAM
from timers import build, refuse

CALLS = ("drop", "height", "copy", "same", "dump")
STACK = 8 << 20
LEAST_SPEED = 200
DEEPEST = 1 << 22
ROUNDS = 5


def limit_stack():
    """The stack that a login shell gives."""
    resource.setrlimit(resource.RLIMIT_STACK, (STACK, STACK))


def told(timer, call, shape, count):
    """What the timer reports of a call, or None where the stack didn't hold the tree."""
    done = subprocess.run([timer, "trees", call, shape, str(count)], stdout=subprocess.PIPE, stderr=subprocess.DEVNULL, preexec_fn=limit_stack, check=False)
    if done.returncode > 0:
        refuse(f"{timer} trees {call} {shape} {count} ended with status {done.returncode}")
    return None if done.returncode else [int(word) for word in done.stdout.split()]


def deepest(timer, call):
    """The greatest depth, to within a hundredth, of a tree on which a call and the tree's drop end rightly."""
    low, high = 1, 2
    while high <= DEEPEST and told(timer, call, "deep", high):
        low, high = high, 2 * high
    while high <= DEEPEST and high - low > low // 100 + 1:
        middle = (low + high) // 2
        low, high = (middle, high) if told(timer, call, "deep", middle) else (low, middle)
    return low


def main():
    parser = argparse.ArgumentParser(description="Times what is done with large trees, and finds how deep a tree may be.")
    parser.add_argument("--timer", default=PROGRAM, metavar="PATH",
                        help="the built program of bench/measures.py")
    parser.add_argument("--statements", type=int, default=100_000, metavar="N", help="the statements of the wide tree")
    options = parser.parse_args()
    timer = os.path.abspath(options.timer)
    build(timer)
    speed = 0
    print("| call | ms | MB of text a second | deepest |\n|---|---|---|---|")
    for call in CALLS:
        runs = [told(timer, call, "wide", options.statements) for _ in range(ROUNDS)]
        if None in runs:
            refuse(f"{call} of a tree of {options.statements} statements was ended by a signal")
        nanoseconds, *size = min(runs)
        if size:
            speed = size[0] * 1e3 / nanoseconds
        print(f"| `{call}` | {nanoseconds / 1e6:.1f} | {f'{speed:.0f}' if size else '-'} | {deepest(timer, call):,} |")
    return int(speed < LEAST_SPEED)


if __name__ == "__main__":
    sys.exit(main())
