#!/usr/bin/env python3
"""Checks that each block of Rattle or antt in docs/LIBRARY.md and README.md is word for word in a file of the examples.

    conformance/quotes.py

The examples are crates/examples and crates/example_program; README.md quotes one of them too. The last line counts the blocks and functions; the exit
status is 0, but 1 where a block is in no file, or a public function of crates/examples in no block.
"""

import glob
import os
import re
import sys

TOP = os.path.dirname(os.path.dirname(os.path.abspath(__file__)))
BLOCK = re.compile(r"^```(?:rust|antt)\n(.*?)^```$", re.DOTALL | re.MULTILINE)
FILES = ("crates/examples/src/*.rt", "crates/examples/specs/*.antt", "crates/example_program/src/*.rt")
FUNCTION = re.compile(r"^pub fn (\w+)", re.MULTILINE)


def read(*parts):
    """A file's text."""
    with open(os.path.join(TOP, *parts), encoding="utf-8") as file:
        return file.read()


def main():
    page = read("docs", "LIBRARY.md") + read("README.md")
    paths = [path for files in FILES for path in sorted(glob.glob(os.path.join(TOP, files)))]
    texts = {path: read(path) for path in paths}
    blocks = [found[1] for found in BLOCK.finditer(page)]
    faults = []
    for block in blocks:
        # A block is whole lines of a file.
        if not any(("\n" + text).find("\n" + block) >= 0 for text in texts.values()):
            faults.append("is in no file of the examples: " + block.split("\n", 1)[0])
    quoted = set(FUNCTION.findall("\n".join(blocks)))
    faults.extend(f"is quoted nowhere: {name}" for text in texts.values() for name in FUNCTION.findall(text) if name not in quoted)
    for fault in faults:
        print(f"docs/LIBRARY.md or README.md: {fault}")
    print(f"{max(0, len(blocks) + len(quoted) - len(faults))} passed, {len(faults)} failed")
    return int(bool(faults))


if __name__ == "__main__":
    sys.exit(main())
