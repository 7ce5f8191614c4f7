#!/usr/bin/env python3
"""Times `pyast tokens` beside an ordinary lister, written by hand in Rust, on the 10 MB of ASCII that run.py makes.

    bench/plain.py [--program PATH] [--rounds N]

The lister is plain_lister/main.rs, which rustc builds into a temporary folder. Both programs first write their listings to files, which have to
be the same. Then they take turns, writing to /dev/null, and the least of each one's times counts.

The exit status is 0, also where there is no rustc and nothing is measured, but 1 where the listings differ, and 2 where nothing could be
measured for another reason.
"""

import argparse
import filecmp
import os
import platform
import shutil
import subprocess
import sys
import tempfile

from run import MEGABYTE, Runs, apart, library_of_python_311, show_machine, source_path, write_sources
from timers import built_program, refuse

SOURCE = os.path.join(os.path.dirname(os.path.abspath(__file__)), "plain_lister", "main.rs")
SIZE = 10
# The instructions that rustc may count on.
TARGETS = {"x86_64": ["-C", "target-cpu=x86-64-v2"]}


def build(rustc, folder):
    """Builds the lister, and answers its path."""
    path = os.path.join(folder, "plain_lister")
    if subprocess.run([rustc, "--edition", "2021", "-O", *TARGETS.get(platform.machine(), []), "-o", path, SOURCE], check=False).returncode:
        refuse(f"{SOURCE} doesn't compile")
    return path


def write_listing(words, path):
    """Writes what a program lists to a file."""
    with open(path, "wb") as file:
        if subprocess.run(words, stdout=file, check=False).returncode:
            refuse(f"{' '.join(words)} failed")


def measure(options, rustc, folder):
    """Makes the source, measures both programs and prints the table; answers the exit status."""
    _, library = library_of_python_311()
    plain = build(rustc, folder)
    show_machine()
    apart(lambda: write_sources(folder, library, "ASCII", bytes.isascii, [SIZE]))
    path = source_path(folder, "ASCII", SIZE)
    rows = [Runs("pyast tokens", [options.program, "tokens", path]), Runs("plain_lister", [plain, path])]
    listings = [os.path.join(folder, f"listing-{number}") for number in range(len(rows))]
    for row, listing in zip(rows, listings):
        write_listing(row.words, listing)
    if not filecmp.cmp(*listings, shallow=False):
        print("The listings differ: nothing is measured.")
        return 1
    for _ in range(options.rounds):
        for row in rows:
            row.run()
    megabytes = os.path.getsize(path) / MEGABYTE
    print("| source, MB | program | processor s | clock s | MB/s | peak MB |\n|---|---|---|---|---|---|")
    for row in rows:
        print(f"| {megabytes:.1f} | {row.name} | {row.processor:.3f} | {row.clock:.3f} | {megabytes / row.processor:.1f} | {row.shown_memory()} |")
    print(f"\nThe listings are the same, of {os.path.getsize(listings[0]) / MEGABYTE:.0f} MB; each time is the least of {options.rounds}. "
          f"pyast tokens takes {rows[0].processor / rows[1].processor:.2f} times as long as plain_lister.")
    return 0


def main():
    parser = argparse.ArgumentParser(description="Times `pyast tokens` beside an ordinary lister in Rust.")
    parser.add_argument("--program", metavar="PATH", help="the built program; default: that of this project")
    parser.add_argument("--rounds", type=int, default=5, metavar="N", help="how often each is run; default: 5")
    options = parser.parse_args()
    rustc = shutil.which("rustc")
    if not rustc:
        print("There is no rustc on the PATH, which plain_lister is built with: nothing is measured.")
        return 0
    options.program = built_program(options.program)
    with tempfile.TemporaryDirectory(prefix="pyast-bench-") as folder:
        return measure(options, rustc, folder)


if __name__ == "__main__":
    sys.exit(main())
