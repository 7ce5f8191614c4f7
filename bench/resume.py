#!/usr/bin/env python3
"""Checks that resuming at a cursor takes no new listing: near the end of a source of 48 MB it has to take at most a tenth of
the time that listing up to there takes.

    bench/resume.py [--program PATH] [--timer PATH]

The cursor is taken by `pyast tokens --count`, after seven eighths of the entries. The timer is the program of
bench/measures.py, which is built where it isn't there; it lists up to the cursor (`Lister::resume_checked`),
resumes there (`Lister::resume`), and reports both times. The exit status is 0, but 1 where resuming takes longer or leaves
other entries than it should, and 2 where nothing could be measured.
"""

import argparse
import os
import re
import subprocess
import sys
import tempfile

from measures import PROGRAM
from timers import build, refuse

TOP = os.path.dirname(os.path.dirname(os.path.abspath(__file__)))
SIZE = 48_000_000
LARGEST_SHARE = 0.1
# Blocks, brackets, a literal of two lines and names past ASCII.
PIECE = """\
def area(shape, *rest):
    if shape.kind == 'circle':  # the commonest
        return 3.14159 * shape.radius ** 2
    return sum([one.width *
                one.height for one in (shape, *rest)])

größe = '''two
lines''' + "x" * 0x10
""".encode()
TOLD = re.compile(r"left (\d+)(?: (\d+))? list ([\d.]+)(ns|µs|ms|s) resume ([\d.]+)(ns|µs|ms|s)\s*")
SECONDS = {"ns": 1e-9, "µs": 1e-6, "ms": 1e-3, "s": 1.0}
ROUNDS = 3


def entry_count(program, path):
    """How many entries a source has: one a line."""
    process = subprocess.Popen([program, "tokens", path], stdout=subprocess.PIPE)
    count = 0
    while block := process.stdout.read(1 << 20):
        count += block.count(b"\n")
    if process.wait():
        refuse(f"{program} tokens ended with status {process.returncode}")
    return count


def cursor_after(program, path, count):
    """The text of the cursor after so many entries: what the last line says."""
    process = subprocess.Popen([program, "tokens", "--count", str(count), path], stdout=subprocess.PIPE)
    end = b""
    while block := process.stdout.read(1 << 20):
        end = (end + block)[-4096:]
    word, _, cursor = end.decode(errors="replace").splitlines()[-1].partition(" ")
    if process.wait() or word != "cursor":
        refuse(f"{program} tokens --count wrote no cursor, with status {process.returncode}")
    return cursor


def times(timer, path, cursor):
    """The entries that were left, and the seconds of listing and of resuming: of some runs, the least of each."""
    left, listing, resuming = set(), [], []
    for _ in range(ROUNDS):
        with open(path, "rb") as file:
            done = subprocess.run([timer, "resume", cursor], stdin=file, stdout=subprocess.PIPE, check=False)
        told = TOLD.fullmatch(done.stdout.decode())
        if done.returncode or not told:
            refuse(f"{timer} ended with status {done.returncode} and wrote {done.stdout!r}")
        left |= {int(one) for one in told.group(1, 2) if one}
        listing.append(float(told[3]) * SECONDS[told[4]])
        resuming.append(float(told[5]) * SECONDS[told[6]])
    return left, min(listing), min(resuming)


def main():
    parser = argparse.ArgumentParser(description="Checks that resuming at a cursor takes no new listing.")
    parser.add_argument("--program", default=os.path.join(TOP, "crates", "pyast", "out", "pyast"), metavar="PATH",
                        help="the built program; default: that of this project")
    parser.add_argument("--timer", default=PROGRAM, metavar="PATH",
                        help="the built program of bench/measures.py")
    options = parser.parse_args()
    program, timer = os.path.abspath(options.program), os.path.abspath(options.timer)
    if not os.access(program, os.X_OK):
        refuse(f"{program} isn't there: run {os.path.join(TOP, 'pyast')} once, which unpacks it")
    build(timer)
    with tempfile.TemporaryDirectory(prefix="pyast-bench-") as folder:
        path = os.path.join(folder, "source.py")
        with open(path, "wb") as file:
            file.write(PIECE * (SIZE // len(PIECE)))
        entries = entry_count(program, path)
        count = entries * 7 // 8
        cursor = cursor_after(program, path, count)
        left, listing, resuming = times(timer, path, cursor)
    share = resuming / listing
    well = left == {entries - count} and share <= LARGEST_SHARE
    print(f"{SIZE / 1e6:.0f} MB, {entries} entries; the cursor after {count} of them: {cursor}")
    print(f"left: {' and '.join(map(str, sorted(left)))}, where {entries - count} should be")
    print(f"listing up to the cursor {listing:.3f} s, resuming there {resuming * 1e6:.2f} µs: {share:.1e} of it; {LARGEST_SHARE} is allowed")
    print("as it should be" if well else "NOT as it should be")
    return int(not well)


if __name__ == "__main__":
    sys.exit(main())
