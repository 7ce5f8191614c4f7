#!/usr/bin/env python3
"""Times `pyast dump --whole` on numbers.

    bench/numerals.py [COMMAND ..] [--program PATH] [--quick]

Sources of 1, 2, 5 and 10 MB: floats and integers of Python's library, as often as they stand there, in turn; doubles of 64 random bits; and a
single number of as many digits. The time has to grow as the source does: where a megabyte takes more than 1.1 times what it took at the size
before, the line is marked. After that single numbers are measured, integers of 4,300 digits among them: the time of twice as many lines less that of
some lines, divided by their count, has to be less than a millisecond. COMMAND is `dump` or `unparse`; without one it is `dump`.

Times are those of the processor, the least of three rounds; growth from less than 20 ms isn't judged. The exit status is 0, but 1 where a
line is marked, and 2 where nothing could be measured.
"""

import argparse
import os
import random
import struct
import sys
import tempfile
import tokenize

from growth import ACCEPTED, LARGEST_GROWTH, REFUSED, SMALLEST_TIME, write_bytes
from run import MEGABYTE, ROUNDS, Runs, apart, library_files, library_of_python_311, show_machine
from timers import TOP, built_program, refuse

sys.path.append(os.path.join(TOP, "conformance"))

from values import tokens_in  # noqa: E402

SIZES = (1, 2, 5, 10)
COMMANDS = ("dump", "unparse")
# A source that takes longer isn't tried at the next size.
PATIENCE = 20
IN_A_LINE = 8
FLOATS = 2000
# The source of single numbers has about so many bytes, and that of half as many half of them.
SIZE_OF_SINGLES = 4 * MEGABYTE
GOAL = 0.001


# --- the sources ------------------------------------------------------------------------------------------------------


def is_float(text):
    """Whether a number token is a float."""
    return text[:2].lower() not in ("0x", "0o", "0b") and any(sign in text for sign in ".eE")


def library_numbers(library):
    """The floats and the integers of some files of the library, as often as they stand there."""
    floats, integers = [], []
    for path in library_files(library):
        for kind, text in tokens_in(path):
            if kind == tokenize.NUMBER and text[-1] not in "jJ":
                (floats if is_float(text) else integers).append(text)
        if len(floats) >= FLOATS:
            return floats, integers
    refuse(f"{library} has fewer than {FLOATS} floats")


def random_doubles():
    """Doubles of 64 random bits, less their signs, as Python writes them."""
    random_ = random.Random(1)
    return [repr(struct.unpack("<d", struct.pack("<Q", random_.getrandbits(64) % (2047 << 52)))[0]) for _ in range(20_000)]


def in_lines(*kinds):
    """A megabyte of lines of numbers, one of each kind in turn, drawn from those of the kind."""
    random_, lines, size = random.Random(1), [], 0
    while size < MEGABYTE:
        lines.append(f"[{', '.join(random_.choice(kinds[at % len(kinds)]) for at in range(IN_A_LINE))}]\n")
        size += len(lines[-1])
    return "".join(lines).encode()


def sources(library, folder):
    """The name of each source, a maker of so many megabytes of it, and how it ends."""
    path = os.path.join(folder, "lines.py")
    kinds = {"numbers of the library": lambda: library_numbers(library), "random doubles": lambda: [random_doubles()]}
    for name, numbers in kinds.items():
        apart(lambda numbers=numbers: write_bytes(path, in_lines(*numbers())))
        with open(path, "rb") as file:
            megabyte = file.read()
        yield name, lambda size, megabyte=megabyte: megabyte * size, ACCEPTED
    yield "one float of so many digits", lambda size: b"7." + b"3" * (size * MEGABYTE) + b"\n", ACCEPTED
    yield "one float of so many zeros", lambda size: b"0." + b"0" * (size * MEGABYTE) + b"7\n", ACCEPTED
    yield "one exponent of so many digits", lambda size: b"7e-" + b"3" * (size * MEGABYTE) + b"\n", ACCEPTED
    yield "one imaginary number of so many digits", lambda size: b"7" * (size * MEGABYTE) + b"j\n", ACCEPTED
    yield "one decimal integer", lambda size: b"7" * (size * MEGABYTE) + b"\n", REFUSED
    yield "one hexadecimal integer", lambda size: b"0x" + b"7" * (size * MEGABYTE) + b"\n", REFUSED


def single_numbers():
    """The name of each number whose time is measured, and the number."""
    value = random.Random(1).randrange(10**4299, 10**4300)
    yield "integer of 4,300 digits, decimal", str(value)
    yield "the same, hexadecimal", hex(value)
    yield "the same, octal", oct(value)
    yield "the same, binary", bin(value)
    yield "float of one digit", "0.5"
    yield "greatest double", repr(sys.float_info.max)
    yield "least double", "5e-324"
    yield "least double of 53 bits", repr(sys.float_info.min)
    # The digits of the least double of 53 bits and half the least double, which is halfway to the next.
    yield "float of 768 digits, halfway between two doubles", f"{(2**53 + 1) * 5**1075}e-1075"


# --- the measurements -------------------------------------------------------------------------------------------------


def row_of(options, command, folder, data):
    """What a command takes of a source."""
    path = os.path.join(folder, "source.py")
    apart(lambda: write_bytes(path, data()))
    row = Runs(command, [options.program, command, "--whole", path])
    for _ in range(1 if options.quick else ROUNDS):
        row.run()
    return row, os.path.getsize(path) / MEGABYTE


def measure_source(options, command, folder, source):
    """Prints what a command takes of a source, size by size; answers whether all is as it should be."""
    name, make, due = source
    well, before = True, None
    for size in SIZES[:2] if options.quick else SIZES:
        row, megabytes = row_of(options, command, folder, lambda size=size: make(size))
        taken = row.processor / megabytes
        growth = taken / before if before else None
        is_slow = growth is not None and growth > LARGEST_GROWTH / 2
        marks = "  more time than it may" * is_slow + f"  status {row.status}, and not {due}" * (row.status != due)
        print(f"| {command} | {name} | {megabytes:.1f} | {row.processor:.3f} | {1 / taken if taken else 0:.1f} | {row.shown_memory()} "
              f"| {f'{growth:.2f}' if growth else ''} |{marks}", flush=True)
        well &= not marks
        if row.processor > PATIENCE:
            break
        before = taken if row.processor > SMALLEST_TIME else None
    return well


def measure_single(options, command, folder, name, number):
    """Prints what a command takes of a line with a number; answers whether it is as it should be."""
    line = f"x = {number}\n".encode()
    count = SIZE_OF_SINGLES // len(line) // (8 if options.quick else 2)
    fewer, more = (row_of(options, command, folder, lambda times=times: line * (times * count))[0] for times in (1, 2))
    seconds = (more.processor - fewer.processor) / count
    marks = "  more time than it may" * (seconds > GOAL) + "  refused" * bool(fewer.status or more.status)
    print(f"| {command} | {name} | {count:,} | {seconds * 1e6:.2f} |{marks}", flush=True)
    return not marks


def measure(options, folder):
    """Measures all by each command; answers the exit status."""
    _, library = library_of_python_311()
    show_machine()
    print("| command | source | MB | processor s | MB/s | peak MB | growth |\n|---|---|---|---|---|---|---|", flush=True)
    well = True
    for source in sources(library, folder):
        for command in options.commands:
            well &= measure_source(options, command, folder, source)
    print("\n| command | number | lines | microseconds a line |\n|---|---|---|---|", flush=True)
    for name, number in single_numbers():
        for command in options.commands:
            well &= measure_single(options, command, folder, name, number)
    return int(not well)


def main():
    parser = argparse.ArgumentParser(description="Times `pyast dump --whole` on numbers.")
    parser.add_argument("commands", nargs="*", metavar="COMMAND", help="dump or unparse; default: dump")
    parser.add_argument("--program", metavar="PATH", help="the built program; default: that of this project")
    parser.add_argument("--quick", action="store_true", help="one round, on the smaller sources alone")
    options = parser.parse_args()
    options.commands = options.commands or COMMANDS[:1]
    if set(options.commands) - set(COMMANDS):
        parser.error(f"a COMMAND is one of {', '.join(COMMANDS)}")
    options.program = built_program(options.program)
    with tempfile.TemporaryDirectory(prefix="pyast-bench-") as folder:
        return measure(options, folder)


if __name__ == "__main__":
    sys.exit(main())
