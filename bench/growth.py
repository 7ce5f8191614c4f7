#!/usr/bin/env python3
"""Runs pyast's commands on hostile sources, each at two sizes, and prints how their time and memory grow.

    bench/growth.py [COMMAND ..] [--program PATH] [--only TEXT] [--options]

COMMAND is `tokens`, `dump`, `unparse` or `check`; without one all are run. Each source is run as it is, and with a character after it that begins
no token; with --options also with the options of each command. Twice the input has to take at most 2.2 times the time and 2.2 times the memory; a line that takes more is marked. Times of less than
20 ms are mostly the start of a process, and peaks of less than 64 MB are in part what each run takes: neither is judged. Each source has to be
accepted or refused as its table says. All run within the stack of a login shell.

The exit status is 0, but 1 where a run grew more or ended otherwise, and 2 where nothing could be measured.
"""

import argparse
import collections
import contextlib
import os
import resource
import sys
import tempfile

from run import MEGABYTE, ROUNDS, Runs, apart, show_machine
from timers import built_program

LARGEST_GROWTH = 2.2
SMALLEST_TIME = 0.02
SMALLEST_PEAK = 64
ACCEPTED, REFUSED = 0, 1
COMMANDS = ("tokens", "dump", "unparse", "check")
# The options that change what a command does with a source, each time beside those that the source needs.
OPTIONS = {
    "tokens": (["-e"], ["--count", "1000000000"]), "unparse": (["--py312"], ["--show"]), "check": (["--py312"], ["--show"]),
    "dump": (["--attributes"], ["--indent", "16"], ["--bare"], ["--py312"], ["--show"]),
}
# The stack that a login shell gives.
STACK = 8 << 20

# A source: its name, a maker of one of size 1 or 2, how each command answers it, and the options by which they are run.
Source = collections.namedtuple("Source", "name make dues options", defaults=((),))


# --- the sources ------------------------------------------------------------------------------------------------------


def levels(count):
    """So many indentation levels, closed all at once; the source has about half their square in bytes."""
    return b"".join(b" " * i + b"if x:\n" for i in range(count)) + b" " * count + b"y\n" + b"z\n"


def nested(count):
    """A name in so many brackets."""
    return b"(" * count + b"x" + b")" * count


def sources_of_lines():
    """What is hard to list: the name of each kind of source, a maker of one of size 1 or 2, how `tokens` answers it, and how the others do."""
    yield "one line of 10,000,000 characters", lambda n: b"abc + " * (n * 833_333) + b"x\n", ACCEPTED, REFUSED
    yield "one name of 10,000,000 characters", lambda n: b"a" * (n * 5_000_000) + b"\n", ACCEPTED, ACCEPTED
    yield "one string of 10,000,000 characters", lambda n: b"'" + b"a" * (n * 5_000_000) + b"'\n", ACCEPTED, ACCEPTED
    yield "100,000 nested brackets", lambda n: b"(" * (n * 50_000) + b")" * (n * 50_000) + b"\n", ACCEPTED, REFUSED
    yield "100,000 open brackets", lambda n: b"(" * (n * 50_000) + b"\n", REFUSED, REFUSED
    yield "a literal of 100,000 lines", lambda n: b"'''" + b"a b c\n" * (n * 50_000) + b"'''\n", ACCEPTED, ACCEPTED
    yield "a literal that is not ended", lambda n: b"x = '''" + b"a\n" * (n * 1_000_000), REFUSED, REFUSED
    yield "2,000,000 blank lines", lambda n: b"\n" * (n * 1_000_000), ACCEPTED, ACCEPTED
    yield "1,000,000 joins alone", lambda n: b"\\\n" * (n * 500_000) + b"x\n", ACCEPTED, ACCEPTED
    yield "1,000,000 joins, then the end", lambda n: b"\\\n" * (n * 500_000), REFUSED, REFUSED
    yield "1,000,000 joins, then a bracket", lambda n: b"\\\n" * (n * 500_000) + b")\n", REFUSED, REFUSED
    yield "1,000,000 joined lines", lambda n: b"x = 1 " + b"\\\n" * (n * 500_000) + b"\n", ACCEPTED, ACCEPTED
    yield "names past ASCII", lambda n: "\u00e9 = \u00fc\n".encode() * (n * 300_000), ACCEPTED, ACCEPTED
    yield "10,000 indentation levels", lambda n: levels((7_071, 10_000)[n - 1]), ACCEPTED, REFUSED


def sources_of_trees():
    """What is hard to read and to write as a tree, in the same way, but for `tokens`."""
    yield "100,000 lines `elif`", lambda n: b"if a: pass\n" + b"elif a: pass\n" * (n * 50_000), REFUSED
    yield "100,000 `+` without operands", lambda n: b"x" + b" +" * (n * 50_000) + b"\n", REFUSED
    yield "a sum of 100,000", lambda n: b"x" + b"+x" * (n * 50_000) + b"\n", REFUSED
    yield "100,000 signs `-`", lambda n: b"-" * (n * 50_000) + b"x\n", REFUSED
    yield "a chain of 100,000 attributes", lambda n: b"x" + b".a" * (n * 50_000) + b"\n", REFUSED
    yield "600 brackets on each of 10,000 lines", lambda n: (nested(600) + b"\n") * (n * 5_000), ACCEPTED
    yield "600 brackets around each of 10,000 elements", lambda n: b"[" + (nested(599) + b",\n") * (n * 5_000) + b"]\n", ACCEPTED
    yield "249 nested `yield`, 1,000 times", lambda n: (b"[(yield " * 249 + b"x" + b")]" * 249 + b"\n") * (n * 500), ACCEPTED
    yield "a sum of 499 on each of 1,000 lines", lambda n: (b"x" + b"+x" * 499 + b"\n") * (n * 500), ACCEPTED
    yield "a list of 10 MB on one line", lambda n: b"[" + b"abc, " * (n * 1_000_000) + b"x]\n", ACCEPTED
    yield "a string of 2,000,000 escapes", lambda n: b"'" + b"\\0\\'" * (n * 500_000) + b"\"'\n", ACCEPTED
    yield "1,000,000 strings side by side", lambda n: b"(" + b"'a'\n" * (n * 500_000) + b")\n", ACCEPTED
    yield "1,000,000 operands of `or`", lambda n: b"x or " * (n * 500_000) + b"x\n", ACCEPTED
    yield "1,000,000 comparisons in a chain", lambda n: b"x < " * (n * 500_000) + b"x\n", ACCEPTED
    yield "200,000 parameters", lambda n: b"def f(" + b"".join(b"a%d, " % i for i in range(n * 100_000)) + b"): pass\n", ACCEPTED
    yield "200,000 arguments", lambda n: b"f(" + b"a, b=c, " * (n * 50_000) + b")\n", REFUSED
    yield "200,000 items of `with`", lambda n: b"with (" + b"a as b, " * (n * 100_000) + b"): pass\n", ACCEPTED
    yield "200,000 names of an import", lambda n: b"import " + b"a.b as c, " * (n * 100_000) + b"x\n", ACCEPTED
    yield "an import of 1,000,000 points", lambda n: b"from " + b"." * (n * 500_000) + b" import x\n", ACCEPTED
    yield "1,000,000 simple statements on one line", lambda n: b"x; " * (n * 500_000) + b"x\n", ACCEPTED
    yield "100,000 decorators", lambda n: b"@d\n" * (n * 50_000) + b"def f(): pass\n", ACCEPTED
    yield "100,000 decorators of nothing", lambda n: b"@d\n" * (n * 50_000) + b"x\n", REFUSED
    yield "100,000 clauses `except`", lambda n: b"try: pass\n" + b"except a: pass\n" * (n * 50_000), ACCEPTED
    yield "1,000,000 short lines", lambda n: b"x\n" * (n * 500_000), ACCEPTED
    yield "499 levels, 20 times", lambda n: levels(499)[:-2] * (n * 10), ACCEPTED
    yield "498 lines `elif`, 200 times", lambda n: (b"if a: pass\n" + b"elif a: pass\n" * 498) * (n * 100), ACCEPTED
    yield "50,000 blocks that open and close", lambda n: b"if x:\n if y:\n  z\n" * (n * 25_000), ACCEPTED
    yield "names in another form", lambda n: "\u00e9 = \ufb01\n".encode() * (n * 300_000), ACCEPTED


def sources_of_formatted():
    """What is hard in f-strings, in the same way, for `dump --whole` and `unparse --whole`."""
    yield "an f-string of 10,000,000 characters", lambda n: b"f'" + b"a" * (n * 5_000_000) + b"'\n", ACCEPTED
    yield "an f-string of 1,000,000 pairs of braces", lambda n: b"f'" + b"{{" * (n * 500_000) + b"'\n", ACCEPTED
    yield "an f-string of 1,000,000 pairs of braces and `{`", lambda n: b"f'" + b"{{" * (n * 500_000) + b"{'\n", REFUSED
    yield "an f-string of 1,000,000 escapes", lambda n: b"f'" + b"\\n\\'" * (n * 250_000) + b"'\n", ACCEPTED
    yield "an f-string of 1,000,000 lines", lambda n: b"f'''" + b"a\n" * (n * 500_000) + b"'''\n", ACCEPTED
    yield "an f-string of 1,000,000 fields", lambda n: b"f'" + b"{a}" * (n * 500_000) + b"'\n", ACCEPTED
    yield "an f-string of 1,000,000 fields, and one without a name", lambda n: b"f'" + b"{a}" * (n * 500_000) + b"{}'\n", REFUSED
    yield "an f-string of 200,000 fields with all parts", lambda n: b"f'" + b"b {a=!r:>{w}.3} " * (n * 100_000) + b"'\n", ACCEPTED
    yield "a field with a name of 10,000,000 characters", lambda n: b"f'{" + b"a" * (n * 5_000_000) + b"}'\n", ACCEPTED
    yield "a field with a list of 1,000,000", lambda n: b"f'{[" + b"abc, " * (n * 500_000) + b"x]}'\n", ACCEPTED
    yield "a field with a string of 10,000,000 characters", lambda n: b"f'{\"" + b"a" * (n * 5_000_000) + b"\"}'\n", ACCEPTED
    yield "a field of 10,000,000 blanks and a name", lambda n: b"f'{" + b" " * (n * 5_000_000) + b"a}'\n", ACCEPTED
    yield "a field with 1,000,000 `==`", lambda n: b"f'{a" + b"==a" * (n * 500_000) + b"}'\n", ACCEPTED
    yield "a field with a sum of 100,000", lambda n: b"f'{x" + b"+x" * (n * 50_000) + b"}'\n", REFUSED
    yield "a field with 1,000,000 open brackets", lambda n: b"f'{" + b"(" * (n * 500_000) + b"}'\n", REFUSED
    yield "599 brackets in each of 10,000 fields", lambda n: b"f'" + (b"{" + nested(599) + b"}") * (n * 5_000) + b"'\n", ACCEPTED
    yield "497 signs in each of 1,000 fields", lambda n: b"f'" + (b"{" + b"-" * 497 + b"x}") * (n * 500) + b"'\n", ACCEPTED
    yield "a format spec of 10,000,000 characters", lambda n: b"f'{x:" + b"a" * (n * 5_000_000) + b"}'\n", ACCEPTED
    yield "a format spec of 1,000,000 fields", lambda n: b"f'{x:" + b"{a}" * (n * 500_000) + b"}'\n", ACCEPTED
    yield "1,000,000 nested format specs", lambda n: b"f'" + b"{x:" * (n * 500_000) + b"'\n", REFUSED
    yield "a nested f-string of 1,000,000 fields", lambda n: b"f'{f\"" + b"{a}" * (n * 500_000) + b"\"}'\n", ACCEPTED
    yield "1,000,000 nested f-strings", lambda n: b"f'" + b"{f\"{a}\"}" * (n * 500_000) + b"'\n", ACCEPTED
    yield "1,000,000 f-strings side by side", lambda n: b"(" + b"f'{a}b'\n" * (n * 500_000) + b")\n", ACCEPTED
    yield "1,000,000 strings and an f-string side by side", lambda n: b"(u'a'" + b"'a'\n" * (n * 500_000) + b"f'{a}')\n", ACCEPTED
    yield "1,000,000 lines with an f-string", lambda n: b"f'{x}'\n" * (n * 500_000), ACCEPTED


def with_fault(source):
    """A source with a fault of the listing after it, before its last line end."""
    make = lambda n: source.make(n).removesuffix(b"\n") + b"$\n"  # noqa: E731
    return Source(f"{source.name}, and `$`", make, dict.fromkeys(source.dues, REFUSED), source.options)


def all_sources():
    """All sources, as they are and with a fault after them."""
    for name, make, listed, read in sources_of_lines():
        yield Source(name, make, {"tokens": listed, "dump": read, "unparse": read, "check": read})
    for name, make, read in sources_of_trees():
        yield Source(name, make, {"dump": read, "unparse": read, "check": read})
    for name, make, read in sources_of_formatted():
        yield Source(name, make, {"dump": read, "unparse": read, "check": read}, ("--whole",))


# --- the table --------------------------------------------------------------------------------------------------------


def limit_stack():
    """The stack that a login shell gives, here and in all programs that are started from here."""
    with contextlib.suppress(ValueError, OSError):
        resource.setrlimit(resource.RLIMIT_STACK, (STACK, resource.getrlimit(resource.RLIMIT_STACK)[1]))


def write_bytes(path, data):
    """Writes a source."""
    with open(path, "wb") as file:
        file.write(data)


def show_growth(command, half, whole, megabytes, due):
    """Prints what a command took of half a source and of the whole; answers whether it is as it should be."""
    time, memory = whole.processor / half.processor, whole.memory / half.memory
    is_slow = time > LARGEST_GROWTH and whole.processor > SMALLEST_TIME
    is_large = memory > LARGEST_GROWTH and whole.memory > SMALLEST_PEAK
    statuses = sorted({half.status, whole.status})
    marks = "  more time than it may" * is_slow + "  more memory than it may" * is_large + f"  status {statuses}" * (statuses != [due])
    print(f"{command:9}{whole.name:60}{megabytes:8.1f}{half.processor * 1e3:10.0f}{whole.processor * 1e3:11.0f}{time:8.2f}"
          f"{half.shown_memory():>10}{whole.shown_memory():>11}{memory:8.2f}{marks}", flush=True)
    return not marks


def measure(program, commands, source, folder, with_options):
    """Measures a source of two sizes by those of some commands that it is for, by each of their options too if asked; answers whether all is well."""
    paths = [os.path.join(folder, f"{size}.py") for size in (1, 2)]
    for size, path in enumerate(paths, 1):
        apart(lambda size=size, path=path: write_bytes(path, source.make(size)))
    well = True
    for command, way in ((command, way) for command in commands for way in ([], *(OPTIONS[command] if with_options else ()))):
        rows = [Runs(source.name, [program, command, *source.options, *way, path]) for path in paths]
        for _ in range(ROUNDS):
            for row in rows:
                row.run()
        if way:
            print(f"{command} {' '.join(way)}:")
        well &= show_growth(command, *rows, os.path.getsize(paths[1]) / MEGABYTE, source.dues[command])
    return well


def main():
    parser = argparse.ArgumentParser(description="Runs pyast's commands on hostile sources, each at two sizes.")
    parser.add_argument("commands", nargs="*", metavar="COMMAND", help="tokens, dump, unparse or check; default: all")
    parser.add_argument("--program", metavar="PATH", help="the built program; default: that of this project")
    parser.add_argument("--only", default="", metavar="TEXT", help="only the sources with this text in their names")
    parser.add_argument("--options", action="store_true", help="each command with each of its options too")
    options = parser.parse_args()
    if set(options.commands) - set(COMMANDS):
        parser.error(f"a COMMAND is one of {', '.join(COMMANDS)}")
    program, commands = built_program(options.program), [one for one in COMMANDS if one in (options.commands or COMMANDS)]
    show_machine()
    limit_stack()
    print(f"{'command':9}{'source':60}{'MB':>8}{'half, ms':>10}{'whole, ms':>11}{'growth':>8}{'half, MB':>10}{'whole, MB':>11}{'growth':>8}")
    sources = list(all_sources())
    with tempfile.TemporaryDirectory(prefix="pyast-bench-") as folder:
        found = [measure(program, [one for one in commands if one in source.dues], source, folder, options.options) for source in [*sources, *map(with_fault, sources)]
                 if options.only in source.name and set(commands) & set(source.dues)]
    return int(not all(found))


if __name__ == "__main__":
    sys.exit(main())
