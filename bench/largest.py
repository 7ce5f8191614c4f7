#!/usr/bin/env python3
"""Runs pyast's commands on a source of as many bytes as one may have, 1,073,741,824, and on one with a byte more.

    bench/largest.py [COMMAND ..] [--program PATH]

The source has comments alone, a line a megabyte long, so that its tree is empty. Each command has to accept the first, and to report that the
second can't be read. COMMAND is `tokens`, `dump`, `unparse` or `check`; without one all are run, each with its options too. It takes some gigabytes of memory, and one on the
disk. The exit status is 0, but 1 where a command ended otherwise, and 2 where nothing could be run.
"""

import argparse
import os
import sys
import tempfile

from run import Runs, show_machine
from timers import built_program

LARGEST = 1 << 30
LINE = b"#" * ((1 << 20) - 1) + b"\n"
COMMANDS = {
    "tokens": ([], ["-e"], ["--count", "1000000000"]), "unparse": ([], ["--whole", "--py312"], ["--show"]), "check": ([], ["--whole", "--py312"], ["--show"]),
    "dump": ([], ["--attributes"], ["--bare", "--indent", "16"], ["--whole", "--py312"], ["--show"]),
}
WELL, UNREAD = 0, 3


def write_source(path, size):
    """Writes a source of so many bytes."""
    with open(path, "wb") as file:
        for left in range(size, 0, -len(LINE)):
            file.write(LINE[:left])


def main():
    parser = argparse.ArgumentParser(description="Runs pyast's commands on the longest source that one may have, and on a longer one.")
    parser.add_argument("commands", nargs="*", metavar="COMMAND", help="tokens, dump, unparse or check; default: all")
    parser.add_argument("--program", metavar="PATH", help="the built program; default: that of this project")
    options = parser.parse_args()
    if set(options.commands) - set(COMMANDS):
        parser.error(f"a COMMAND is one of {', '.join(COMMANDS)}")
    program, commands, well = built_program(options.program), options.commands or COMMANDS, True
    show_machine()
    print("| command | bytes | status | processor s | peak MB |\n|---|---|---|---|---|")
    with tempfile.TemporaryDirectory(prefix="pyast-bench-") as folder:
        path = os.path.join(folder, "largest.py")
        for size, due in ((LARGEST, WELL), (LARGEST + 1, UNREAD)):
            write_source(path, size)
            for command, way in ((command, way) for command in commands for way in COMMANDS[command]):
                row = Runs(command, [program, command, *way, path])
                row.run()
                print(f"| {' '.join([command, *way])} | {size:,} | {row.status} | {row.processor:.1f} | {row.shown_memory()} |"
                      + f"  not {due}" * (row.status != due), flush=True)
                well &= row.status == due
    return int(not well)


if __name__ == "__main__":
    sys.exit(main())
