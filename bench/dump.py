#!/usr/bin/env python3
"""Times `pyast dump` beside Python's own `ast.dump`, and beside Python's parser alone.

    bench/dump.py [--program PATH] [--size MB] [--rounds N] [--goal TIMES] [--parser-goal TIMES] [--most-bytes N]
                  [--whole] [--fstrings]

The source is made of statements of Python 3.11's library that `dump` accepts, the files mixed in the same order each time; with --whole of
those that `dump --whole` accepts, and with --fstrings of the simple statements among them that have f-strings: then --whole is given too.
Times are those of the processor, the least of some rounds; the peak of memory is the greatest of them. Each goal is asked of the program and of
the script `./pyast`. The exit status is 0, but 1 where a program failed or a goal was missed, and 2 where nothing could be measured.
"""

import sys

from library import measure_beside

if __name__ == "__main__":
    sys.exit(measure_beside("dump", "ast.dump"))
