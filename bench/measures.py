#!/usr/bin/env python3
"""Builds the program that bench/resume.py, bench/trees.py and conformance/random_trees.py run: bench/measures/out/measures.

    bench/measures.py [--jobs N]

Its sources stand in bench/measures, a name ending in .rt.in for each file of its crate. It is no crate of the repository: it promises nothing, and
the gate would prove it for five minutes. So it is proved and built by `rt ci` over a copy of the crates that it stands on, in which it is one more.
That takes five minutes where rt has kept beside the kit that these crates are proved, and else as long as proving them all, an hour and a half. Beside
it comes measures.by-rattle, as Rattle's own compiler builds it. The lines of rt are passed on. The exit status is 0, and 2 where it isn't built.
"""

import argparse
import os
import re
import shutil
import subprocess
import sys
import tempfile

TOP = os.path.dirname(os.path.dirname(os.path.abspath(__file__)))
SOURCES = os.path.join(TOP, "bench", "measures")
PROGRAM = os.path.join(SOURCES, "out", "measures")
NEEDS = "pysource pylex pytree_node pytoken pytree_dump pygrammar pyparse pyunparse pytree"
# What the copy of a crate is without.
LEFT_OUT = ("out", "must-fail")


def below(names, needs):
    """The crates of the repository that some stand on, and these, each after those that it stands on itself."""
    found = {}
    for name in names:
        if name in needs:
            found.update(dict.fromkeys([*below(needs[name], needs), name]))
    return list(found)


def copy_crates(room):
    """Makes a repository of the crates that the program stands on, and of the program."""
    with open(os.path.join(TOP, "crates.txt"), encoding="utf-8") as file:
        needs = {name: words.split() for name, words in re.findall(r"^(\w+):(.*)", file.read(), re.MULTILINE)}
    crates = below(NEEDS.split(), needs)
    os.mkdir(f"{room}/.git")
    shutil.copy(f"{TOP}/HANDLES", room)
    with open(f"{room}/crates.txt", "w", encoding="utf-8") as file:
        file.writelines(f"{name}: {' '.join(needs[name])}\n" for name in crates)
        file.write(f"measures: {NEEDS}\n")
    for name in crates:
        own = f"{TOP}/crates/{name}"
        shutil.copytree(own, f"{room}/crates/{name}", ignore=lambda folder, _, own=own: LEFT_OUT if folder == own else ())
    os.makedirs(f"{room}/crates/measures/src")
    for name in filter(re.compile(r"\.rt\.in$").search, os.listdir(SOURCES)):
        shutil.copy(f"{SOURCES}/{name}", f"{room}/crates/measures/src/{name[:-len('.in')]}")
    # Without words it does nothing, and says so by its status.
    with open(f"{room}/crates/measures/status", "w", encoding="utf-8") as file:
        file.write("1\n")


def build(jobs=os.cpu_count() or 1):
    """Builds the program; whether it is there then."""
    print("building bench/measures, which takes five minutes, or an hour and a half where its libraries have to be proved", file=sys.stderr)
    with tempfile.TemporaryDirectory(prefix="pyast-measures-") as room:
        copy_crates(room)
        variables = {**os.environ, "RT_JOBS": str(jobs)}
        subprocess.run([f"{TOP}/tools/timed", "rt", "ci"], cwd=room, env=variables, stdin=subprocess.DEVNULL, stdout=sys.stderr, check=False)
        os.makedirs(os.path.dirname(PROGRAM), exist_ok=True)
        for end in ("", ".by-rattle"):
            made = f"{room}/crates/measures/out/measures{end}"
            if os.access(made, os.X_OK):
                shutil.copy(made, PROGRAM + end)
    return os.access(PROGRAM, os.X_OK)


def main():
    parser = argparse.ArgumentParser(description=__doc__.partition("\n")[0])
    parser.add_argument("--jobs", type=int, default=os.cpu_count() or 1, metavar="N", help="how many crates are proved side by side")
    return 0 if build(parser.parse_args().jobs) else 2


if __name__ == "__main__":
    sys.exit(main())
