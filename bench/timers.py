"""What the programs of bench/ share: finding the built program, building the program of bench/measures.py, and giving up."""

import os
import sys

import measures

TOP = os.path.dirname(os.path.dirname(os.path.abspath(__file__)))


def refuse(text):
    """Ends the run, as nothing can be measured."""
    print(f"{os.path.basename(sys.argv[0])}: {text}", file=sys.stderr)
    sys.exit(2)


def built_program(path):
    """The path of the built program: that of this project where none is named."""
    path = os.path.abspath(path or os.path.join(TOP, "crates", "pyast", "out", "pyast"))
    if not os.access(path, os.X_OK) or os.path.isdir(path):
        refuse(f"{path} isn't there: run {os.path.join(TOP, 'pyast')} once, which unpacks it")
    return path


def build(timer):
    """Builds the program of bench/measures.py where it isn't there; another one has to be there."""
    if not os.path.exists(timer) and timer == measures.PROGRAM:
        measures.build()
    if not os.access(timer, os.X_OK):
        refuse(f"{timer} isn't there")
