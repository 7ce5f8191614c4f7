#!/usr/bin/env python3
"""Checks that docs/USE.md, the manual page and the completions name exactly the options that the program's help shows, of itself and of each
command, that the help of a command begins its usage with the program's name, and that the manual page has the program's version.

    conformance/options.py [--program PATH]

The last line counts the checks; the exit status is 0, 1 where one failed, and 2 where the program isn't there.
"""

import argparse
import os
import re
import subprocess
import sys

from common import Count

TOP = os.path.dirname(os.path.dirname(os.path.abspath(__file__)))
COMMANDS = ("tokens", "dump", "unparse", "check")
# What stands for the program without a command.
ALONE = "pyast"
OPTION = re.compile(r"(?<![\w-])(--[a-z][a-z0-9]*(?:-[a-z]+)*|-[a-zA-Z])(?![\w-])")


def shown(program, words):
    """The text of help for some words."""
    return subprocess.run([program, *words, "--help"], capture_output=True, text=True, check=True).stdout


def options_in(text):
    """The options that a text names."""
    return set(OPTION.findall(text))


def of_help(program):
    """The options of each command, as the program's help shows them."""
    words = {ALONE: [], **{command: [command] for command in COMMANDS}}
    return {name: options_in(shown(program, given).split("Options:", 1)[1]) for name, given in words.items()}


def of_manual(text):
    """The same by the manual page: of each command the options of its synopsis, and those of all."""
    text = text.replace("\\-", "-")
    synopsis = text.split(".SH SYNOPSIS", 1)[1].split(".SH", 1)[0]
    parts = {part.split()[0]: options_in(part) for part in synopsis.split(".B pyast ")[1:]}
    for_help, for_version = map(options_in, text.split(".SH OPTIONS", 1)[1].split(".SH", 1)[0].rsplit(".TP", 2)[1:])
    return {ALONE: for_help | for_version, **{command: parts[command] | for_help for command in COMMANDS}}


def of_page(text):
    """The same by docs/USE.md: the synopsis of each command, and the rows of the table for help and the version."""
    synopsis, table = text.split("```")[1], text.split("\n## ", 1)[0]
    for_help, for_version = (options_in(re.search(rf"^.*`{option}`.*$", table, re.MULTILINE)[0]) for option in ("--help", "--version"))
    source = options_in(re.search(r"^\| `SOURCE` \|.*$", table, re.MULTILINE)[0])
    parts = {line.split()[1]: options_in(line) | (source if "SOURCE" in line else set()) for line in synopsis.splitlines() if line.startswith("pyast ")}
    return {ALONE: for_help | for_version, **{command: parts[command] | for_help for command in COMMANDS}}


def of_bash(text):
    """The same by the completions for bash."""
    alone = re.search(r"compgen -W '([^']*)'", text)[1]
    return {ALONE: options_in(alone), **{command: options_in(re.search(rf"{command}\) words='([^']*)'", text)[1]) for command in COMMANDS}}


def of_zsh(text):
    """The same by the completions for zsh."""
    parts = {ALONE: re.search(r"CURRENT == 2 \)\); then\n(.*?)return", text, re.DOTALL)[1]}
    parts |= {command: re.search(rf"\n    {command}\)\n(.*?);;", text, re.DOTALL)[1] for command in COMMANDS}
    found = {}
    for command, part in parts.items():
        found[command] = set(re.findall(r"'(--?[a-z0-9-]+)\[", part)) | options_in(" ".join(re.findall(r"\{([^}]*)\}", part)).replace(",", " "))
    return found


def of_fish(text):
    """The same by the completions for fish."""
    found = {name: set() for name in (ALONE, *COMMANDS)}
    for line in text.splitlines():
        names = {f"-{name}" for name in re.findall(r" -s (\w)\b", line)} | {f"--{name}" for name in re.findall(r" -l ([\w-]+)", line)}
        seen = re.search(r"__fish_seen_subcommand_from ([a-z ]+)'", line)
        everywhere = [ALONE] if "__fish_use_subcommand" in line else [ALONE, *COMMANDS]
        for command in seen[1].split() if seen else everywhere:
            if command in found:
                found[command] |= names
    return found


def main():
    parser = argparse.ArgumentParser(description="Compares the options of the documents with those of the program.")
    parser.add_argument("--program", default=os.path.join(TOP, "crates", "pyast", "out", "pyast"), metavar="PATH", help="the built program")
    options = parser.parse_args()
    if not os.access(options.program, os.X_OK):
        print(f"options.py: {options.program} isn't there", file=sys.stderr)
        return 2
    due, checks = of_help(options.program), Count()
    for name, read in (("docs/USE.md", of_page), ("docs/pyast.1", of_manual), ("completions/pyast.bash", of_bash), ("completions/_pyast", of_zsh), ("completions/pyast.fish", of_fish)):
        with open(os.path.join(TOP, name), encoding="utf-8") as file:
            text = file.read()
        found = read(text)
        for command in (ALONE, *COMMANDS):
            checks.is_due(f"{name}: {command}", sorted(found[command]), sorted(due[command]))
        if name == "docs/pyast.1":
            version = subprocess.run([options.program, "--version"], capture_output=True, text=True, check=True).stdout.strip()
            checks.is_due(f"{name}: the version", re.search(r'^\.TH .* "(pyast [\d.]+)" ', text, re.MULTILINE)[1], version)
    for command in COMMANDS:
        checks.is_due(f"the help of {command}", f"Usage: pyast {command} " in shown(options.program, [command]), True)
    return checks.end()


if __name__ == "__main__":
    sys.exit(main())
