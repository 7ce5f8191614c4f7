#!/usr/bin/env python3
"""Compares what `pyast dump` shows of number and string tokens with `ast.dump` of Python 3.11.

    conformance/values.py [FOLDER ..] [--program WORDS]

Of every .py file below the folders (by default Python's own library) all number and string tokens are taken, each text once. Those
that stand for a whole number below 2 to the 128, a text or bytes are dumped in batches, a line each, and the dump has to be Python's.
Each other has to be refused by itself, for its reason: float, complex number, number too large, f-string, named escape. The exit
status is 0 where all agree, 1 where one differs (it is shown), and 2 where nothing could be compared.
"""

import ast
import concurrent.futures
import re
import sys
import tokenize
import warnings

from common import files_parser, go_on_with_python_311, outcome_of, python_files, read_options

PREFIX = re.compile(r"[A-Za-z]*")
# A backslash with what it takes along, or another character.
UNIT = re.compile(r"\\.|[^\\]", re.DOTALL)
BATCH = 2000
# What pyast reports of a token that it leaves out.
TEXTS = {"Complex": "complex literal", "Float": "float literal", "IntegerTooLarge": "integer too large", "FString": "f-string",
         "NamedEscape": "named escape"}
LARGEST = 2**128 - 1


def tokens_in(path):
    """The number and string tokens of a file, up to the first fault."""
    try:
        with tokenize.open(path) as source:
            for it in tokenize.generate_tokens(source.readline):
                if it.type in (tokenize.NUMBER, tokenize.STRING):
                    yield it.type, it.string
    except (SyntaxError, UnicodeDecodeError, tokenize.TokenError):
        return


def reason_of(kind, text):
    """Why a token has no value here, or None where it has one."""
    if kind == tokenize.NUMBER:
        if text[-1] in "jJ":
            return "Complex"
        value = ast.literal_eval(text)
        return "Float" if isinstance(value, float) else "IntegerTooLarge" if value > LARGEST else None
    prefix = PREFIX.match(text)[0].lower()
    if "f" in prefix:
        return "FString"
    named = "r" not in prefix and "b" not in prefix and "\\N" in UNIT.findall(text)
    return "NamedEscape" if named else None


def source_of(texts):
    """A source of these tokens, each a line."""
    return "".join(text + "\n" for text in texts).encode("utf-8", "surrogatepass")


def differing(program, texts):
    """The tokens of a batch that pyast shows otherwise than Python, or refuses."""
    data = source_of(texts)
    mine = outcome_of(program, ["dump", "--bare"], data)
    due = ast.dump(ast.parse(data), annotate_fields=False).encode("utf-8", "surrogatepass") + b"\n"
    if mine.status == 0 and mine.out == due:
        return []
    half = len(texts) // 2
    return [(texts[0], mine)] if not half else differing(program, texts[:half]) + differing(program, texts[half:])


def is_refused(program, token):
    """Whether pyast refuses a token that it leaves out, for its reason."""
    kind, text = token
    mine = outcome_of(program, ["dump"], source_of([text]))
    return mine.status == 1 and not mine.out and mine.err.decode().endswith(f":1:0: error: {TEXTS[reason_of(kind, text)]}\n")


def main():
    go_on_with_python_311()
    options = read_options(files_parser(__doc__.partition("\n")[0]))
    warnings.simplefilter("ignore")
    tokens = sorted({token for path in python_files(options.folders) for token in tokens_in(path)})
    valued = [text for kind, text in tokens if reason_of(kind, text) is None]
    refused = [token for token in tokens if reason_of(*token) is not None]
    differences = [one for start in range(0, len(valued), BATCH) for one in differing(options.program, valued[start:start + BATCH])]
    with concurrent.futures.ThreadPoolExecutor(options.jobs) as pool:
        answers = pool.map(lambda token: is_refused(options.program, token), refused)
        differences += [(token, "not refused for its reason") for token, good in zip(refused, answers) if not good]
    for token, found in differences[:10]:
        print(f"{token!r}: {found}")
    print(f"{len(valued)} values, {len(refused)} refusals, {len(differences)} differences")
    return int(bool(differences))


if __name__ == "__main__":
    sys.exit(main())
