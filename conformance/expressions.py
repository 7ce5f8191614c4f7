#!/usr/bin/env python3
"""Compares what `pyast dump` reads of lines that are expressions, or were, with `ast.parse` of Python 3.11.

    conformance/expressions.py [FOLDER ..] [--count N] [--changed N] [--seed N] [--program WORDS]

Of every .py file below the folders (by default Python's own library) the source of each expression is taken that stands on one line and
holds none of what is left out (floats, complex numbers, numbers too large, f-strings, named escapes), each text once; of these N are
drawn. Besides, N are drawn that were changed in one token. Each is a source of its own line: where Python's parser takes it the dumps
have to be the same, and where that refuses it, it has to be refused. The exit status is 0 where all agree, 1 where one differs (it
is shown), and 2 where nothing could be compared.
"""

import ast
import concurrent.futures
import io
import random
import sys
import tokenize
import warnings

from common import files_parser, go_on_with_python_311, outcome_of, python_files, read_options, refuse

BATCH = 2000
FAULTS = ("invalid syntax", "too deep", "expected an indented block", "misplaced clause", "float literal", "complex literal", "integer too large",
          "f-string", "named escape")
LARGEST = 2**128 - 1
OPENERS, CLOSERS = "([{", ")]}"
# What stands in for a token of a changed expression, beside tokens of other expressions.
SIGNS = ["(", ")", "[", "]", "{", "}", ",", ":", ":=", "*", "**", "=", ".", "-", "not", "in", "is", "if", "else", "for", "async", "await",
         "lambda", "yield", "from", "and", "or", "x", "1", "'a'", "b'a'", "None", "...", "/", "<", "@", "~"]


def left_out(tree, text):
    """Whether an expression holds what is refused by itself."""
    for node in ast.walk(tree):
        if isinstance(node, ast.JoinedStr):
            return True
        if isinstance(node, ast.Constant):
            if isinstance(node.value, (float, complex)) or isinstance(node.value, int) and node.value > LARGEST:
                return True
    return "\\N{" in text


def expressions_in(path):
    """The sources of the expressions of a file, each on one line."""
    try:
        with tokenize.open(path) as source:
            text = source.read()
        tree = ast.parse(text)
    except (SyntaxError, UnicodeDecodeError, ValueError):
        return
    lines = text.splitlines(keepends=True)
    for node in ast.walk(tree):
        if isinstance(node, ast.expr) and node.lineno == node.end_lineno and node.lineno <= len(lines):
            line = lines[node.lineno - 1].encode()
            yield line[node.col_offset:node.end_col_offset].decode().strip()


def tokens_of(text):
    """The tokens of a line, or None where it has none."""
    try:
        found = [it for it in tokenize.generate_tokens(io.StringIO(text + "\n").readline)]
    except (tokenize.TokenError, SyntaxError):
        return None
    kinds = (tokenize.NAME, tokenize.NUMBER, tokenize.STRING, tokenize.OP)
    return [it.string for it in found if it.type in kinds] if all(it.type != tokenize.ERRORTOKEN for it in found) else None


def is_balanced(tokens):
    """Whether brackets stand in order, whatever their kind: else the line would end elsewhere."""
    depth = 0
    for token in tokens:
        depth += (token in OPENERS) - (token in CLOSERS)
        if depth < 0:
            return False
    return depth == 0


def changed(tokens, others, random_):
    """A list of tokens, one of them dropped, doubled, moved or another one."""
    new = list(tokens)
    at = random_.randrange(len(new))
    choice = random_.randrange(5)
    if choice == 0:
        del new[at]
    elif choice == 1:
        new.insert(at, new[at])
    elif choice == 2:
        other = random_.randrange(len(new))
        new[at], new[other] = new[other], new[at]
    elif choice == 3:
        new[at] = random_.choice(SIGNS)
    else:
        new.insert(at, random_.choice(SIGNS + random_.choice(others)))
    return new


def is_left_out(text):
    """Whether Python takes a line that holds what is refused by itself; None where Python refuses it."""
    try:
        return left_out(ast.parse(text), text)
    except (SyntaxError, ValueError, RecursionError, MemoryError):
        return None


def differing(program, texts):
    """The lines, all of which Python takes, of which pyast shows another tree, or none."""
    data = "".join(text + "\n" for text in texts).encode()
    mine = outcome_of(program, ["dump", "--bare"], data)
    due = ast.dump(ast.parse(data), annotate_fields=False).encode("utf-8", "surrogatepass") + b"\n"
    if not texts or mine.status == 0 and mine.out == due:
        return []
    half = len(texts) // 2
    return [(texts[0], mine)] if not half else differing(program, texts[:half]) + differing(program, texts[half:])


def is_refused(program, text):
    """Whether pyast refuses a line as one that has no form, or that has to go on."""
    mine = outcome_of(program, ["dump"], text.encode() + b"\n")
    return mine.status == 1 and mine.err.endswith(tuple(f"error: {fault}\n".encode() for fault in FAULTS))


def differences(options, texts):
    """The lines of which pyast makes another thing than Python, and how many were compared."""
    found, count = [], 0
    with concurrent.futures.ThreadPoolExecutor(options.jobs) as pool:
        for start in range(0, len(texts), BATCH):
            told = [(text, is_left_out(text)) for text in texts[start:start + BATCH] if "\n" not in text]
            taken = [text for text, out in told if out is False]
            refused = [text for text, out in told if out is None]
            count += len(taken) + len(refused)
            found += differing(options.program, taken)
            answers = pool.map(lambda text: is_refused(options.program, text), refused)
            found += [(text, "not refused") for text, good in zip(refused, answers) if not good]
    return found, count


def main():
    go_on_with_python_311()
    parser = files_parser(__doc__.partition("\n")[0])
    parser.add_argument("--count", type=int, default=10_000, metavar="N", help="how many expressions are drawn")
    parser.add_argument("--changed", type=int, default=20_000, metavar="N", help="how many changed ones are drawn")
    options = read_options(parser)
    warnings.simplefilter("ignore")
    random_ = random.Random(options.seed)
    texts = sorted({text for path in python_files(options.folders) for text in expressions_in(path)})
    random_.shuffle(texts)
    own = texts[:options.count]
    lists = [tokens for text in texts[:20 * options.count] if (tokens := tokens_of(text)) and len(tokens) > 1 and is_balanced(tokens)]
    if not lists:
        refuse("no expression was found")
    made = []
    while len(made) < options.changed:
        tokens = changed(random_.choice(lists), lists, random_)
        if tokens and is_balanced(tokens):
            made.append(" ".join(tokens))
    bad = 0
    for name, lines in (("expressions", own), ("changed ones", made)):
        found, count = differences(options, lines)
        for text, mine in found[:10]:
            print(f"{text!r}: {mine}")
        print(f"{count} {name}, {len(found)} differences")
        bad += len(found)
    return int(bool(bad))


if __name__ == "__main__":
    sys.exit(main())
