"""What the programs share that time a command beside Python's module `ast`: the source, made of Python's library, and the table."""

import argparse
import ast
import contextlib
import os
import sys
import tempfile

TOP = os.path.dirname(os.path.dirname(os.path.abspath(__file__)))
sys.path.append(os.path.join(TOP, "conformance"))

from dumps import due_fault, parts_of, prepare, program_outcome, python_tree, short_statements  # noqa: E402
from run import ENOUGH_SECONDS, MEGABYTE, ROUNDS, Runs, apart, library_files, library_of_python_311, show_machine  # noqa: E402
from timers import built_program  # noqa: E402


def is_formatted(text):
    """Whether a text is one simple statement that has an f-string, and nothing that is left out."""
    tree, _ = python_tree(text.encode())
    if tree is None or len(tree.body) != 1 or hasattr(tree.body[0], "body") or hasattr(tree.body[0], "cases"):
        return False
    return any(isinstance(node, ast.JoinedStr) for node in ast.walk(tree)) and due_fault(tree, text.encode()) is None


def formatted_statements(path):
    """The simple statements of a file that have f-strings, each on lines of its own."""
    return [text if text.endswith("\n") else text + "\n" for text in short_statements(path) if is_formatted(text)]


def parts_of_file(options, path):
    """The parts of a file, those with f-strings alone if they are asked for."""
    if options.fstrings:
        return formatted_statements(path)
    with open(path, encoding="utf-8") as file:
        return parts_of(file.read())


def library_parts(options, library):
    """The parts of the library's files that `dump` accepts, file by file."""
    for path in library_files(library):
        with contextlib.suppress(SyntaxError, UnicodeDecodeError, ValueError):
            parts = "".join(parts_of_file(options, path)).encode()
            if parts and program_outcome([options.program], options.words, parts).status == 0:
                yield parts


def write_library(options, library, path, size):
    """Writes a source of so many bytes; where files run out they come again."""
    prepare("--whole" in options.words)
    pieces, left = [], size
    with open(path, "wb") as file:
        for piece in library_parts(options, library):
            pieces.append(piece)
            left -= file.write(piece)
            if left <= 0:
                return
        while pieces and left > 0:
            for piece in pieces:
                left -= file.write(piece) if left > 0 else 0


def run_on(row, path):
    """Runs a program on a source once more, on its standard input."""
    with open(path, "rb") as file:
        row.run(stdin=file)


def show_rows(rows, megabytes):
    """Prints what the programs took."""
    print("| source, MB | program | processor s | clock s | MB/s | times pyast's | peak MB |\n|---|---|---|---|---|---|---|")
    for row in rows:
        print(f"| {megabytes:.1f} | {row.name} | {row.processor:.2f} | {row.clock:.2f} | {megabytes / row.processor:.1f} "
              f"| {row.processor / rows[0].processor:.1f} | {row.shown_memory()} |{row.failed()}", flush=True)


def goals(options, own, peer, parser, size):
    """What was measured of a run of pyast beside each goal: the words for it, and whether it is missed. No goal, never missed."""
    times, parsing, held = peer.processor / own.processor, parser.processor / own.processor, own.memory * MEGABYTE / size
    yield f"`{peer.name}` takes {times:.1f} times as long", options.goal is not None and times < options.goal
    yield f"`{parser.name}`, which writes nothing, {parsing:.1f} times", options.parser_goal is not None and parsing < options.parser_goal
    yield f"it holds {held:.1f} bytes a byte of the source", options.most_bytes is not None and held > options.most_bytes


def measure(options, folder, command, peer):
    """Measures a command and the function of `ast` on the library's source; answers the exit status."""
    python, library = library_of_python_311()
    path = os.path.join(folder, "library.py")
    apart(lambda: write_library(options, library, path, options.size * MEGABYTE))
    code = f"import ast,sys;{peer}(ast.parse(sys.stdin.read()))"
    parse = "import ast,sys;compile(sys.stdin.read(),'-','exec',ast.PyCF_ONLY_AST)"
    rows = [
        Runs(f"pyast {' '.join((command, *options.words))}", [options.program, command, *options.words]),
        # By the script large pages are asked for. It runs the program of this project, whatever --program names.
        Runs(f"./pyast {command}, the script", [os.path.join(TOP, "pyast"), command, *options.words]),
        Runs(peer, [python, "-c", code]),
        Runs("compile(.., PyCF_ONLY_AST)", [python, "-c", parse]),
    ]
    for _ in range(options.rounds):
        for row in rows:
            run_on(row, path)
    size = os.path.getsize(path)
    show_rows(rows, size / MEGABYTE)
    is_missed = False
    for own in rows[:2]:
        print(f"\nBeside `{own.name}`:")
        for words, missed in goals(options, own, *rows[2:], size):
            print(f"- {words}{': the goal is missed' if missed else ''}")
            is_missed = is_missed or missed
    return int(is_missed or any(row.status for row in rows))


def measure_beside(command, peer):
    """The program that times a command beside a function of `ast`; answers the exit status."""
    parser = argparse.ArgumentParser(description=f"Times `pyast {command}` beside Python's own {peer}, and beside its parser alone.")
    parser.add_argument("--program", metavar="PATH", help="the built program; default: that of this project")
    parser.add_argument("--size", type=int, default=10, metavar="MB", help="of the library's source; default: 10")
    parser.add_argument("--rounds", type=int, default=ROUNDS, metavar="N",
                        help=f"in which the programs take turns; one that took {ENOUGH_SECONDS} s in all isn't run again; default: {ROUNDS}")
    parser.add_argument("--goal", type=float, metavar="TIMES", help=f"status 1 where `{peer}` doesn't take so many times as long")
    parser.add_argument("--parser-goal", type=float, metavar="TIMES", help="status 1 where Python's parser alone doesn't take so many times as long")
    parser.add_argument("--most-bytes", type=float, metavar="N", help="status 1 where more bytes are held for each byte of the source")
    parser.add_argument("--whole", action="store_true", help=f"time `pyast {command} --whole`, on what that accepts")
    parser.add_argument("--fstrings", action="store_true", help="the same, on the simple statements with f-strings alone")
    options = parser.parse_args()
    options.program = built_program(options.program)
    options.words = ("--whole",) if options.whole or options.fstrings else ()
    show_machine()
    with tempfile.TemporaryDirectory(prefix="pyast-bench-") as folder:
        return measure(options, folder, command, peer)
