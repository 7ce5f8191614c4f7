#!/usr/bin/env python3
r"""Runs the built program on worked examples, a row each: words of a command, a source, what has to be written and reported, and the status.

    conformance/tables.py [--program PATH] [--jobs N] [FILE ..]

The rows stand in the files of conformance/tables/, one for each subject; a FILE names others. What is expected was worked by hand from the
documentation of Python or taken from Python 3.11 and 3.12, and is never the program's own output. Each row is run by each of its commands, and
standard output, standard error and status are compared byte for byte. The exit status is 0, but 1 where a row fails, and 2 where the program isn't
there or a file is no table.

An empty line ends a row. A line begins with a mark, and a blank if more follows; all after that blank is text as it stands.

What a row is run with:

    % dump --bare             a command, of the rows that follow, until other `%` lines come; several lines are several commands
    $ dump --bare             the same of this row alone
    ^ pytok1 0 0 1 0 0 0 0    what the word `^` of a command stands for, as one word, whatever its blanks
    < a.py                    the source is the file of this name, below the folder where the command runs; else it is the standard input
    # Names.                  a comment

The source is what these lines say, one after the other; none is the source without a byte, which a `|-` alone says too:

    | x = 1                   a line
    |- x = 1                  a part of a line, without an LF after it
    / x = 1                   a line; others stand below it, each of which makes one more source out of the lines before and behind them
    /- x = 1                  the same of parts of a line
    * 600 (~1 x~600 )         parts, each after how often it comes, with `~` between them
    + 499 if x:~if y:         so many lines, these in turn, each a blank deeper than the one before; the blanks of the next line follow
    ..                        each front of the source is a source, and nothing is due but what `answers_fronts` says

How the source is read, and what is written is taken, where it isn't as usual:

    ~ slowly                  a read gives one byte
    ~ fails                   the read behind the last byte fails
    ~ room                    standard output takes each number of bytes, and then a write fails; `~ room 0 99` takes these numbers
    ~ told                    the same of standard error, for which nothing is reported

What is due, which is nothing where no line says it:

    > x = 1                   a line that is written
    - 1,0-1,1 NAME 'x'        the line of an entry: its places, its type and its text
    -* 9 1,0-1,1 OP '('       so many entries of one line, one behind the other; the first is given
    >* 1 x~499  + x           parts of what is written, as a source has them by `*`, without an LF behind them
    >+ 499 if x:~if y:        lines that are written, as a source has them by `+`, each four blanks deeper
    @ Constant(value=1)       `dump` writes the module that is this expression, while `>` is what others write
    @* 499 Await(~1 1~499 )   the same, by parts of the expression
    ? pyast                   a text within what is written, which isn't compared otherwise; without a text, something is written
    ! <stdin>:1:0: error: ..  the line of a fault; of several, any one of them is reported
    !- <stdin>:1:0: error: .. the same by commands without `--whole`, which write nothing, while the other lines are for those with it
    = 2                       the status, where it isn't 0 without a fault and 1 with one
    ^^ 0 0 1 0 0 0 0          a cursor of the source, without its first word: the source has those of such lines, one after each count of entries,
                              and none that differs from one of them by one in a number, or has a level less

What `unparse` has to write is given to it as well, and has to come back.

With an `e` behind its mark, as in `|e \tx`, a line has escapes: `\t \n \r \0 \\`, `\xff` for a byte, `\u{e9}` for a character. What can't be seen,
as a tab or a blank at the end of a line, has to be written so.
"""

import argparse
import collections
import concurrent.futures
import glob
import os
import re
import resource
import socket
import subprocess
import sys
import tempfile

from common import PROGRAM, SECONDS, Outcome, refuse, run

TABLES = os.path.join(os.path.dirname(os.path.abspath(__file__)), "tables")
BYTE_ORDER_MARK = b"\xef\xbb\xbf"
ESCAPE = re.compile(rb"\\(?:x([0-9a-f]{2})|u\{([0-9a-f]+)\}|([tnr0\\]))")
PLAIN_ESCAPES = {b"t": b"\t", b"n": b"\n", b"r": b"\r", b"0": b"\0", b"\\": b"\\"}
# What has to be written as an escape: what can't be seen.
UNSEEN = re.compile(r"[\x00-\x1f\x7f-\xa0\ufeff]| $")
PLACES = re.compile(r"(\d+),(\d+)-(\d+),(\d+)")
# What is due of a run: what is written, or, if it isn't None, the texts within that; the lines of which one is reported; the status.
Due = collections.namedtuple("Due", "written within faults status")


class BadRow(Exception):
    """A line or a row that can't be read."""


# --- rows ---------------------------------------------------------------------------------------------------------------


class Row:
    """What a row says."""

    def __init__(self, place):
        self.place = place
        self.commands, self.joined, self.file = [], "", None
        # The source: parts in order, each of them the texts that may stand there.
        self.parts, self.of_list, self.fronts = [], False, False
        self.written, self.tree, self.within = b"", None, None
        self.faults, self.plain_faults, self.status = [], [], None
        # How the source is read and what is written is taken, with how many bytes; and the cursors of the source.
        self.manner, self.rooms, self.cursors = None, [], []

    def sources(self):
        """Each source that the parts make."""
        made = [b""]
        for part in self.parts:
            made = [before + text for before in made for text in part]
        return made

    def says_what_is_due(self):
        """Whether a line of it says what is due."""
        return bool(self.written or self.faults or self.plain_faults) or (self.tree, self.within, self.status) != (None, None, None)

    def words_of(self, command):
        """The words of a command."""
        return [self.joined if word == "^" else word for word in command.split()]

    def due_of(self, words):
        """What is due of a command."""
        if self.plain_faults and "--whole" not in words:
            return Due(b"", None, self.plain_faults, 1)
        written = self.written
        if self.tree is not None and words[:1] == ["dump"]:
            written = module_of(self.tree, "--bare" in words)
        status = bool(self.faults) if self.status is None else self.status
        return Due(written, self.within, self.faults, int(status))


def module_of(tree, bare):
    """The dump of a module that is one expression."""
    return b"Module([Expr(%s)], [])\n" % tree if bare else b"Module(body=[Expr(value=%s)], type_ignores=[])\n" % tree


def unescaped(text):
    """A text whose escapes are what they stand for."""
    def meant(match):
        byte, character, letter = match.groups()
        if byte:
            return bytes([int(byte, 16)])
        return chr(int(character, 16)).encode() if character else PLAIN_ESCAPES[letter]

    if b"\\" in ESCAPE.sub(b"", text):
        raise BadRow("an escape that there isn't")
    return ESCAPE.sub(meant, text)


def entry_line(entry):
    """The line of an entry, laid out as Python's `tokenize` prints it."""
    places, name, text = entry.split(" ", 2)
    return f"{places + ':':20}{name:15}{text:15}\n".encode()


def entry_lines(text):
    """The lines of so many entries of one line, one behind the other."""
    count, entry = text.split(" ", 1)
    row, start, end_row, end = map(int, PLACES.match(entry).groups())
    rest = entry[PLACES.match(entry).end():]
    width = end - start
    return b"".join(entry_line(f"{row},{start + at * width}-{end_row},{end + at * width}{rest}") for at in range(int(count)))


def repeated(text):
    """Parts, each after how often it comes."""
    parts = [part.split(b" ", 1) for part in text.split(b"~")]
    return b"".join(part * int(count) for count, part in parts)


def nested(text, deeper=b" "):
    """So many lines in turn, each deeper by some blanks, and the blanks of the next one."""
    count, lines = text.split(b" ", 1)
    lines = lines.split(b"~")
    made = b"".join(deeper * at + lines[at % len(lines)] + b"\n" for at in range(int(count)))
    return made + deeper * int(count)


def put(row, mark, text):
    """Puts what a line says into its row."""
    if mark in ("/", "/-"):
        if not row.of_list:
            row.parts.append([])
        row.parts[-1].append(text + b"\n" if mark == "/" else text)
    elif mark in SOURCE_MARKS:
        row.parts.append([SOURCE_MARKS[mark](text)])
    elif mark in DUE_MARKS:
        DUE_MARKS[mark](row, text)
    elif mark in RUN_MARKS:
        setattr(row, RUN_MARKS[mark], text.decode())
    elif mark == "$":
        row.commands.append(text.decode())
    elif mark == "..":
        row.fronts = True
    else:
        raise BadRow(f"no mark: {mark}")
    row.of_list = mark in ("/", "/-")


def add_written(row, text):
    """A row writes this, too."""
    row.written += text


def put_within(row, text):
    """A row writes something with this in it."""
    row.within = [*(row.within or []), text]


def put_manner(row, text):
    """A row's source is read, or what it writes is taken, in this manner."""
    row.manner, *rooms = text.decode().split()
    row.rooms = [int(room) for room in rooms]
    if row.manner not in ("slowly", "fails", "room", "told") or rooms and row.manner in ("slowly", "fails"):
        raise BadRow("no such manner")


SOURCE_MARKS = {"|": lambda text: text + b"\n", "|-": bytes, "*": repeated, "+": nested}
RUN_MARKS = {"^": "joined", "<": "file"}
DUE_MARKS = {
    ">": lambda row, text: add_written(row, text + b"\n"),
    ">*": lambda row, text: add_written(row, repeated(text)),
    ">+": lambda row, text: add_written(row, nested(text, b"    ")),
    "-": lambda row, text: add_written(row, entry_line(text.decode())),
    "-*": lambda row, text: add_written(row, entry_lines(text.decode())),
    "@": lambda row, text: setattr(row, "tree", text),
    "@*": lambda row, text: setattr(row, "tree", repeated(text)),
    "?": put_within,
    "!": lambda row, text: row.faults.append(text + b"\n"),
    "!-": lambda row, text: row.plain_faults.append(text + b"\n"),
    "=": lambda row, text: setattr(row, "status", int(text)),
    "~": put_manner,
    "^^": lambda row, text: row.cursors.append(text.decode()),
}


def mark_and_text(line):
    """The mark of a line, and the text behind it."""
    if UNSEEN.search(line):
        raise BadRow("what can't be seen has to be written as an escape")
    mark, _, rest = line.partition(" ")
    text = rest.encode()
    return (mark[:-1], unescaped(text)) if len(mark) > 1 and mark.endswith("e") else (mark, text)


class Table:
    """The rows of a file, as they are read."""

    def __init__(self, name):
        self.name, self.rows, self.row = name, [], None
        # The commands of the rows that follow, and whether the line before this one is one of them.
        self.commands, self.of_commands = [], False

    def end_row(self):
        """Ends the row that is being read, if one is."""
        if self.row:
            self.row.commands = self.row.commands or list(self.commands)
            if not self.row.commands:
                raise BadRow("a row without a command")
            if self.row.fronts and self.row.says_what_is_due():
                raise BadRow("what is due of each front")
            self.rows.append(self.row)
        self.row = None

    def take(self, number, line):
        """Takes a line."""
        if not line:
            self.end_row()
            return
        mark, text = mark_and_text(line)
        if mark == "#":
            return
        if mark == "%":
            if self.row:
                raise BadRow("a command of the rows that follow within a row")
            self.commands = [*(self.commands if self.of_commands else []), text.decode()]
        else:
            self.row = self.row or Row(f"{self.name}:{number}")
            put(self.row, mark, text)
        self.of_commands = mark == "%"


def rows_of(path):
    """The rows of a file; the run ends where it is no table."""
    table, number = Table(os.path.relpath(path)), 0
    try:
        with open(path, encoding="utf-8", newline="") as file:
            for number, line in enumerate(file.read().split("\n"), 1):
                table.take(number, line)
        table.end_row()
    except OSError as error:
        refuse(f"{path}: {error.strerror}")
    except BadRow as error:
        refuse(f"{table.name}:{number}: {error}")
    except (ValueError, AttributeError):
        refuse(f"{table.name}:{number}: what is behind the mark can't be read")
    return table.rows


# --- runs ---------------------------------------------------------------------------------------------------------------


def outcome_of(program, words, source, file, manner=None):
    """What a command does with a source, on its standard input or in a file."""
    if manner in ("slowly", "fails"):
        with given(source, manner == "slowly") as stream:
            return run([program, *words], stdin=stream, close_fds=False)
    if not file:
        return run([program, *words], input=source, close_fds=False)
    with tempfile.TemporaryDirectory(dir=".") as folder:
        path = os.path.join(folder, file)
        os.makedirs(os.path.dirname(path), exist_ok=True)
        with open(path, "wb") as stream:
            stream.write(source)
        return run([program, *words], input=b"", close_fds=False, cwd=folder)


def given(source, slowly):
    """A standard input that gives one byte of a source at a read and then ends; or that gives the source, and fails at the read behind it. A socket
    of packets gives one of them at a read, and one whose other end is closed with something left to read there fails once all was read."""
    theirs, mine = socket.socketpair(socket.AF_UNIX, socket.SOCK_SEQPACKET if slowly else socket.SOCK_STREAM)
    with mine:
        for part in [source[at:at + 1] for at in range(len(source))] if slowly else [source]:
            mine.sendall(part)
        if not slowly:
            theirs.sendall(b"x")
    return theirs


def outcome_within(program, words, source, manner, room):
    """What a command does whose standard output, or else its standard error, takes so many bytes: it is a file that may not be longer, by a limit
    whose signal is ignored here and so by the program too."""
    with tempfile.TemporaryFile() as file:
        streams = {"stdout": subprocess.PIPE, "stderr": subprocess.PIPE, "stdout" if manner == "room" else "stderr": file}
        limit = lambda: resource.setrlimit(resource.RLIMIT_FSIZE, (room, room))
        done = subprocess.run([program, *words], input=source, preexec_fn=limit, restore_signals=False, timeout=SECONDS, check=False, **streams)
        file.seek(0)
        taken = file.read()
    return Outcome(done.returncode, taken if manner == "room" else done.stdout, taken if manner == "told" else done.stderr)


def differences(outcome, due):
    """What an outcome has that isn't due, each with a name."""
    if due.within is None and outcome.out != due.written:
        yield f"written: {unlike(outcome.out, due.written)}"
    for text in due.within or []:
        if text not in outcome.out or not outcome.out:
            yield f"written: {shortened(outcome.out)} without {shortened(text)}"
    if outcome.err not in (due.faults or [b""]):
        yield f"reported: {unlike(outcome.err, (due.faults or [b''])[0])}"
    if outcome.status != due.status:
        yield f"status: {outcome.status} in place of {due.status}"


def unlike(found, due):
    """Two texts in short, from a little before the first byte that differs."""
    at = next((at for at, (one, other) in enumerate(zip(found, due)) if one != other), min(len(found), len(due)))
    front = max(0, at - 20)
    begin = f"from byte {front} on " if front else ""
    return f"{begin}{shortened(found[front:])} in place of {shortened(due[front:])}"


def shortened(text):
    """A text in short."""
    shown = repr(text.decode("utf-8", "backslashreplace"))
    return shown if len(shown) <= 80 else shown[:76] + " .."


def try_command(program, row, command):
    """How many runs a command of a row took, and what failed: of each source of the row, and of what `unparse` has to write of it."""
    words = row.words_of(command)
    due = row.due_of(words)
    sources = row.sources()
    if row.manner in ("room", "told"):
        return takes_rooms(program, row, words, due)
    if row.cursors:
        return has_cursors(program, row, words)
    if words[:1] == ["unparse"] and not due.faults and due.within is None:
        sources = list(dict.fromkeys([*sources, due.written]))
    failures = []
    for source in sources:
        outcome = outcome_of(program, words, source, row.file, row.manner)
        failures += [f"of {shortened(source)}: {text}" for text in differences(outcome, due)]
    return len(sources), failures


# --- room ---------------------------------------------------------------------------------------------------------------


def takes_rooms(program, row, words, due):
    """How many runs a command took, and what failed, where there is little room for what it writes or reports: a front of that is taken. A failed
    write is reported, before a fault of the source; what can't be reported changes nothing else."""
    source, told = b"".join(row.sources()), row.manner == "told"
    whole = due.faults[0] if told else due.written
    failures, rooms = [], row.rooms or range(len(whole) + 1)
    for room in rooms:
        outcome = outcome_within(program, words, source, row.manner, room)
        if told:
            wanted = due._replace(faults=[whole[:room]])
        else:
            wanted = due if room >= len(whole) else Due(whole[:room], None, [b"pyast: write failed\n"], 3)
        failures += [f"of {room} bytes: {text}" for text in differences(outcome, wanted)]
    return len(rooms), failures


# --- cursors ------------------------------------------------------------------------------------------------------------


def near(cursor):
    """The cursors that differ from one by one in a number, or have a level less."""
    *numbers, levels = cursor.split()
    fields = [*map(int, numbers), *map(int, levels.split(","))]
    for at, field in enumerate(fields):
        for other in [[field + 1], [field - 1]] if field else [[field + 1]]:
            yield [*fields[:at], *other, *fields[at + 1:]]
        if at >= len(numbers):
            yield fields[:at] + fields[at + 1:]


def cursor_of(fields):
    """The text of a cursor, without its first word, of its numbers."""
    return " ".join([*map(str, fields[:6]), ",".join(map(str, fields[6:]))])


def has_cursors(program, row, words):
    """How many runs a command took, and what failed, of a source with these cursors: it stops at each after its count of entries, and is resumed at
    each of them and at none that is near one."""
    source, failures = b"".join(row.sources()), []
    for count, cursor in enumerate(row.cursors):
        outcome = outcome_of(program, [*words, "--count", str(count)], source, None)
        if outcome.out.splitlines()[-1:] != [f"cursor pytok1 {cursor}".encode()] and count + 1 < len(row.cursors):
            failures.append(f"after {count} entries: {outcome.out[-60:]}")
    tried = sorted({*row.cursors, *(cursor_of(fields) for cursor in row.cursors for fields in near(cursor))})
    for cursor in tried:
        outcome = outcome_of(program, [*words, "--resume", f"pytok1 {cursor}"], source, None)
        refused = outcome.status == 2 and outcome.err in (b"pyast: cursor of another source\n", b"pyast: malformed cursor\n") and not outcome.out
        if refused == (cursor in row.cursors) or not refused and (outcome.status, outcome.err) != (0, b""):
            failures.append(f"at {cursor}: {outcome}"[:200])
    return len(row.cursors) + len(tried), failures


# --- fronts -------------------------------------------------------------------------------------------------------------


def answers_fronts(program, row, command):
    """How many runs a command took, and what failed: of each front of a source, `dump` and `unparse` write something or report a fault, and `tokens`
    stops after each count of entries and goes on at the cursor with the rest of what it lists without a count."""
    words = row.words_of(command)
    answers = answers_in_parts if words[:1] == ["tokens"] else answers_either
    made, failures = 0, []
    for source in row.sources():
        for end in range(len(source) + 1):
            count, failed = answers(program, words, source[:end])
            made += count
            failures += [f"of {shortened(source[:end])}: {text}" for text in failed]
    return made, failures


def answers_either(program, words, source):
    """Of a source something is written, unless `unparse` has an empty module; or a fault is reported."""
    outcome = outcome_of(program, words, source, None)
    silent = outcome.status == 1 or words[0] == "unparse" and source in (b"", BYTE_ORDER_MARK)
    right = outcome.status in (0, 1) and bool(outcome.out) != silent and bool(outcome.err) == (outcome.status == 1)
    return 1, [] if right else [f"neither accepted nor refused: {outcome}"[:200]]


def answers_in_parts(program, words, source):
    """A listing that stops after any number of its entries, and goes on there, is the whole listing."""
    whole = outcome_of(program, words, source, None)
    failures = [] if whole.status in (0, 1) and bool(whole.err) == (whole.status == 1) else [f"status: {whole.status}"]
    lines = whole.out.splitlines(keepends=True)
    for count in range(len(lines)):
        stopped = outcome_of(program, [*words, "--count", str(count)], source, None)
        before, cursor, rest = stopped.out.partition(b"cursor ")
        if (before, cursor, stopped.err, stopped.status) != (b"".join(lines[:count]), b"cursor ", b"", 0):
            failures.append(f"stopped after {count} entries: {stopped}"[:200])
            continue
        resumed = outcome_of(program, [*words, "--resume", rest.decode().rstrip("\n")], source, None)
        due = Due(b"".join(lines[count:]), None, [whole.err], whole.status)
        failures += [f"resumed after {count} entries, {text}" for text in differences(resumed, due)]
    return 1 + 2 * len(lines), failures


# --- the run ------------------------------------------------------------------------------------------------------------


def try_row(program, row):
    """How many runs a row took, and what failed."""
    made, failures = 0, []
    for command in row.commands:
        count, failed = (answers_fronts if row.fronts else try_command)(program, row, command)
        made += count
        failures += [f"{row.place}: {command or 'no words'}, {text}" for text in failed]
    return made, failures


def try_rows(program, rows, jobs):
    """The same of all rows, in their order, several at a time, in a folder of their own."""
    before = os.getcwd()
    with tempfile.TemporaryDirectory() as folder, concurrent.futures.ThreadPoolExecutor(jobs) as pool:
        os.chdir(folder)
        results = list(pool.map(lambda row: try_row(program, row), rows))
        os.chdir(before)
    return results


def main():
    parser = argparse.ArgumentParser(description=__doc__.partition("\n")[0])
    parser.add_argument("--program", default=PROGRAM, metavar="PATH", help="the built program")
    parser.add_argument("--jobs", type=int, default=os.cpu_count() or 1, metavar="N", help="runs at a time; default: cores")
    parser.add_argument("files", nargs="*", metavar="FILE", help="a table; default: those of conformance/tables/")
    options = parser.parse_args()
    program = os.path.abspath(options.program)
    if not os.access(program, os.X_OK):
        refuse(f"{program} isn't there")
    files = options.files or sorted(glob.glob(os.path.join(TABLES, "*.txt")))
    rows = [row for path in files for row in rows_of(path)]
    if not rows:
        refuse("there are no rows")
    results = try_rows(program, rows, options.jobs)
    for _, failures in results:
        for text in failures:
            print(text)
    failed = sum(bool(failures) for _, failures in results)
    print(f"{sum(made for made, _ in results):,} runs of {len(rows):,} rows")
    print(f"{len(rows) - failed} passed, {failed} failed")
    return int(bool(failed))


if __name__ == "__main__":
    sys.exit(main())
