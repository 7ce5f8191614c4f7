#!/usr/bin/env python3
"""Runs the built program where no contract can say what has to hold: its words, files, statuses and lines of faults, as a shell sees them; how
it reads and writes, at a terminal too; that it gives back the memory of trees that it lets go; that memory, and 4.2 MB of stack, suffice past
every round number.

    conformance/program.py [--program PATH]

What is expected stands in this file or follows from the source, and is never the program's own output. The exit status is 0, but 1 where a check
fails, and 2 where the program isn't there.
"""

import argparse
import contextlib
import os
import pty
import re
import resource
import select
import subprocess
import sys
import tempfile
import time

from common import PROGRAM, Count, run

# The memory within which a source of any length is listed, in bytes, the program and the C library with it.
MEMORY = 12 << 20
DUMP_MEMORY = 68 << 20
# The stack that suffices for each command with each of its options, in bytes.
STACK = 4_200_000
# The seconds within which an answer has to come that waits for nothing.
SOON = 20
LISTING = """\
0,0-0,0:            ENCODING       'utf-8'        
1,0-1,1:            NAME           'x'            
1,2-1,3:            OP             '='            
1,4-1,5:            NUMBER         '1'            
1,5-1,6:            NEWLINE        '\\n'           
2,0-2,0:            ENDMARKER      ''             
"""
DUMP = "Module(body=[Assign(targets=[Name(id='x', ctx=Store())], value=Constant(value=1))], type_ignores=[])\n"
# What the help of dump and of unparse has to name: what is refused, and the limits.
LIMITS = ("\\N{..}", "2**128", "4,300 digits", "600 open brackets", "500 nested expressions or statements")
# Words after `check` that give no command, and what is reported of them.
BAD_CHECKS = {
    "": "a word is missing", "--whole": "a word is missing", "--stdin-name": "a word is missing", "--stdin-name n": "a word is missing",
    "--stdin-name n a": "a word is missing", "- -": "-", "a - b -": "-", "a --whole --whole b": "--whole", "--show a --show": "--show",
    "a --indent 1": "--indent", "--json=1 a": "--json=1", "-xy a": "-xy", "--stdin-name a --stdin-name b -": "--stdin-name", "a --count b": "--count",
}
# Sources with a fault that `dump` reports, and the lines that `--show` adds: the row, and the caret below the place.
SHOWN = {
    b"x\ny = 1.5\n": "2:4: error: float literal|y = 1.5|    ^",
    b"\tx(\xc3\xa9, $)\n": "1:6: error: unexpected character|\tx(\u00e9, $)|\t     ^",
    b"if x:\n": "2:0: error: expected an indented block||^",
    b"y = '\x1b\xf0\x9f\x98\x80\xe2\x80\xa8', 1.5\n": "1:11: error: float literal|y = '\\x1b\U0001f600\\u2028', 1.5|                   ^",
    b"'\xf3\xa0\x80\x81' $\n": "1:4: error: unexpected character|'\\U000e0001' $|             ^",
    b"x $\r\n": "1:2: error: unexpected character|x $|  ^",
    b"x\ry\n": "1:1: error: carriage return without line feed|x\\x0dy| ^",
    b"x\r": "1:1: error: carriage return without line feed|x\\x0d| ^",
    b"\xef\xbb\xbfx $": "1:2: error: unexpected character|x $|  ^",
    b"x\n'\xc3\xa9\xff'\n": "2:2: error: invalid UTF-8|'\u00e9|  ^",
    b"#\r\n# coding: latin-1\n": "2:0: error: unsupported encoding|# coding: latin-1|^",
    b"f(\n": "2:0: error: EOF in multi-line statement||^",
    # All of 160 characters, and of more 160 at most, from 80 before the place on.
    b"a" * 158 + b" $": f"1:159: error: unexpected character|{'a' * 158} $|{' ' * 159}^",
    b"a" * 159 + b" $": f"1:160: error: unexpected character|{'a' * 79} $|{' ' * 80}^",
    b"a" * 79 + b" $" + b"b" * 80: f"1:80: error: unexpected character|{'a' * 79} ${'b' * 79}|{' ' * 80}^",
    b"a $" + b"b" * 300: f"1:2: error: unexpected character|a ${'b' * 157}|  ^",
    b"\t" * 100 + b"a" * 100 + b" $": f"1:201: error: unexpected character|{'a' * 79} $|{' ' * 80}^",
}


class Checks(Count):
    """The checks of one program."""

    def __init__(self, program):
        super().__init__()
        self.program = program

    def ends(self, words, due, data=b"", **more):
        """Checks the status, the output and the line on standard error of a run; what is None may be anything."""
        outcome = run([self.program, *words], input=data, **more)
        found = (outcome.status, outcome.out.decode(), outcome.err.decode())
        name = " ".join(words)[:60] or "no words"
        self.is_due(name, *zip(*((one, other) for one, other in zip(found, due) if other is not None)))


# --- words, files, statuses ---------------------------------------------------------------------------------------------


def check_words(checks):
    """Help, the version, and words that give no command."""
    for words in (["help"], ["-h"], ["--help"], ["help", "dump"], ["tokens", "-h"], ["unparse", "--help"], ["help", "check"]):
        outcome = run([checks.program, *words])
        named = {"tokens", "dump", "unparse", "check"} if len(words) == 1 else {"Usage: pyast", "FILE"}
        text = outcome.out.decode()
        checks.is_due(" ".join(words), (outcome.status, outcome.err, sorted(one for one in named if one not in text)), (0, b"", []))
    for words in (["help", "dump"], ["dump", "-h"], ["help", "unparse"], ["unparse", "--help"], ["help", "check"]):
        text = " ".join(run([checks.program, *words]).out.decode().split())
        checks.is_due(f"{' '.join(words)}: the limits", [one for one in LIMITS if one not in text], [])
    for words in (["--version"], ["-V"]):
        checks.ends(words, (0, "pyast 2.0.0\n", ""))
    bad = ([], ["x.py"], ["frob"], ["dump", "-c", "x"], ["dump", "a", "b"], ["dump", "--indent", "17"], ["tokens", "--whole"], ["tokens", "--count", "1000000001"], ["tokens", "--version"])
    for words in bad:
        checks.ends(words, (2, "", "pyast: bad arguments\n"))
    for command in ("tokens", "dump", "unparse"):
        for words in (["--stdin-name", "a", "b"], ["--stdin-name"], ["--stdin-name", "a", "--stdin-name", "a"], ["--show", "--show"], ["--shows"]):
            checks.ends([command, *words], (2, "", "pyast: bad arguments\n"))
    # Of words of `check` the one is named that no others make good.
    for words, word in BAD_CHECKS.items():
        checks.ends(["check", *words.split()], (2, "", f"pyast: bad arguments: {word}\n"))
    checks.ends(["tokens", "--resume", "x"], (2, "", "pyast: malformed cursor\n"))
    checks.ends(["tokens", "--resume", "pytok1 7 8 2 0 1 0 0,8"], (2, "", "pyast: cursor of another source\n"), b"x\n")


def check_files(checks):
    """A source by its name, beside others of similar names, and files that can't be read."""
    with tempfile.TemporaryDirectory() as folder:
        # The longest name that a file can have.
        longest = "n" * 252 + ".py"
        near = (" a.py", "a.py ", "a.py~", "~a.py", "a.py.", "A.py")
        bad = "if x:\n    y = (1 +\n"
        for name, text in (("a.py", "x = 1\n"), ("a.p", "y\n"), *((one, "z\n") for one in near), ("-", "x = 1\n"), ("bad.py", bad), (longest, bad)):
            with open(os.path.join(folder, name), "w", encoding="utf-8") as file:
                file.write(text)
        for name in ("a.py", "./a.py", "-", os.path.join(folder, "a.py")):
            checks.ends(["tokens", name], (0, LISTING, ""), b"w\n", cwd=folder)
            checks.ends(["dump", name], (0, DUMP, ""), b"w\n", cwd=folder)
            checks.ends(["unparse", name], (0, "x = 1\n", ""), b"w\n", cwd=folder)
        for name in near:
            checks.ends(["unparse", name], (0, "z\n", ""), b"w\n", cwd=folder)
        for command in ("tokens", "dump", "unparse"):
            for name in ("bad.py", longest):
                checks.ends([command, name], (1, None, f"{name}:3:0: error: EOF in multi-line statement\n"), cwd=folder)
            checks.ends([command, "none.py"], (3, "", "pyast: cannot open file\n"), cwd=folder)
            checks.ends([command, "."], (3, "", "pyast: read failed\n"), cwd=folder)
            checks.ends([command, "--", "none.py"], (3, "", "pyast: cannot open file\n"), cwd=folder)
            with open("/dev/full", "wb") as full:
                done = subprocess.run([checks.program, command], input=b"x = 1\n", stdout=full, stderr=subprocess.PIPE, check=False)
            checks.is_due(f"{command} to a full disk", (done.returncode, done.stderr), (3, b"pyast: write failed\n"))
    checks.ends(["dump"], (1, "", "<stdin>:1:0: error: invalid syntax\n"), b"x y\n")
    checks.ends(["tokens"], (1, None, "<stdin>:3:2: error: unindent does not match any outer indentation level\n"), b"if a:\n    b\n  c\n")
    checks.ends(["dump"], (4, "", None), b"x\n" * 400_000, preexec_fn=lambda: resource.setrlimit(resource.RLIMIT_AS, (30 << 20, 30 << 20)))


def check_rows(checks):
    """The row of a fault, and the caret below its place, by each command that shows them; faults without a place have none."""
    for source, lines in SHOWN.items():
        told = "<stdin>:" + lines.replace("|", "\n") + "\n"
        for words in (["dump", "--show"], ["dump", "--attributes", "--show"], ["dump", "--show", "--bare", "--indent", "1", "--py312"], ["unparse", "--show"], ["check", "--show", "-"]):
            checks.ends(words, (1, "", told), source)
            checks.ends([word for word in words if word != "--show"], (1, "", told.split("\n", 1)[0] + "\n"), source)
    checks.ends(["dump", "--show", "--stdin-name", "n.py"], (1, "", "n.py:1:2: error: unexpected character\nx $\n  ^\n"), b"x $\n")
    checks.ends(["dump", "--show", "none.py"], (3, "", "pyast: cannot open file\n"))
    checks.ends(["dump", "--show"], (0, DUMP, ""), b"x = 1\n")


def check_many(checks):
    """`check` of several files: each is judged, those that can't be read are named, and the status is the greatest."""
    with tempfile.TemporaryDirectory() as folder:
        for name, text in (("a.py", "x = 1.5\n"), ("b.py", "y z\n"), ("good.py", "x = 1\n"), ("-", "y z\n"), ("it's odd\n.py", "$\n")):
            with open(os.path.join(folder, name), "w", encoding="utf-8") as file:
                file.write(text)
        named = {
            "a.py": (1, "a.py:1:4: error: float literal\n"), "b.py": (1, "b.py:1:0: error: invalid syntax\n"), "good.py": (0, ""),
            "none.py": (3, "pyast: none.py: cannot open file\n"), ".": (3, "pyast: .: read failed\n"), "./-": (1, "./-:1:0: error: invalid syntax\n"),
            "-": (1, "<stdin>:2:2: error: unexpected indent\n"), "it's odd\n.py": (1, "it's odd\n.py:1:0: error: unexpected character\n"),
        }
        for names in (*([one] for one in named), ["good.py", "good.py"], ["a.py", "good.py"], ["none.py", "a.py"], ["a.py", "none.py"], list(named), list(named)[::-1]):
            due = max(named[one][0] for one in names), "", "".join(named[one][1] for one in names)
            checks.ends(["check", *names], due, b"x\n  y\n", cwd=folder)
        checks.ends(["check", "--whole", "a.py", "--stdin-name", "n.py", "-"], (1, "", "n.py:2:2: error: unexpected indent\n"), b"x\n  y\n", cwd=folder)
        checks.ends(["check", "--py312", "-"], (0, "", ""), b"type x = y\n", cwd=folder)
        checks.ends(["check", "-"], (1, "", "<stdin>:1:0: error: invalid syntax\n"), b"type x = y\n", cwd=folder)
        checks.ends(["check", "--", "--whole", "a.py"], (3, "", "pyast: --whole: cannot open file\na.py:1:4: error: float literal\n"), cwd=folder)
        # Room for one of the files and its tree, and not for two.
        with open(os.path.join(folder, "long.py"), "wb") as file:
            file.write(b"f(a, b=1)\n" * 100_000)
        room = lambda: resource.setrlimit(resource.RLIMIT_AS, (96 << 20, 96 << 20))
        checks.ends(["check", *["long.py"] * 8, "a.py"], (1, "", named["a.py"][1]), cwd=folder, preexec_fn=room)
        small = lambda: resource.setrlimit(resource.RLIMIT_AS, (30 << 20, 30 << 20))
        checks.ends(["check", "good.py", "long.py", "a.py"], (4, "", "pyast: out of memory\n"), cwd=folder, preexec_fn=small)


# --- reading and writing ------------------------------------------------------------------------------------------------


def wait_for(process, size):
    """What a process writes until so many bytes of it have come, it ends, or it is late."""
    written, late = b"", time.monotonic() + SOON
    while len(written) < size and time.monotonic() < late:
        if select.select([process.stdout], [], [], 0.1)[0]:
            piece = os.read(process.stdout.fileno(), 1 << 16)
            written += piece
            if not piece:
                break
    return written


def open_pipe(checks, words, data, to=subprocess.PIPE, told=subprocess.DEVNULL):
    """A run whose input stays open after some bytes."""
    process = subprocess.Popen([checks.program, *words], stdin=subprocess.PIPE, stdout=to, stderr=told)
    # A run may end before it has read them.
    with contextlib.suppress(BrokenPipeError):
        process.stdin.write(data)
        process.stdin.flush()
    return process


def ended(process):
    """The status with which a process ends, or None where it is late."""
    try:
        return process.wait(SOON)
    except subprocess.TimeoutExpired:
        process.kill()
        return None


def check_streams(checks):
    """A count ends a run whose input doesn't; lines are written while more may come; reads are large; memory stays small."""
    for count in (0, 1, 4, 5):
        process = open_pipe(checks, ["tokens", "--count", str(count)], b"x = 1\n")
        written = wait_for(process, 1 << 16)
        checks.is_due(f"--count {count} on an open pipe", written.decode().splitlines()[:count], LISTING.splitlines()[:count])
        checks.is_due(f"--count {count} asks for no more", (ended(process), written.count(b"\n")), (0, count + 1))
        process.stdin.close()
    process = open_pipe(checks, ["tokens"], b"x = 1\n" * 10_000)
    written = wait_for(process, 1 << 20)
    checks.is_due("lines are written while the input is open", len(written) > 1 << 20, True)
    with open(f"/proc/{process.pid}/io", encoding="ascii") as file:
        reads = int(next(line.split()[1] for line in file if line.startswith("syscr")))
    checks.is_due("60,000 bytes take few reads", reads < 200, True)
    process.stdin.close()
    process.stdout.close()
    process.wait()
    check_memory(checks, "tokens of 42 MB, in 12 MB of memory", "tokens", b"name = value  # text\n" * 2_000_000, MEMORY)
    # The tree takes 56 MB of it, and the text is 17 MB long.
    check_memory(checks, "a dump isn't held whole", "dump", b"x = f(a, b=1)\n" * 100_000, DUMP_MEMORY)


def check_open_pipes(checks):
    """What ends a run ends it though its input stays open: nothing more is read after a fault, a failed write, or words that give no command."""
    lines = b"x = 1\n" * 10_000
    cases = [(["tokens"], b"# x\n" + fault + b"\n", (1, f"<stdin>:{at}: error: {text}\n")) for fault, at, text in (
        (b"x $", "2:2", "unexpected character"), (b"x )", "2:2", "unmatched closing bracket"), (b"x = 'a", "2:4", "unterminated string literal"),
        (b"if a:\n  b\n c", "4:1", "unindent does not match any outer indentation level"), (b"a\xff", "2:1", "invalid UTF-8"),
        (b"a\rb", "2:1", "carriage return without line feed"), (b"# coding: latin-1", "2:0", "unsupported encoding"))]
    cases += [(["tokens", "--count", "100"], b"x $\n", (1, "<stdin>:1:2: error: unexpected character\n")),
              (["tokens", "--resume", "pytok1 1 2 3"], b"x\n", (2, "pyast: malformed cursor\n")),
              (["tokens", "--resume", "pytok1 2 1 1 0 0 0 0"], b"yes\n", (2, "pyast: cursor of another source\n")),
              *(([command, "--frob"], b"x\n", (2, "pyast: bad arguments\n")) for command in ("tokens", "dump", "unparse")),
              (["dump", "none.py"], b"x\n", (3, "pyast: cannot open file\n"))]
    for words, data, due in cases:
        process = open_pipe(checks, words, data, to=subprocess.DEVNULL, told=subprocess.PIPE)
        checks.is_due(f"{' '.join(words)} of {data[:20]!r} on an open pipe", (ended(process), process.stderr.read().decode()), due)
        process.stderr.close()
        with contextlib.suppress(BrokenPipeError):
            process.stdin.close()
    ended_reader = os.pipe()
    os.close(ended_reader[0])
    with open("/dev/full", "wb") as full:
        for name, to in (("a full disk", full), ("a reader that has ended", ended_reader[1])):
            for data, words in ((lines, ["tokens"]), (b"x\n", ["tokens", "--count", "1"]), (b"x $\n", ["tokens"])):
                process = open_pipe(checks, words, data, to=to, told=subprocess.PIPE)
                found = (ended(process), process.stderr.read())
                checks.is_due(f"{' '.join(words)} of {len(data)} bytes on an open pipe to {name}", found, (3, b"pyast: write failed\n"))
                process.stderr.close()
                with contextlib.suppress(BrokenPipeError):
                    process.stdin.close()
    os.close(ended_reader[1])


def check_terminal(checks):
    """At a terminal one end of input, which Ctrl-D gives at the start of a line, ends each command: no read follows it."""
    for typed, texts in ((b"x = 1\n", (LISTING, DUMP, "x = 1\n")), (b"", (None, "Module(body=[], type_ignores=[])\n", ""))):
        for command, text in zip(("tokens", "dump", "unparse"), texts):
            terminal, lent = pty.openpty()
            process = subprocess.Popen([checks.program, command], stdin=lent, stdout=subprocess.PIPE, stderr=subprocess.DEVNULL)
            os.close(lent)
            os.write(terminal, typed + b"\x04")
            written = wait_for(process, 1 << 16).decode()
            checks.is_due(f"{command} at a terminal, {len(typed)} bytes typed", (ended(process), written if text is not None else None), (0, text))
            process.stdout.close()
            os.close(terminal)


def check_memory(checks, what, command, source, size):
    """So many bytes of memory suffice for a command on a source."""
    with tempfile.NamedTemporaryFile() as file:
        file.write(source)
        file.flush()
        memory = lambda: resource.setrlimit(resource.RLIMIT_AS, (size, size))
        done = subprocess.run([checks.program, command, file.name], stdout=subprocess.DEVNULL, preexec_fn=memory, check=False)
        checks.is_due(what, done.returncode, 0)


# --- memory that is given back ------------------------------------------------------------------------------------------

# Lines whose forms are let go as they are read: all kinds of expressions, patterns' values and simple statements, and headers.
LINES = """\
f(a, *b, c=d, **e)|x = y = 1|[a, *b]|(a, b)|{a, b}|{a: b, **c}|lambda a, /, b=c, *d, e=f, **g: h|[a for b in c if d]|{a for b in c}|{a: b for c in d}|\
(a async for b in c)|a.b.c|a[b:c:d]|a[b, c]|a if b else c|a < b <= c|not a|-a|a and b or c|a + b * c|(a := b)|await a|yield a|yield|(yield from a)|\
'a text that has no room in its node'|b'some bytes'|123456789012345678901234567890|1.5|2j|...|a_name_that_has_no_room_in_its_node|\
f'a{b!r:>{c}}d{e=}'|u'a' f'{b}'|x: int = 1|x: int|x += 1|del a, b[c]|global a, b|nonlocal a|import a.b as c, d|from .a import b as c, d|from a import *|\
return a|return|raise a from b|assert a, b|pass|break|continue|type A[B: c, *D, **E] = f|def f(a: b = c, *d, **e) -> g: h|async def f(): pass|\
class A[B](c, d=e): f|if a: b|while a: b|for a in b: c|with a as b, c: d|@a|else: a""".replace("\n", "").split("|")
# Statements that are kept until a line is faulty, and let go then.
BLOCKS = {
    "def": "@a\ndef f(b, *c, d=e, **g) -> h:\n return i\n", "async def": "async def f(a=b):\n await c\n", "class": "@a\nclass B(c, d=e):\n f = 1\n",
    "if": "if a:\n b\nelif c:\n d\nelse:\n e\n", "while": "while a:\n b\nelse:\n c\n", "for": "for a, b in c:\n d\nelse:\n e\n",
    "with": "with a as b, c:\n d\n", "try": "try:\n a\nexcept b as c:\n d\nelse:\n e\nfinally:\n f\n", "try star": "try:\n a\nexcept* b as c:\n d\n",
    "match": "match a:\n case [b, *c] | {1: d, **e} | f(g, h=i) if j:\n  k\n", "async for": "async def f():\n async for a in b:\n  c\n",
    "async with": "async def f():\n async with a:\n  c\n", "parameters of types": "def f[A: b, *C, **D](): pass\n", "simple": "x = f(a, b=[c])\nimport d as e\n",
}


def peak_of(checks, source):
    """The most memory that `dump` holds of a source with a faulty line, in bytes, and its status: seen while it can't write that line."""
    told, fault = os.pipe()
    os.set_blocking(fault, False)
    for size in (4096, 1):
        with contextlib.suppress(BlockingIOError):
            while True:
                os.write(fault, b"." * size)
    os.set_blocking(fault, True)
    with tempfile.NamedTemporaryFile() as file:
        file.write(source)
        file.flush()
        words = [checks.program, "dump", "--whole", "--py312", file.name]
        process = subprocess.Popen(words, stdout=subprocess.DEVNULL, stderr=fault)
        os.close(fault)
        late = time.monotonic() + SOON
        while True:
            with open(f"/proc/{process.pid}/status", encoding="ascii") as status:
                text = status.read()
            if re.search(r"^State:\s*[SZ]", text, re.M) or time.monotonic() > late:
                break
            time.sleep(0.002)
        os.close(told)
        process.wait()
    found = re.search(r"^VmHWM:\s*(\d+) kB", text, re.M)
    return int(found[1]) << 10 if found else 0


def check_given_back(checks):
    """A tree that is let go gives back its memory: after a faulty line forms are read and let go, and what was kept before it is."""
    first = b"x\n  y\n"
    many = "".join(f"{line}\n" for line in LINES).encode() * 20_000
    noted = re.sub(rb"(?m)^.", b"#", many)
    # One part of 24 bytes in each line of one kind that isn't given back takes 640 KB.
    more = peak_of(checks, first + many) - peak_of(checks, first + noted)
    checks.is_due(f"the memory of {many.count(10)} lines is given back", more < 480 << 10 or f"{more} bytes more than for comments", True)
    alone = peak_of(checks, first)
    call = (peak_of(checks, first + b"[" + b"f(a, b=1), " * 20_000 + b"]\n") - alone) / 20_000
    for name, block in BLOCKS.items():
        kept = peak_of(checks, block.encode() * 20_000 + first)
        # A line that takes less than was let go before it, so that it needs no more room.
        line = b"[" + b"f(a, b=1), " * int(0.7 * (kept - alone) / call) + b"]\n"
        share = (peak_of(checks, block.encode() * 20_000 + first + line) - kept) / (kept - alone)
        checks.is_due(f"the memory of 20,000 statements ({name}) is given back", share < 0.2 or f"{share:.2f} of it more is needed", True)


# --- large sources ------------------------------------------------------------------------------------------------------


def check_large(checks):
    """Sources past every round number: rows, columns, entries, statements, levels, long lines and literals, and faults after them."""
    rows = 100_001
    source = b"x = 1\n" * rows
    outcome = run([checks.program, "tokens"], input=source)
    due = ["0,0-0,0:".ljust(20) + "ENCODING       'utf-8'        "]
    for row in range(1, rows + 1):
        for at, to, kind, text in ((0, 1, "NAME", "'x'"), (2, 3, "OP", "'='"), (4, 5, "NUMBER", "'1'"), (5, 6, "NEWLINE", "'\\n'")):
            due.append(f"{row},{at}-{row},{to}:".ljust(20) + kind.ljust(15) + text.ljust(15))
    due.append(f"{rows + 1},0-{rows + 1},0:".ljust(20) + "ENDMARKER".ljust(15) + "''".ljust(15))
    checks.is_due("tokens of 100,001 rows", (outcome.status, outcome.out.decode().splitlines() == due, outcome.err), (0, True, b""))
    one = "Assign(targets=[Name(id='x', ctx=Store())], value=Constant(value=1))"
    checks.ends(["dump"], (0, f"Module(body=[{', '.join([one] * rows)}], type_ignores=[])\n", ""), source)
    checks.ends(["unparse"], (0, source.decode(), ""), source)
    checks.ends(["check", "-"], (0, "", ""), source)
    ways = (*([*words, *way] for words in (["dump"], ["unparse"], ["check", "-"]) for way in ([], ["--whole"], ["--py312"], ["--show"], ["--whole", "--py312", "--show"])),
            *(["dump", *way] for way in (["--attributes"], ["--bare"], ["--indent", "16"], ["--attributes", "--bare", "--indent", "16", "--whole", "--show"])),
            *(["tokens", *way] for way in ([], ["-e"], ["--count", "1000000000"])))
    for words in ways:
        shown = [f"{row}\n{' ' * min(len(row) - 1, 80)}^\n" if "--show" in words else "" for row in (")", "x" * 80 + "$", "x" * 80 + "?")]
        checks.ends(words, (1, None, f"<stdin>:{rows + 1}:0: error: unmatched closing bracket\n{shown[0]}"), source + b")\n")
        checks.ends(words, (1, None, f"<stdin>:1:2200001: error: unexpected character\n{shown[1]}"), (b" " if words[0] == "tokens" else b"x") * 2_200_001 + b"$\n")
        checks.ends(words, (1, None, f"<stdin>:{rows + 1}:12345: error: unexpected character\n{shown[2]}"), source + b"x" * 12_345 + b"?\n")
    with tempfile.TemporaryFile() as file:
        file.write(b"abc + " * 200_000 + b"x\n")
        file.seek(0)
        process = subprocess.Popen([checks.program, "tokens"], stdin=file, stdout=subprocess.DEVNULL)
        checks.is_due("tokens of a line of 400,001 entries, in seconds", ended(process), 0)
    long_name, long_text = "n" * 1_100_000, "t" * 1_100_000
    checks.ends(["unparse"], (0, f"{long_name} = '{long_text}'\n", ""), f"{long_name}='{long_text}'".encode())
    checks.ends(["dump", "--bare"], (0, f"Module([Expr(Name('{long_name}', Load()))], [])\n", ""), long_name.encode())
    many = "".join(f"{name}\n" for name in map("v{}".format, range(10_001)))
    checks.ends(["unparse"], (0, many, ""), many.encode())
    sums = "+".join(["a"] * 400) + "\n"
    checks.ends(["unparse"], (0, sums.replace("+", " + "), ""), sums.encode())
    items = ", ".join(["a"] * 100_001)
    checks.ends(["unparse"], (0, f"[{items}]\n", ""), f"[{items}]\n".encode())
    levels = 1_001
    nested = "".join(" " * level + "if x:\n" for level in range(levels)) + " " * levels + "y\n"
    outcome = run([checks.program, "tokens"], input=nested.encode())
    found = outcome.out.decode()
    checks.is_due("tokens of 1,001 levels", (outcome.status, found.count(": INDENT "), found.count("INDENT  "), found.count("DEDENT  ")), (0, 0, levels, levels))
    for words in (["dump"], ["unparse"], ["dump", "--attributes"]):
        checks.ends(words, (1, "", "<stdin>:501:500: error: too deep\n"), nested.encode())


def placed(node, row, column, end_row, end_column):
    """A node, less its last bracket, as it is shown with its place."""
    return f"{node}, lineno={row}, col_offset={column}, end_lineno={end_row}, end_col_offset={end_column})"


def named(name, row, column):
    """A name as it is shown with its place."""
    return placed(f"Name(id='{name}', ctx=Load()", row, column, row, column + len(name))


def expression(node, row, end_column):
    """The dump of a source whose last row is this expression from column 0 on, with places."""
    return f"Module(body=[{placed(f'Expr(value={node}', row, 0, row, end_column)}], type_ignores=[])\n"


def check_large_places(checks):
    """Places past every round number: of rows, columns, nodes, bytes and levels."""
    words, rows = ["dump", "--attributes"], 100_001
    one = "Assign(targets=[Name(id='x', ctx=Store(), {0}1)], value=Constant(value=1, {1}5), {0}5)"
    part = "lineno={0}, col_offset={1}, end_lineno={0}, end_col_offset="
    due = ", ".join(one.format(part.format(row, 0), part.format(row, 4)) for row in range(1, rows + 1))
    checks.ends(words, (0, f"Module(body=[{due}], type_ignores=[])\n", ""), b"x = 1\n" * rows)
    # A million and one names, in columns past 2,000,000.
    names = ", ".join(named("a", 1, 2 * i + 1) for i in range(1_000_001))
    end = 2_000_004
    due = expression(placed(f"List(elts=[{names}], ctx=Load()", 1, 0, 1, end), 1, end)
    checks.ends(words, (0, due, ""), b"[" + b"a," * 1_000_001 + b"]\n")
    # Names after 17 MB of comments, and after a text as long.
    checks.ends(words, (0, expression(named("x", 170_001, 0), 170_001, 1), ""), (b"#" + b"c" * 98 + b"\n") * 170_000 + b"x\n")
    long = "t" * 17_000_000
    due = placed(f"Tuple(elts=[{placed(f'Constant(value={long!r}', 1, 0, 1, 17_000_002)}, {named('x', 1, 17_000_004)}], ctx=Load()", 1, 0, 1, 17_000_005)
    checks.ends(words, (0, expression(due, 1, 17_000_005), ""), f"{long!r}, x\n".encode())
    tree = placed("Pass(", 500, 499, 500, 503).replace("(, ", "(")
    for row in range(499, 0, -1):
        tree = placed(f"If(test={named('x', row, row + 2)}, body=[{tree}], orelse=[]", row, row - 1, 500, 503)
    checks.ends(words, (0, f"Module(body=[{tree}], type_ignores=[])\n", ""), within(499, "pass").encode())


def check_large_whole(checks):
    """The whole language past every round number: fields, texts and specs of f-strings, digits, cases, patterns and keys; with places too."""
    rows = 100_001
    fields, end = "a{x}" * rows, 4 * rows + 3
    part = "Constant(value='a'), FormattedValue(value=Name(id='x', ctx=Load()), conversion=-1)"
    checks.ends(["unparse", "--whole"], (0, f"f'{fields}'\n", ""), f"f'{fields}'\n".encode())
    checks.ends(["dump", "--whole"], (0, f"Module(body=[Expr(value=JoinedStr(values=[{', '.join([part] * rows)}]))], type_ignores=[])\n", ""), f"f'{fields}'\n".encode())
    text = placed("Constant(value='a'", 1, 0, 1, end)
    parts = (f"{text}, {placed(f'FormattedValue(value={named(chr(120), 1, 4 * i + 4)}, conversion=-1', 1, 0, 1, end)}" for i in range(rows))
    checks.ends(["dump", "--whole", "--attributes"], (0, expression(placed(f"JoinedStr(values=[{', '.join(parts)}]", 1, 0, 1, end), 1, end), ""), f"f'{fields}'\n".encode())
    specs = "f'{x:" + "{y}" * rows + "}'\n"
    checks.ends(["unparse", "--whole"], (0, specs, ""), specs.encode())
    many = "f'{x}'\n" * rows
    checks.ends(["unparse", "--whole"], (0, many, ""), many.encode())
    long = "t" * 1_100_000
    for body in (long + "{x}" + long, "{" + long + "}", "{x:" + long + "}"):
        checks.ends(["unparse", "--whole"], (0, f"f'{body}'\n", ""), f"f'{body}'\n".encode())
    checks.ends(["unparse", "--whole"], (0, "(1.0, 0.0, 1e309, 1j)\n".replace("(", "").replace(")", ""), ""), ("1." + "0" * rows + ", 0." + "0" * rows + "1, 1e" + "9" * rows + ", 1" + ".0" * 1 + "0" * rows + "j\n").encode())
    cases = "match x:\n" + "    case 1:\n        pass\n" * rows
    checks.ends(["unparse", "--whole"], (0, cases, ""), cases.encode())
    case = "match_case(pattern=MatchValue(value=Constant(value=1)), body=[Pass()])"
    checks.ends(["dump", "--whole"], (0, f"Module(body=[Match(subject=Name(id='x', ctx=Load()), cases=[{', '.join([case] * rows)}])], type_ignores=[])\n", ""), cases.encode())
    for pattern in (" | ".join(["1"] * rows), ", ".join(["a"] * rows), f"{{{', '.join(['1: _'] * rows)}}}", f"A({', '.join(['_'] * rows)})", f"A({', '.join(['a=_'] * rows)})"):
        matches = f"match x:\n    case {pattern}:\n        pass\n"
        checks.ends(["unparse", "--whole"], (0, matches, ""), matches.encode())
    for source, at in ((b"x = 1.5\n" * rows, f"{rows + 1}:0"), (b"f'{x}'\n" * rows, f"{rows + 1}:0"), (f"f'{fields}'".encode() + b" ", f"1:{end + 1}")):
        for words in (["dump", "--whole"], ["dump", "--whole", "--attributes"], ["unparse", "--whole"]):
            checks.ends(words, (1, None, f"<stdin>:{at}: error: f-string\n"), source + b"f'{}'\n")


def check_characters(checks):
    """Each character below U+0180 by itself, alone and beside doubled braces, in texts and in f-strings."""
    characters = [chr(one) for one in range(1, 0x180) if chr(one) not in "\n\r'\\{}"]
    texts = [text for one in characters for text in (one, f"{one}{{{one}}}{one}")]
    due = ", ".join(f"Expr(Constant({text!r}))" for text in texts)
    checks.ends(["dump", "--bare"], (0, f"Module([{due}], [])\n", ""), "".join(f"'{text}'\n" for text in texts).encode())
    due = ", ".join(f"Expr(JoinedStr([Constant({text!r})]))" for text in texts)
    doubled = "".join(f"f'{text}'\n" for text in texts).replace("{", "{{").replace("}", "}}")
    checks.ends(["dump", "--bare", "--whole"], (0, f"Module([{due}], [])\n", ""), doubled.encode())


# --- the stack ----------------------------------------------------------------------------------------------------------


def within(levels, line):
    """A line in so many nested `if` statements."""
    return "".join(" " * level + "if x:\n" for level in range(levels)) + " " * levels + line + "\n"


def in_fields(most, within, brackets=0):
    """600 brackets, 599 in a field within them, and so many in a field of that, with something within that has some of these."""
    last = most - brackets
    return "(" * 600 + "f'{" + "(" * 599 + 'f"{' + "(" * last + within + ")" * last + '}"' + ")" * 599 + "}'" + ")" * 600


def check_stack(checks):
    """STACK bytes suffice for the deepest sources, and for those that are too deep by one, by each command with each of its options."""
    deepest = {
        "brackets": ("(" * 600 + "x" + ")" * 600 + "\n", "(" * 601 + "x" + ")" * 601 + "\n"),
        "yields": ("[(yield " * 249 + "x" + ")]" * 249 + "\n", "[(yield " * 251 + "x" + ")]" * 251 + "\n"),
        "calls": ("f(" * 499 + "x" + ")" * 499 + "\n", "f(" * 500 + "x" + ")" * 500 + "\n"),
        "lambdas": ("lambda: " * 499 + "x\n", "lambda: " * 500 + "x\n"),
        "signs": ("-" * 499 + "x\n", "-" * 500 + "x\n"),
        "defaults": ("lambda a=" * 499 + "x" + ": x" * 499 + "\n", "lambda a=" * 500 + "x" + ": x" * 500 + "\n"),
        "comprehensions": ("[x for x in " * 499 + "x" + "]" * 499 + "\n", "[x for x in " * 500 + "x" + "]" * 500 + "\n"),
        "lists": ("[" * 499 + "x" + "]" * 499 + "\n", "[" * 500 + "x" + "]" * 500 + "\n"),
        "statements": (within(499, "pass"), within(500, "pass")),
        "lambdas in statements": (within(499, "lambda: " * 498 + "x"), within(499, "lambda: " * 500 + "x")),
    }
    in_field = {
        "brackets in fields": (in_fields(599, "x") + "\n", in_fields(600, "x") + "\n"),
        "lambdas in fields": (within(499, in_fields(599, "lambda: " * 495 + "x")), within(499, in_fields(599, "lambda: " * 496 + "x"))),
        "defaults in fields": tuple(within(499, in_fields(599, "lambda a=" * count + "x" + ": x" * count)) for count in (495, 496)),
        "comprehensions in fields": tuple(within(499, in_fields(599, "[x for x in " * count + "x" + "]" * count, count)) for count in (495, 496)),
    }
    check_stack_of(checks, deepest, [])
    check_stack_of(checks, in_field, ["--whole"])


def check_stack_of(checks, sources, extent):
    """The stack suffices for each pair of an accepted source and one that is too deep by one, by each command with these words and each option."""
    stack = lambda: resource.setrlimit(resource.RLIMIT_STACK, (STACK, STACK))
    ways = ([], ["--show"], ["--attributes"], ["--indent", "16"], ["--bare"], ["--py312"], ["--attributes", "--bare", "--indent", "16", "--py312"])
    listings = ([], ["-e"], ["--count", "1000000"], ["--resume", "pytok1 1 0 1 0 0 0 0"])
    for name, (accepted, refused) in sources.items():
        runs = [(["dump", *way, *extent], accepted, 0) for way in ways]
        runs += [([*words, *way, *extent], accepted, 0) for words in (["unparse"], ["check", "-"]) for way in ([], ["--py312"], ["--show"])]
        runs += [([*words, *way, *extent], refused, 1) for words in (["dump"], ["dump", "--attributes"], ["unparse"], ["check", "-"]) for way in ([], ["--show"])]
        runs += [(["tokens", *way], refused, 0) for way in listings]
        for words, source, status in runs:
            outcome = run([checks.program, *words], input=source.encode(), preexec_fn=stack)
            checks.is_due(f"{' '.join(words)} of {name}, in {STACK} bytes of stack", outcome.status, status)


def main():
    parser = argparse.ArgumentParser(description=__doc__.partition("\n")[0])
    parser.add_argument("--program", default=PROGRAM, metavar="PATH", help="the built program")
    checks = Checks(os.path.abspath(parser.parse_args().program))
    if not os.access(checks.program, os.X_OK):
        print(f"program.py: {checks.program} isn't there", file=sys.stderr)
        return 2
    parts = (check_words, check_files, check_rows, check_many, check_streams, check_open_pipes, check_terminal, check_given_back, check_large, check_large_places, check_large_whole, check_characters, check_stack)
    for part in parts:
        part(checks)
    return checks.end()


if __name__ == "__main__":
    sys.exit(main())
