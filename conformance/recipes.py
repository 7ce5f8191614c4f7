#!/usr/bin/env python3
"""Runs what README.md, docs/USE.md, docs/LIBRARY.md and the manual page tell to type, as it stands there, and checks what comes out.

    conformance/recipes.py

- A line of a block that begins with `$ ` is run in the clone, and has to write the lines below it.
- The functions for a shell and the programs of docs/USE.md are tried on good, refused, missing and oddly named files.
- Any other command has an entry in COMMANDS below, which says what it has to do, or why it isn't run.
- The sources of the table of mistakes have to be reported as it says, and links have to lead somewhere.

A block or a function that no check here knows is a failure. What is expected comes from Python's own `tokenize` and `ast`, or stands here. The last
line counts the checks; the exit status is 0, 1 where one failed, and 2 where the built program isn't there.
"""

import ast
import collections
import functools
import glob
import io
import json
import os
import re
import shutil
import subprocess
import sys
import tempfile
import token
import tokenize

from common import PROGRAM, TOP, Count, go_on_with_python_311, refuse

PAGES = ("README.md", "docs/USE.md", "docs/LIBRARY.md", "docs/pyast.1")
BLOCK = re.compile(r"^```(\w*)\n(.*?)^```$", re.DOTALL | re.MULTILINE)
FUNCTION = re.compile(r"^(\w+)\(\) [({]$", re.MULTILINE)
# Entries whose places or types fill their columns, texts with quotes, blanks and line ends, a comment past row 10,000.
SOURCE = (
    "# first\nx //= 1\ny **= 2; z >>= 3  # 'quoted' \"twice\"\n" + "\n" * 10_000 + "if x:\n\tname = 'a  b\\n'  \n" + "x" + " " * 99 + "#ccccccccc\n"
    + "t = '''\n  #no comment\n''' ; u = \"it's\"\n"
)
OTHER = SOURCE.replace("y **= 2", "(y) **= (2)").replace("# first", "")
# Every kind of value that a dump may show.
VALUES = (
    "1e400j; 1e400; ...; None; True; False; u'a'; b'\\x00\"\\''; 'it\\'s \"q\"'; '\\u2028 \u00e9 \\U0010ffff \\x1b\\\\\\n'; 0xFF; 2**99; 1e16; 5e-324; 2j\n"
    "340282366920938463463374607431768211456; -1; 0.5; b''; ''\nf'{x!r:>{n}}{y}'\ndef f(a, /, *b, c=1, **d): return a\n{**a, 1: 2}\ndef g(*, a, b=1): pass\n" + "a" + " + a" * 300 + "\n"
)
NAMES = ("plain.py", "a b.py", "-x.py", "it's \"odd\" $HOME `x`.py", "new\nline.py", "\u00e9*.py")
# The sources of the files in each folder of a check, and what `dump --whole` reports of those that are refused.
GOOD, SAME, CHANGED, FLOATS, BAD = "x = 1.5\n", "x = (1.50)  # the same\n", "x = 2.5\n", "x = 1.5; y = 2.5; print(y)\n", "x = '\\N{DASH}'\n"
FAULT = "1:4: error: named escape\n"
MISSING = "pyast: cannot open file\n"


# --- the pages ----------------------------------------------------------------------------------------------------------


def text_of(page):
    """A page's text."""
    with open(f"{TOP}/{page}", encoding="utf-8") as file:
        return file.read()


def blocks_of(page):
    """The blocks of a page: language and text. In the manual page they are between .EX and .EE."""
    text = text_of(page)
    if page.endswith(".1"):
        found = re.findall(r"^\.EX\n(.*?)^\.EE$", text, re.DOTALL | re.MULTILINE)
        return [("sh", block.replace("\\-", "-").replace("\\(aq", "'").replace("\\e", "\\").replace("\\&", "")) for block in found]
    return BLOCK.findall(text)


def sessions_of(block):
    """The commands of a block with lines `$ COMMAND`, each with the lines that follow it."""
    for part in re.split(r"^\$ ", block, flags=re.MULTILINE)[1:]:
        command, _, written = part.partition("\n")
        yield command, written


def recipes():
    """The block for a shell of docs/USE.md that have functions, and the programs in Python and in JavaScript."""
    blocks = blocks_of("docs/USE.md")
    shell = "\n".join(block for kind, block in blocks if kind == "sh" and FUNCTION.search(block))
    return shell, "\n".join(block for kind, block in blocks if kind == "python"), "\n".join(block for kind, block in blocks if kind == "js")


# --- running ------------------------------------------------------------------------------------------------------------


def variables(**more):
    """The environment: the script `pyast` of the clone is on the PATH."""
    return {**os.environ, "PATH": f"{TOP}:{os.environ['PATH']}", "PYTHONUTF8": "1", "LC_ALL": "C.UTF-8", **more}


def run(words, folder=TOP, **more):
    """The status, the output and the errors of a command."""
    done = subprocess.run(words, cwd=folder, capture_output=True, env=variables(**more), stdin=subprocess.DEVNULL, check=False)
    return done.returncode, done.stdout.decode("utf-8", "surrogateescape"), done.stderr.decode("utf-8", "surrogateescape")


class Files:
    """A folder of files for one check."""

    def __init__(self, folder):
        self.folder = folder

    def write(self, name, source):
        """Makes a file."""
        os.makedirs(os.path.dirname(f"{self.folder}/{name}"), exist_ok=True)
        with open(f"{self.folder}/{name}", "w", encoding="utf-8", newline="") as file:
            file.write(source)
        return name

    def read(self, name):
        """A file's text."""
        with open(f"{self.folder}/{name}", encoding="utf-8", newline="") as file:
            return file.read()


class Checks(Count):
    """The checks, with what the recipes are."""

    def __init__(self):
        super().__init__()
        self.shell, self.python, self.js = recipes()
        # Each once: `sh` may be one of the others.
        self.shells = list({os.path.realpath(path): path for path in map(shutil.which, ("sh", "zsh", "bash")) if path}.values())
        self.tried = set()

    def call(self, files, function, *words):
        """The status, the output and the errors of a function in each shell; they have to be the same in all."""
        self.tried.add(function)
        found = [run([shell, "-c", f'{self.shell}\n"$@"', "recipe", function, *words], files.folder) for shell in self.shells]
        for shell, one in zip(self.shells, found):
            if one != found[0]:
                self.fail(f"{function} {words} in {shell}", f"{one!r} in place of {found[0]!r}")
        return found[0]

    def in_python(self, files, *lines):
        """What lines print after the programs in Python."""
        return run([sys.executable, "-c", self.python + "\n" + "\n".join(lines)], files.folder)


def in_folder(check):
    """A check that is given a folder of its own."""
    @functools.wraps(check)
    def checked(checks):
        with tempfile.TemporaryDirectory(prefix="pyast recipes ") as folder:
            check(checks, Files(folder))
    return checked


# --- the functions for a shell ------------------------------------------------------------------------------------------


@in_folder
def check_same(checks, files):
    """`same` and `differ` on files that are the same, that differ, that are refused and that are missing."""
    for name in NAMES:
        for source in (GOOD, SAME, CHANGED, BAD):
            files.write(f"{'gscb'[(GOOD, SAME, CHANGED, BAD).index(source)]}/{name}", source)
        good, same, changed, bad, none = (f"{folder}/{name}" for folder in ("g", "s", "c", "b", "none"))
        shown = run(["diff", files_of_dump(files, good), files_of_dump(files, changed)], files.folder)[1]
        for function in ("same", "differ"):
            checks.is_due(f"{function}: the same, {name!r}", checks.call(files, function, good, same), (0, "", ""))
            checks.is_due(f"{function}: others, {name!r}", checks.call(files, function, good, changed), (5, shown if function == "differ" else "", ""))
            for pair in ((bad, good), (good, bad), (bad, bad)):
                checks.is_due(f"{function}: refused, {name!r}", checks.call(files, function, *pair), (1, "", f"{bad}:{FAULT}"))
            for pair in ((none, good), (good, none)):
                checks.is_due(f"{function}: missing, {name!r}", checks.call(files, function, *pair), (3, "", MISSING))
    files.write("floats.py", FLOATS)
    files.write("-y.py", GOOD)
    checks.is_due("same: floats", checks.call(files, "same", "floats.py", f"g/{NAMES[0]}"), (5, "", ""))
    checks.is_due("same: a dash", checks.call(files, "same", "-y.py", f"g/{NAMES[0]}"), (0, "", ""))


def files_of_dump(files, name):
    """A file with what Python dumps of another."""
    return files.write(f"dump of {name.replace('/', ' ')}", ast.dump(ast.parse(files.read(name)), indent=1) + "\n")


@in_folder
def check_formatted(checks, files):
    """`formatted` by formatters that keep the tree, change it, break it, and fail."""
    formatters = {"keeps": "printf 'x = (1.5)\\n' >\"$1\"", "changes": "printf 'x = 2\\n' >\"$1\"", "breaks": "printf 'x = = 2\\n' >\"$1\"", "fails": "printf 'y' >\"$1\"; exit 7"}
    for name in NAMES:
        for formatter, status, text in (("keeps", 0, "x = (1.5)\n"), ("changes", 5, GOOD), ("breaks", 1, GOOD), ("fails", 7, GOOD)):
            for shell in checks.shells:
                files.write(name, GOOD)
                files.write("formatter", formatters[formatter])
                found = run([shell, "-c", f'{checks.shell}\n"$@"', "recipe", "formatted", f"./{name}", "sh", "formatter"], files.folder)
                checks.is_due(f"formatted: {formatter}, {name!r}, {shell}", (found[0], found[1], files.read(name)), (status, "", text))
        checks.is_due("formatted: missing", checks.call(files, "formatted", "none.py", "true")[:2], (1, ""))


@in_folder
def check_folder(checks, files):
    """`grade` and `twins` on a folder with all of these."""
    for name in NAMES:
        for folder, source in (("FOLDER", GOOD), ("FOLDER/same", SAME), ("FOLDER/other", CHANGED), ("FOLDER/bad ones", BAD), ("FOLDER/not python", BAD)):
            files.write(f"{folder}/{name}{'.txt' if folder.endswith('python') else ''}", source)
    bad = sorted(f"FOLDER/bad ones/{name}:{FAULT}" for name in NAMES)
    due = sorted([*(f"0\tFOLDER{part}/{name}\n" for part in ("", "/same", "/other") for name in NAMES), *(f"1\tFOLDER/bad ones/{name}\n" for name in NAMES)])
    for function in ("grade", "twins"):
        status, out, err = checks.call(files, function, "FOLDER")
        checks.is_due(f"{function}: status and faults", (status, sorted("".join(bad).split("\n"))), (0, sorted(err.split("\n"))))
        if function == "grade":
            checks.is_due("grade", sorted(out.split("\n")), sorted("".join(due).split("\n")))
            continue
        hashes = collections.defaultdict(set)
        for line in out.split("\n"):
            found = re.match(r"([0-9a-f]{16}) FOLDER(/same|/other|)/", line)
            if found:
                hashes[found[1]].add(found[2])
        checks.is_due("twins", sorted(map(sorted, hashes.values())), [["", "/same"], ["/other"]])
        checks.is_due("twins: files", len(re.findall(r"^[0-9a-f]{16} ", out, re.MULTILINE)), 3 * len(NAMES))
    checks.is_due("grade: no folder", checks.call(files, "grade", "none")[0] != 0, True)
    strange = os.path.join(os.fsencode(files.folder), b"strange", b"\xe9.py")
    os.makedirs(os.path.dirname(strange))
    with open(strange, "wb") as file:
        file.write(GOOD.encode())
    checks.is_due("grade: a name that isn't UTF-8", checks.call(files, "grade", "strange")[1], "2\tstrange/\udce9.py\n")


def entries(source, exact):
    """The entries of a source, as Python's module gives them."""
    for entry in tokenize.tokenize(io.BytesIO(source.encode()).readline):
        yield token.tok_name[entry.exact_type if exact else entry.type], entry


@in_folder
def check_listings(checks, files):
    """`comments` and `types`."""
    comments = [e for kind, e in entries(SOURCE, False) if kind == "COMMENT"]
    shown = [f"{e.start[0]},{e.start[1]}-{e.end[0]},{e.end[1]}:".ljust(20) + "COMMENT".ljust(15) + repr(e.string).ljust(15) + "\n" for e in comments]
    counts = collections.Counter(kind for kind, _ in entries(SOURCE, True))
    for name in NAMES:
        files.write(name, SOURCE)
        files.write(f"bad/{name}", "# one\nx = 1 $\n")
        checks.is_due("comments", checks.call(files, "comments", name), (0, "".join(shown), ""))
        checks.is_due("comments: refused", checks.call(files, "comments", f"bad/{name}"),
                      (1, "1,0-1,5:            COMMENT        '# one'        \n", f"bad/{name}:2:6: error: unexpected character\n"))
        checks.is_due("comments: missing", checks.call(files, "comments", f"none/{name}"), (3, "", MISSING))
        status, out, err = checks.call(files, "types", name)
        checks.is_due("types", (status, sorted(out.split()), err), (0, sorted(word for kind, count in counts.items() for word in (kind, str(count))), ""))
        checks.is_due("types: refused", checks.call(files, "types", f"bad/{name}")[0], 1)
        checks.is_due("types: missing", checks.call(files, "types", f"none/{name}"), (3, "", MISSING))


# --- the programs -------------------------------------------------------------------------------------------------------


@in_folder
def check_python(checks, files):
    """The programs in Python: listings and dumps as data, tokens and nodes, names."""
    files.write("a b.py", SOURCE)
    for exact in (False, True):
        due = [[kind, e.string, list(e.start), list(e.end)] for kind, e in entries(SOURCE, exact)]
        for words, most in ((["-e"] if exact else [], None), (["--count", "9", *(["-e"] if exact else [])], 9)):
            found = checks.in_python(files, f"import json; print(json.dumps(list(entries(pyast('tokens', *{words!r}, 'a b.py')))))")
            checks.is_due(f"entries {words}", (found[0], found[1] and json.loads(found[1]), found[2]), (0, due[:most], ""))
    files.write("values.py", VALUES)
    for words in ([], ["--attributes"], ["--indent", "2"]):
        line = f"dump = pyast('dump', '--whole', *{words!r}, 'values.py')\nmore = dict(include_attributes={'--attributes' in words}, indent={2 if '--indent' in words else None})"
        checks.is_due(f"tree_of {words}", checks.in_python(files, line, "print(ast.dump(tree_of(dump), **more) + '\\n' == dump)"), (0, "True\n", ""))
    files.write("bad.py", BAD)
    for name, fault in (("bad.py", f"bad.py:{FAULT}"), ("none.py", MISSING)):
        status, out, err = checks.in_python(files, f"pyast('dump', '--whole', {name!r})")
        checks.is_due(f"{name} in Python", (status, out, fault in err, "CalledProcessError" in err), (1, "", True, True))
    for name in NAMES:
        for mark in ("", "\ufeff"):
            check_names(checks, files, name, mark)


def check_names(checks, files, name, mark):
    """Tokens of nodes, names in definitions, and a name in another's place, in one file."""
    source = (
        "# caf\u00e9 get\r\nclass get:\r\n    '''\u2028get'''; get = '\u00e9'; get(get)\n"
        "async def g(get=1): return f\"\u00e9{get.get(get=get)}\"\n@get\ndef get(): pass\n"
        "from m import get as h, k as get\nimport get.a\ntry: pass\nexcept (get) as get: lambda get: get\n"
    )
    files.write(name, mark + source)
    due = mark + re.sub(r"\bget\b", "\u00fcber", source).replace("caf\u00e9 \u00fcber", "caf\u00e9 get").replace("\u2028\u00fcber", "\u2028get")
    line = f"import sys; sys.stdout.buffer.write(renamed({name!r}, 'get', '\u00fcber'))"
    checks.is_due(f"renamed {name!r}", checks.in_python(files, line), (0, due, ""))
    lines = (
        f"tokens, tree = tokens_and_tree({name!r})",
        "print(*[token[1:3] for token in (name_token(node, tokens) for node in ast.walk(tree)) if token])",
        "names = [node for node in ast.walk(tree) if isinstance(node, ast.Name) and node.lineno != 4]",
        "print({len(found) == 1 and found[0][1] == node.id for node in names for found in [tokens_in(node, tokens)]})",
    )
    places = "('get', (2, 6)) ('g', (4, 10)) ('get', (6, 4)) ('h', (7, 21)) ('get', (7, 29)) ('get', (8, 7)) ('get', (10, 16))"
    checks.is_due(f"tokens of nodes, {name!r}", sorted_words(checks.in_python(files, *lines)), sorted_words((0, f"{places}\n{{True}}\n", "")))


def sorted_words(outcome):
    """An outcome whose output's words come in any order."""
    return outcome[0], sorted(re.findall(r"\('.*?\)\)|\S+", outcome[1])), outcome[2]


def as_json(node):
    """A tree of Python as the reader in JavaScript shows it."""
    if isinstance(node, ast.AST):
        # What `ast.dump` leaves out: a field that is None and may be left out.
        fields = {name: one for name, one in ast.iter_fields(node) if one is not None or getattr(type(node), name, 0) is not None}
        return {"node": type(node).__name__, **{name: as_json(one) for name, one in fields.items()}}
    if isinstance(node, list):
        return [as_json(one) for one in node]
    if isinstance(node, bytes):
        return {"bytes": list(node)}
    if isinstance(node, complex):
        return {"imaginary": None if node.imag == float("inf") else node.imag}
    if node is ...:
        return {"ellipsis": True}
    if isinstance(node, int) and not isinstance(node, bool) and abs(node) >= 2 ** 53:
        return {"int": str(node)}
    return None if node == float("inf") else node


@in_folder
def check_js(checks, files):
    """The reader in JavaScript."""
    if not shutil.which("node"):
        checks.skip("the reader in JavaScript: there is no node")
        return
    files.write("values.py", VALUES)
    files.write("tree.js", checks.js)
    found = run(["bash", "-c", "set -o pipefail; pyast dump --whole values.py >DUMP && node tree.js <DUMP"], files.folder)
    checks.is_due("tree.js", (found[0], found[1] and json.loads(found[1]), found[2]), (0, as_json(ast.parse(VALUES)), ""))


# --- the other commands -------------------------------------------------------------------------------------------------


def writes(*words, status=0, **more):
    """A check of a command: it has to end with the status, and to write these words."""
    def check(checks, command):
        with tempfile.TemporaryDirectory(prefix="pyast home ") as home:
            found = run(["bash", "-c", command], HOME=home, **more)
            lacks = [word for word in words if word not in found[1]]
            checks.is_due(f"{command} ({found[2].strip()})", (found[0], lacks), (status, []))
    return check


def installs(checks, command):
    """A check of `make install` below a home."""
    with tempfile.TemporaryDirectory(prefix="pyast home ") as home:
        found = run(["bash", "-c", command], HOME=home)
        checks.is_due(command, (found[0], found[2]), (0, ""))
        checks.is_due(f"{command}: the program", run([f"{home}/.local/bin/pyast", "--version"])[0], 0)


def on_files(*words, bad=1, missing=3):
    """A check of a command on FILE, or on OLD and NEW: what it has to write of good files, and how it ends of refused and of missing ones."""
    def check(checks, command):
        for source, status in ((GOOD, 0), (BAD, bad), (None, missing)):
            with tempfile.TemporaryDirectory(prefix="pyast files ") as folder:
                for name in ("FILE", "OLD", "NEW") if source else ():
                    Files(folder).write(name, SAME if source == GOOD and name != "OLD" else source)
                os.symlink(f"{TOP}/pyast", f"{folder}/pyast")
                found = run(["bash", "-c", f"set -o pipefail; {command}"], folder)
                written = [word for word in words if word in found[1]]
                checks.is_due(f"{command}: {source!r}", (found[0], written), (status, list(words) if source == GOOD else []))
    return check


def verifies(checks, command):
    """A check of `make verify`, which is of the sources that release/ was made of."""
    digest = run([f"{TOP}/tools/digest"])[1]
    if f"sources: {digest}" in text_of("release/PROVENANCE"):
        writes("3 passed, 0 failed")(checks, command)
    else:
        checks.skip(f"{command}: release/ is of earlier sources")


def has_man(checks, command):
    """A check of the manual page."""
    if shutil.which("man"):
        writes("unparse and check Python source", MANPAGER="cat")(checks, command)
    else:
        checks.skip(f"{command}: there is no man")


def crates_of(path):
    """The lines of a crates.txt: the crates that each names."""
    with open(path, encoding="utf-8") as file:
        return {line.split(":")[0]: line.partition(":")[2].split() for line in file if re.match(r"\w+:", line)}


def vendors(checks, command):
    """A check of `tools/vendor` into a folder: the crates are all there, as they are here, and are not replaced unless asked."""
    with tempfile.TemporaryDirectory(prefix="pyast vendor ") as folder:
        for name in ("mine", "top"):
            os.mkdir(f"{folder}/{name}")
        os.symlink(f"{TOP}/tools", f"{folder}/top/tools")
        Files(folder).write("mine/crates.txt", "# mine\nown: clap\n")
        ours = crates_of(f"{TOP}/crates.txt")
        for words, status in ((command, 0), (command, 1), (command.replace("vendor", "vendor --update"), 0), (command.replace("pylex", "none"), 2), (f"{command}/none", 2)):
            checks.is_due(words, run(["bash", "-c", words], f"{folder}/top")[0], status)
            theirs = crates_of(f"{folder}/mine/crates.txt")
            needs = {name for crate in theirs if crate in ours for name in ours[crate] if name in ours}
            checks.is_due(f"{words}: crates.txt", ({name: ours.get(name, ["clap"]) for name in theirs}, needs - theirs.keys()), (theirs, set()))
            same = run(["diff", "-rq", "-x", "out", "-x", "must-fail", "-x", ".gitignore", *(f"{at}/crates/pylex" for at in (TOP, f"{folder}/mine"))])
            checks.is_due(f"{words}: pylex", same, (0, "", ""))
        for names, count in re.findall(r"`([\w ]+)`\s+\((\d+) crates\)", text_of("docs/LIBRARY.md")):
            os.mkdir(f"{folder}/{names}")
            found = run([f"{TOP}/tools/vendor", *names.split(), f"{folder}/{names}"])[1]
            checks.is_due(f"docs/LIBRARY.md: {names}", found.splitlines()[-1].split()[0], count)
        checks.is_due(f"{command}: folders", sorted(os.listdir(f"{folder}/mine/crates")), sorted(theirs.keys() - {"own"}))


# What each command has to do, or why it isn't run.
COMMANDS = {
    "man docs/pyast.1": has_man,
    "./pyast dump --whole FILE": on_files("Module(body=[Assign(targets=[Name(id='x', ctx=Store())], value=Constant(value=1.5))], type_ignores=[])"),
    "pyast dump --whole FILE": on_files("Module(body=[Assign(targets=[Name(id='x', ctx=Store())], value=Constant(value=1.5))], type_ignores=[])"),
    "pyast dump --whole FILE >/dev/null && echo readable": on_files("readable"),
    "./pyast tokens FILE": on_files("1,5-1,9:            NUMBER", bad=0),
    "pyast tokens FILE | grep '^[^:]*: *COMMENT'": on_files("'# the same'", bad=1, missing=1),
    "pyast tokens --count 10 FILE": on_files("COMMENT", bad=0),
    "./pyast unparse --whole FILE": on_files("x = 1.5\n"),
    "pyast unparse --whole FILE": on_files("x = 1.5\n"),
    "./pyast check --whole OLD NEW": on_files(),
    **{f'old=$({pyast} dump --whole OLD) && new=$({pyast} dump --whole NEW) && [ "$old" = "$new" ]': on_files() for pyast in ("./pyast", "pyast")},
    'make install PREFIX="$HOME/.local"': installs,
    "tools/vendor pysource pylex ../mine": vendors,
    "make verify": verifies,
    "make test": "this is part of it",
    "make check": "this is part of it",
    "make prove": "it takes most of the time of `make check`",
}
# Blocks that are no commands.
NO_COMMANDS = {"pyast tokens [-e]": "the synopsis, which options.py compares", "NODE   CLASS(": "a format", "": ""}


def check_pages(checks):
    """All blocks of the pages."""
    for page in PAGES:
        for kind, block in blocks_of(page):
            if block.startswith("$ "):
                for command, due in sessions_of(block):
                    status, out, err = run(["bash", "-c", f"{{ {command}\n}} 2>&1"])
                    checks.is_due(f"{page}: {command}", out + err, due)
            elif kind == "sh" and FUNCTION.search(block):
                for function in FUNCTION.findall(block) if sys.version_info[:2] == (3, 11) else ():
                    checks.is_due(f"{page}: {function} is tried", function in checks.tried, True)
            elif kind == "sh":
                for line in filter(None, map(str.strip, re.sub(r"\s+#.*", "", block, flags=re.MULTILINE).split("\n"))):
                    check = COMMANDS.get(line)
                    if callable(check):
                        check(checks, line)
                    elif not check:
                        checks.fail(page, f"nothing checks `{line}`")
            elif kind == "":
                if not any(start and block.startswith(start) for start in NO_COMMANDS):
                    checks.fail(page, f"nothing checks the block that begins with `{block.splitlines()[0]}`")
            elif kind not in ("python", "js", "rust", "antt"):
                checks.fail(page, f"nothing checks a block of `{kind}`")


def check_mistakes(checks):
    """The rows of the table of mistakes: a source, and what `dump` reports of it."""
    table = text_of("docs/USE.md").split("\n## Common mistakes\n", 1)[1].split("\n## ", 1)[0]
    for row, told in re.findall(r"^\| `(.*?)` \| `(.*?)` \|", table, re.MULTILINE):
        source = re.sub(r"\\(.)", lambda found: "\n" if found[1] == "n" else found[1], row)
        done = subprocess.run([PROGRAM, "dump"], input=source, capture_output=True, text=True, check=False)
        checks.is_due(row, (done.returncode, done.stdout, done.stderr), (1, "", f"<stdin>:{told}\n"))


def anchors_of(text):
    """The anchors of a page's headings."""
    headings = re.findall(r"^#+ (.*)$", re.sub(r"^```.*?^```$", "", text, flags=re.DOTALL | re.MULTILINE), re.MULTILINE)
    return {re.sub(r"[^\w\- ]", "", heading.lower()).replace(" ", "-") for heading in headings}


def check_links(checks):
    """The links of all pages: to files that are there, and to headings that they have."""
    pages = [path for pattern in ("*.md", "*/*.md", "crates/*/*.md") for path in sorted(glob.glob(f"{TOP}/{pattern}"))]
    for path in pages:
        page = os.path.relpath(path, TOP)
        for link in re.findall(r"\]\(([^()\s]+)\)", re.sub(r"`[^`\n]*`", "", BLOCK.sub("", text_of(page)))):
            target, _, anchor = link.partition("#")
            to = os.path.normpath(os.path.join(os.path.dirname(page), target)) if target else page
            if re.match(r"\w+:", link):
                continue
            there = os.path.exists(f"{TOP}/{to}")
            checks.is_due(f"{page}: {link}", there and (not anchor or anchor in anchors_of(text_of(to))), True)


def main():
    if not os.access(PROGRAM, os.X_OK):
        refuse(f"{PROGRAM} isn't there: run {TOP}/pyast once")
    go_on_with_python_311(needed=False)
    checks = Checks()
    for part in (check_same, check_listings, check_python, check_js):
        if sys.version_info[:2] == (3, 11):
            part(checks)
        else:
            checks.skip(f"{part.__doc__} What is due comes from Python 3.11, which isn't found.")
    for part in (check_formatted, check_folder, check_pages, check_mistakes, check_links):
        part(checks)
    return checks.end()


if __name__ == "__main__":
    sys.exit(main())
