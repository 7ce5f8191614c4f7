"""Edits that the prover has to refuse: how they are read, and how many of them are tried in one check.

A contract stands between any two functions, so a wrong body makes no goal of another function fail. Edits of a crate that change
different functions are therefore applied together, to one copy of the crate, and the prover checks only these functions and what
they call (`rattle check --only`), over the libraries that `rt` has built. What it then says of each function decides that edit.

Of what they call a goal needs no more than the contract, so at first the copy has no bodies of other functions, and a hole in place
of each proof of them, which costs next to nothing. Only a refusal counts there: an edit that isn't refused is tried again in a copy
with all bodies.
"""

import collections
import contextlib
import hashlib
import os
import re
import shutil
import signal
import subprocess
import tempfile
import threading

# What a check of the largest crate may take at its peak, in bytes.
MEMORY = 5_000_000_000
PARTS = ("src", "specs", "proofs")
VERDICTS = ("refused", "by a name", "accepted", "not tried")
# The file beside a library that has the digest of the files that it was made from.
SUM = "sources"
# How the folders begin in which edits are checked.
ROOM = "edits-"

NAMED = re.compile(r"[A-Za-z0-9_-][A-Za-z0-9_.-]*\.edit")
HEAD = re.compile(r"( *)(?:pub(?:\([a-z ]+\))? )?(?:const )?(?:unsafe )?(?:extern \"C\" )?fn (\w+)")
BLOCK = re.compile(r"(?:pub(?:\([a-z ]+\))? )?(?:unsafe )?(impl|trait)\b(.*)")
TYPE = re.compile(r"(?m)^(?:pub(?:\([a-z ]+\))? )?(?:struct|enum|trait) (\w+)")
CONSTANT = re.compile(r"(?m)^(?:pub(?:\([a-z ]+\))? )?(?:const|static) (\w+)\b")
# A goal that stays open, and an error in a text.
OPEN = re.compile(r"note: (?:\./)?(src/\S+?):(\d+):\d+: (it is not proved that .*)")
ERROR = re.compile(r"(?:\./)?(\S+?):(\d+):\d+: error(?:\[[^]]*\])?: (?:`([^`]*)`: )?(.*)")
# What antt says of a proof that names what is no longer there, and of a text that it can't read.
GONE = re.compile(r"has no field|is not in scope|has no `|was not admitted")
UNREAD = re.compile(r"is not in scope|has no field|is no name|operand is missing|expected the end|cannot continue")
SAID = re.compile(r"fn [^:\s]+::(\S+): (.*)")
STALE = re.compile(r"module .Rattle-(\w+)-.*Run the lower steps again")
ENDED = re.compile(r"only=\d+ (?:proved|holes)=\d+|logic=(?:not-)?proved\b")
# The status of a check that has refused a proof.
REFUSED = 3
CYCLE = re.compile(r"\s*#\[cycle\((\w+)\)\]")
# The body of a function of which a check needs the contract alone, and the file of its proof.
NO_BODY = "unreachable!()"
NO_PROOF = """use Rattle.{crate}.proofs.{path}.Statement.{{statement}}

pub {name}_spec : {{M : Type 1}} → statement M
{name}_spec 𝓤 𝓛 𝓜 𝓡 wired = ?
"""

Edit = collections.namedtuple("Edit", "crate name path")
# A function's lines are counted from 1: the first of its attributes and comments, that on which its body begins, and the last.
Function = collections.namedtuple("Function", "path module owner name first body last")
Replacement = collections.namedtuple("Replacement", "path old new")
# What an edit replaces, and the functions that are checked for it: all of the crate where there are none.
Change = collections.namedtuple("Change", "edit replacements functions is_apart")
# A batch is tried with the bodies of all functions where some of its changes weren't refused without.
Batch = collections.namedtuple("Batch", "crate changes is_whole times_killed", defaults=(False, 0))
Checked = collections.namedtuple("Checked", "status lines texts")
Tried = collections.namedtuple("Tried", "crate name verdict text")


class Unusable(Exception):
    """Why an edit can't be applied, or nothing can be tried."""


def read(path):
    """The text of a file."""
    with open(path, encoding="utf-8") as file:
        return file.read()


def kit():
    """The folder of the kit whose `rt` is on the PATH."""
    found = shutil.which("rt")
    if not found:
        raise Unusable("rt, the command of the Rattle kit, isn't found")
    return os.path.dirname(os.path.dirname(os.path.realpath(found)))


def number_in(path, pattern):
    """A number that a file of the system tells, or nothing."""
    try:
        found = re.search(pattern, read(path))
    except (OSError, UnicodeDecodeError):
        return None
    return int(found[1]) if found else None


def free_memory():
    """The bytes that are free, under the limit of the control group too."""
    found = [1024 * (number_in("/proc/meminfo", r"MemAvailable:\s+(\d+)") or 0)]
    limit, held = number_in("/sys/fs/cgroup/memory.max", r"(\d+)"), number_in("/sys/fs/cgroup/memory.current", r"(\d+)")
    if limit and held:
        cached = number_in("/sys/fs/cgroup/memory.stat", r"(?m)^inactive_file (\d+)") or 0
        found.append(limit - held + cached)
    return min(found)


def processors():
    """How many processors there are to use, under the limit of the control group too."""
    found = len(os.sched_getaffinity(0))
    quota, period = (number_in("/sys/fs/cgroup/cpu.max", pattern) for pattern in (r"^(\d+)", r"^\d+ (\d+)"))
    return max(1, min(found, quota // period)) if quota and period else found


def jobs_here():
    """How many checks go side by side: what the processors and the free memory allow."""
    return max(1, min(processors(), free_memory() // MEMORY))


def sum_of(folder):
    """The digest of what a crate's library is made from, by its own files."""
    found = hashlib.sha256()
    for part in PARTS:
        for at, folders, names in os.walk(f"{folder}/{part}"):
            folders.sort()
            for name in sorted(names):
                found.update(f"{os.path.relpath(at, folder)}/{name}\n{sum_of_file(f'{at}/{name}')}\n".encode())
    return found.hexdigest()


def sum_of_file(path):
    """The digest of a file."""
    with open(path, "rb") as file:
        return hashlib.sha256(file.read()).hexdigest()


class Workspace:
    """The crates below a folder, and the libraries that rt has built of them."""

    def __init__(self, top):
        self.top = top
        with open(f"{top}/crates.txt", encoding="utf-8") as lines:
            parts = [line.partition("#")[0].partition(":") for line in lines]
        self.needs = {name.split()[0]: words.split() for name, _, words in parts if name.strip()}

    def folder(self, crate):
        return f"{self.top}/crates/{crate}"

    def library(self, crate):
        return f"{self.folder(crate)}/out/rlib/{crate}.rlib"

    def below(self, crate):
        """The crates of the workspace that one stands on, each after those that it stands on itself."""
        found = {}
        for name in self.needs[crate]:
            if name in self.needs:
                found.update(dict.fromkeys([*self.below(name), name]))
        return list(found)

    def lacking(self, crate):
        """The crates that one stands on of which no library is built."""
        return [name for name in self.below(crate) if not os.path.isfile(f"{self.library(name)}/format")]

    def outdated(self, crate):
        """The crates that one stands on whose files aren't those of the library that tools/prove left, by the digest beside it."""
        sums = {name: f"{os.path.dirname(self.library(name))}/{SUM}" for name in self.below(crate)}
        return [name for name, path in sums.items() if os.path.isfile(path) and read(path) != sum_of(self.folder(name))]

    def words(self, crate):
        """The words of a check of the crate in the folder where it is run."""
        root, top = kit(), "main" if os.path.isfile(f"{self.folder(crate)}/src/main.rt") else "lib"
        words = [f"{root}/bin/rattle", "check", "--crate-name", crate, f"src/{top}.rt", "--jobs", "1"]
        for name in dict.fromkeys(["std", *self.needs[crate]]):
            words += ["--extern", f"{name}={self.library(name) if name in self.needs else f'{root}/rlibs/{name}.rlib'}"]
        for name in self.below(crate):
            words += ["-L", f"dependency={os.path.dirname(self.library(name))}"]
        words += ["-L", f"dependency={root}/rlibs"]
        return [*words, "--antt-project", f"{root}/rattle/logic/antt-project.json", "--logic-built", f"{root}/logic_built"]


def edits_in(folder, crate):
    """The files of a folder of edits, by name; those that are only to be read (`.md`) are left out."""
    names = sorted(os.listdir(folder)) if os.path.isdir(folder) else []
    return [Edit(crate, name.removesuffix(".edit"), f"{folder}/{name}") for name in names if not name.endswith(".md")]


def replacements_of(edit):
    """What an edit replaces, in turn."""
    if not NAMED.fullmatch(os.path.basename(edit.path)):
        raise Unusable("an edit's name is of letters, digits, _, - and ., and ends in .edit")
    try:
        lines = read(edit.path).split("\n")
    except (OSError, UnicodeDecodeError) as error:
        raise Unusable(f"it can't be read: {error}") from error
    path = old = None
    found = []
    for line in lines:
        if line.startswith("file: "):
            path = line[len("file: ") :].strip()
            if os.path.normpath(path) != path or not path.startswith(tuple(f"{part}/" for part in PARTS)):
                raise Unusable("a `file:` line names no file below src/, specs/ or proofs/")
        elif line.startswith("old: "):
            old = line[len("old: ") :]
        elif line.startswith("new:"):
            if not path or not old:
                raise Unusable("a `new:` line stands before any `file:` or `old:` line")
            found.append(Replacement(path, old, line[len("new:") :].removeprefix(" ")))
            old = None
    if not found:
        raise Unusable("it has no pair of an `old:` and a `new:` line")
    return found


def applied(replacements, folder):
    """Each replacement with the text that its file has before it, and at last the texts of all files after them."""
    texts = {}
    for it in replacements:
        if it.path not in texts:
            if not os.path.isfile(f"{folder}/{it.path}"):
                raise Unusable(f"there is no file {it.path}")
            texts[it.path] = read(f"{folder}/{it.path}")
        count = texts[it.path].count(it.old)
        if count != 1:
            raise Unusable(f"its text stands {count} times in {it.path}, and not once: {it.old.strip()[:80]}")
        yield it, texts[it.path]
        texts[it.path] = texts[it.path].replace(it.old, it.new)
    yield None, texts


def texts_with(replacements, folder):
    """The texts of the files that are replaced, by path."""
    return [*applied(replacements, folder)][-1][1]


def flat(kind):
    """The name that the prover gives a type: that of its path's end, with those of its arguments; parameters go unnamed."""
    kind = re.sub(r"'\w+,?\s*", "", kind.strip())
    if kind.startswith("&"):
        return f"Ref{'Mut' if kind.startswith('&mut ') else ''}{flat(kind[1:].removeprefix('mut '))}"
    head, _, rest = kind.partition("<")
    name = head.strip().rpartition("::")[2]
    return ("" if re.fullmatch(r"[A-Z]", name) else name[:1].upper() + name[1:]) + "".join(map(flat, filter(None, re.split(r"[<>,]", rest))))


def owner_of(line):
    """The name of an `impl` or a `trait`, as the prover prints it before those of its functions."""
    kind, rest = BLOCK.match(line).groups()
    rest = re.sub(r"\swhere\b.*|\{.*", "", rest).strip()
    if rest.startswith("<"):
        depth = 0
        for at, char in enumerate(rest):
            depth += {"<": 1, ">": -1}.get(char, 0)
            if not depth:
                rest = rest[at + 1 :].strip()
                break
    of_trait, has_for, of_type = rest.partition(" for ")
    if kind == "trait" or not has_for:
        return re.match(r"(?:\w+::)*(\w*)", rest)[1]
    return flat(of_type) + flat(of_trait)


def body_of(lines, first, indent):
    """The lines on which the body begins and ends of the function whose head stands at a line, or nothing where it has no body."""
    body, depth = None, 0
    for at in range(first, len(lines)):
        line = lines[at]
        depth += line.count("{") - line.count("}")
        if at == first and line.endswith("}") and not depth:
            return at, at
        if body is not None and line == f"{indent}}}":
            return body, at
        if body is None and (line == f"{indent}{{" or line.endswith("{") and (at == first or line.startswith(f"{indent})"))):
            body = at
        if body is None and not depth and line.endswith(";"):
            return None
    return None


def module_of(path):
    """The module that a file of code is, as a path below the crate."""
    return "::".join(it for it in path[len("src/") : -len(".rt")].split("/") if it not in ("lib", "main", "mod"))


def functions_in(path, text, homes):
    """The functions of a file, each from its first attribute or comment on. A type's own functions are named after the module of the type."""
    lines, module, owner, found = text.split("\n"), module_of(path), "", []
    for at, line in enumerate(lines):
        if BLOCK.match(line):
            owner = owner_of(line)
        elif line.startswith("}"):
            owner = ""
        head = HEAD.match(line)
        body = body_of(lines, at, head[1]) if head else None
        if body:
            first = at
            while first and re.match(r"\s*(///|//|#\[)", lines[first - 1]):
                first -= 1
            of = owner if head[1] else ""
            found.append(Function(path, homes.get(of, module), of, head[2], first + 1, body[0] + 1, body[1] + 1))
    return found


def called(function):
    """A function's path below its crate, as the prover prints it."""
    return "::".join(filter(None, (function.module, function.owner, function.name)))


class Sources:
    """The texts of a crate's code by path, those of a copy in place of its own, and the functions in them."""

    def __init__(self, folder, texts=()):
        self.texts = {}
        for at, _, names in os.walk(f"{folder}/src"):
            for path in (os.path.relpath(f"{at}/{name}", folder) for name in names if name.endswith(".rt")):
                self.texts[path] = dict(texts).get(path) or read(f"{folder}/{path}")
        types = [(name, module_of(path)) for path, text in self.texts.items() for name in TYPE.findall(text)]
        counts = collections.Counter(name for name, _ in types)
        self.homes = {name: module for name, module in types if counts[name] == 1}

    def functions(self):
        """The functions of all files."""
        return [it for path, text in self.texts.items() for it in functions_in(path, text, self.homes)]

    def function_at(self, path, text, at):
        """The innermost function around a place in a text of a file, if there is one."""
        line = text.count("\n", 0, at) + 1
        found = functions_in(path, text, self.homes) if path.startswith("src/") else []
        return next((it for it in reversed(found) if it.first <= line <= it.last), None)

    def users_of(self, constant):
        """The functions that name a constant, or one whose value names it."""
        names, found = [constant], {}
        for name in names:
            for path, text in self.texts.items():
                for place in re.finditer(rf"\b{name}\b", text):
                    function, other = self.function_at(path, text, place.start()), constant_at(text, place.start())
                    if function:
                        found[called(function)] = True
                    elif other and other not in names:
                        names.append(other)
        return tuple(found)


def constant_at(text, at):
    """The name of the constant in whose value a place lies, or nothing."""
    heads = [it for it in CONSTANT.finditer(text) if it.start() <= at]
    if not heads or re.search(r"(?m);$", text[heads[-1].start() : at]):
        return None
    return heads[-1][1]


def change_of(edit, folder):
    """What an edit changes. What lies outside of all functions is tried apart, by the functions that use it or by the whole crate."""
    replacements, sources, inside, outside = replacements_of(edit), Sources(folder), {}, []
    for it, text in applied(replacements, folder):
        if it:
            at = text.index(it.old)
            function = sources.function_at(it.path, text, at)
            if function:
                inside[called(function)] = True
            else:
                outside.append((it, text, at))
    if not outside or inside and all(it.old.startswith("use ") for it, _, _ in outside):
        return Change(edit, replacements, tuple(inside), False)
    names = [constant_at(text, at) if it.path.startswith("src/") else None for it, text, at in outside]
    users = [sources.users_of(name) if name else () for name in names]
    return Change(edit, replacements, tuple(dict.fromkeys([*inside, *sum(users, ())])) if all(users) else (), True)


def batches_of(workspace, edits):
    """The batches in which edits are tried, and those that can't be applied."""
    batches, tried = [], []
    for edit in edits:
        try:
            change = change_of(edit, workspace.folder(edit.crate))
        except Unusable as error:
            tried.append(Tried(edit.crate, edit.name, "not tried", str(error)))
            continue
        add_to(batches, change, workspace)
    return [Batch(changes[0].edit.crate, changes, is_whole=not changes[0].functions) for changes in batches], tried


def add_to(batches, change, workspace):
    """Puts a change into the first batch that has room for it: of its crate, of other functions, and where its texts stand."""
    for changes in batches:
        is_apart = change.is_apart or changes[0].is_apart or changes[0].edit.crate != change.edit.crate
        if not is_apart and not any({*it.functions} & {*change.functions} for it in changes):
            with contextlib.suppress(Unusable):
                every = [it for other in [*changes, change] for it in other.replacements]
                texts_with(every, workspace.folder(change.edit.crate))
                changes.append(change)
                return
    batches.append([change])


class Check:
    """A run of the prover, which can be stopped."""

    def __init__(self, niceness=0):
        self.niceness, self.process, self.is_stopped, self.seconds = niceness, None, False, 0
        self.lock = threading.Lock()

    def stop(self):
        """Ends it at once; nothing is judged by what it said."""
        with self.lock:
            self.is_stopped = True
            if self.process and self.process.returncode is None:
                with contextlib.suppress(OSError):
                    os.killpg(self.process.pid, signal.SIGKILL)

    def hasten(self):
        """Gives it the usual priority, where the system lets it have that."""
        with self.lock, contextlib.suppress(OSError):
            self.niceness = 0
            if self.process and self.process.returncode is None:
                os.setpriority(os.PRIO_PGRP, self.process.pid, 0)
                with open(f"/proc/{self.process.pid}/autogroup", "w", encoding="ascii") as to:
                    to.write("0")

    def begin(self, words, folder):
        """Starts the prover in a session of its own, whose priority counts where the system shares processors by sessions."""
        how = {"cwd": folder, "stdin": subprocess.DEVNULL, "stdout": subprocess.PIPE, "stderr": subprocess.STDOUT, "errors": "replace"}
        # The prover's allocator keeps freed memory: to give it back and ask for it again costs a few per cent.
        how["env"] = {"MIMALLOC_PURGE_DELAY": "-1", **os.environ}
        with self.lock:
            if self.is_stopped:
                return False
            self.process = subprocess.Popen(["nice", "-n", str(self.niceness), *words], start_new_session=True, **how)
        if self.niceness:
            # Where memory runs out, this is what the system is to end first.
            for file, value in (("autogroup", self.niceness), ("oom_score_adj", 1000)):
                with contextlib.suppress(OSError), open(f"/proc/{self.process.pid}/{file}", "w", encoding="ascii") as to:
                    to.write(str(value))
        return True

    def run(self, words, folder, is_enough=None):
        """The status and the lines of the prover, which is ended as soon as its lines are enough; the status is that of refused proofs then."""
        if not self.begin(words, folder):
            return -signal.SIGKILL, []
        lines, is_ended = [], False
        for line in self.process.stdout:
            lines.append(line.rstrip("\n"))
            if is_enough and not is_ended and (OPEN.match(line) or ERROR.match(line)) and is_enough(lines):
                is_ended = True
                os.killpg(self.process.pid, signal.SIGKILL)
        _, status, used = os.wait4(self.process.pid, 0)
        with self.lock:
            self.process.returncode = os.waitstatus_to_exitcode(status)
        self.process.stdout.close()
        self.seconds += used.ru_utime + used.ru_stime
        return REFUSED if is_ended else self.process.returncode, [line for line in lines if line]


def without_misfit(functions, lines, crate):
    """The names of functions once one that the prover doesn't know has given way to its module, or None where all are known."""
    for line in lines:
        found = re.search(rf"`{crate}` has no function `([^`]*)`|several functions are named `([^`]*)`", line)
        name = found and (found[1] or found[2])
        if name in functions:
            module = name.rpartition("::")[0]
            return list(dict.fromkeys(it if it != name else module for it in functions)) if module else []
    return None


def leave_contracts(room, crate, functions):
    """Takes the bodies of all other functions out of a copy of a crate, line for line, and puts a hole in place of each of their proofs."""
    sources = Sources(room)
    found = [(it, cycle_of(sources.texts[it.path], it)) for it in sources.functions()]
    # A cycle has one proof, so the bodies of its members stay together.
    cycles = {cycle for it, cycle in found if cycle and called(it) in functions}
    texts = {path: text.split("\n") for path, text in sources.texts.items()}
    for it, cycle in found:
        lines, proofs = texts[it.path], f"{room}/proofs/{called(it).replace('::', '/')}"
        if called(it) in functions or cycle in cycles or not can_lose_body(lines, it):
            continue
        lines[it.first - 1 : it.body] = ["" if CYCLE.match(line) else line for line in lines[it.first - 1 : it.body]]
        lines[it.body - 1] += f" {NO_BODY}"
        lines[it.body : it.last - 1] = [""] * (it.last - 1 - it.body)
        # A function that only calls itself is a cycle of its name.
        for folder in (proofs, f"{os.path.dirname(proofs)}/+{it.name}"):
            shutil.rmtree(folder, ignore_errors=True)
        os.makedirs(proofs)
        with open(f"{proofs}/Proof.antt", "w", encoding="utf-8") as file:
            file.write(NO_PROOF.format(crate=crate, path=called(it).replace("::", "."), name=it.name))
    for path, lines in texts.items():
        with open(f"{room}/{path}", "w", encoding="utf-8") as file:
            file.write("\n".join(lines))
    gone = {f"+{cycle}" for _, cycle in found if cycle not in cycles}
    for at, folders, _ in os.walk(f"{room}/proofs"):
        for folder in gone.intersection(folders):
            shutil.rmtree(f"{at}/{folder}")


def cycle_of(text, function):
    """The name that a function gives the cycle that it is in, or nothing."""
    return next((it[1] for it in map(CYCLE.match, text.split("\n")[function.first - 1 : function.body]) if it), None)


def can_lose_body(lines, function):
    """Whether a function has a body of lines of its own, which no constant is computed by, and which isn't in one that was taken out."""
    head = "".join(lines[function.first - 1 : function.body])
    return function.body < function.last and bool(lines[function.last - 1]) and "const fn" not in head


def check_batch(workspace, batch, check, kept):
    """What the prover says of a copy of the crate with the batch's edits, over what `kept` has of earlier checks, and the texts that they change."""
    folder = workspace.folder(batch.crate)
    texts = texts_with([it for change in batch.changes for it in change.replacements], folder)
    functions = list(dict.fromkeys(name for change in batch.changes for name in change.functions))
    with tempfile.TemporaryDirectory(prefix=ROOM) as room:
        for part in PARTS:
            if os.path.isdir(f"{folder}/{part}"):
                shutil.copytree(f"{folder}/{part}", f"{room}/{part}")
        for path, text in texts.items():
            with open(f"{room}/{path}", "w", encoding="utf-8") as file:
                file.write(text)
        if not batch.is_whole:
            leave_contracts(room, batch.crate, functions)
        while True:
            only = [word for name in functions for word in ("--only", name)]
            over = ["--incremental", kept] if kept else []
            holes = [] if batch.is_whole else ["--allow-holes"]
            # What the other functions are is of no interest: once each edit is refused, the check says nothing more.
            is_enough = None if batch.is_whole else lambda lines: are_refused(batch, Checked(REFUSED, lines, texts), folder)
            status, lines = check.run([*workspace.words(batch.crate), *over, *holes, *only], room, is_enough)
            others = without_misfit(functions, lines, batch.crate) if status == 2 else None
            if others is None:
                return Checked(status, lines, texts)
            functions = others


def are_refused(batch, checked, folder):
    """Whether what a check has said by now refuses each edit of its batch by a goal of its own."""
    answer = Answer(batch, checked, folder)
    return not answer.spoilt() and all(answer.goals(change)[0] for change in batch.changes)


def short(line):
    """A line of the prover, as it is reported."""
    return line.removeprefix("note: ").removeprefix("./")[:160]


def is_in_files_of(function, path, goal, names):
    """Whether a goal in a file of proofs is this function's. The files of a cycle are its members', whose names begin those of their goals."""
    folder, own = os.path.dirname(path), f"proofs/{called(function).replace('::', '/')}"
    above, _, last = folder.rpartition("/")
    if not last.startswith("+") or not own.startswith(f"{above}/"):
        return folder == own
    member = re.sub(r"^(?:invariant|decreases)-", "", goal or "").partition("-")[0]
    # A function that only calls itself is a cycle of its name, whose goals have no names of members.
    is_whole_cycle = folder == f"{os.path.dirname(own)}/+{function.name}" and member.rpartition("::")[2] not in names
    return is_whole_cycle or f"::{called(function)}".endswith(f"::{member}")


class Answer:
    """What a check says of the edits of its batch."""

    def __init__(self, batch, checked, folder):
        self.batch, self.checked = batch, checked
        self.functions = Sources(folder, checked.texts).functions()
        self.names = {it.name for it in self.functions}
        self.said = dict(found.groups() for found in map(SAID.fullmatch, checked.lines) if found)

    def of(self, change):
        """The functions of a change, as they stand in the copy."""
        return [it for it in self.functions if called(it) in change.functions]

    def is_inside(self, functions, path, line):
        """Whether a line of the copy is in one of some functions."""
        return any(it.path == path and it.first <= line <= it.last for it in functions)

    def is_at(self, change, path, line):
        """Whether a line of the copy is the change's: of its functions, or one outside of all functions that it wrote."""
        if self.is_inside(self.of(change), path, line) or self.is_inside(self.functions, path, line):
            return self.is_inside(self.of(change), path, line)
        row = "".join(self.checked.texts.get(path, "").split("\n")[line - 1 : line])
        return any(it.path == path and it.new.strip() and it.new in row for it in change.replacements)

    def stale(self):
        """The library that the check couldn't use, if there is one."""
        found = next(filter(None, map(STALE.search, self.checked.lines)), None)
        return found and found[1]

    def is_unread(self, error):
        """Whether an error says that the prover can't read a text, where an edit that only makes a statement false reads well."""
        path, _, goal, text = error.groups()
        if path not in self.checked.texts and not path.startswith(("src/", "specs/")):
            return False
        return not goal or bool(UNREAD.search(re.sub(r"`[^`]*`", "", text)))

    def spoilt(self):
        """Where and why the batch says nothing, as its text doesn't compile or the prover can't read it; no place where none is told."""
        errors = list(filter(None, map(ERROR.match, self.checked.lines)))
        if any(map(ENDED.match, self.checked.lines[-1:])) or self.checked.status == REFUSED:
            errors = [it for it in errors if self.is_unread(it)]
        elif not errors:
            return [("", 0, (self.checked.lines or [f"the prover ended with status {self.checked.status}"])[-1])]
        return [(it[1], int(it[2]), it[0]) for it in errors]

    def culprits(self, spoilt):
        """The changes that spoil the batch, each with its first error."""
        found = []
        for change in self.batch.changes:
            is_alone = len(self.batch.changes) == 1
            texts = [text for path, line, text in spoilt if is_alone or self.is_at(change, path, line)]
            found += [(change, texts[0])] if texts else []
        return found

    def goals(self, change):
        """The lines that refuse an edit by a goal of its functions, and those that do so only by a name."""
        own, failed, gone = self.of(change), [], []
        for line in self.checked.lines:
            is_open, error = OPEN.match(line), ERROR.match(line)
            if is_open and (not change.functions or self.is_inside(own, is_open[1], int(is_open[2]))):
                failed.append(line)
            elif error and (not change.functions or any(is_in_files_of(it, error[1], error[3], self.names) for it in own)):
                is_gone = error[1].startswith("proofs/") and GONE.search(error[4])
                (gone if is_gone else failed).append(line)
        return failed, gone

    def is_proved(self, change):
        """Whether the prover says of each function of a change that it is proved."""
        if not change.functions:
            return self.checked.status == 0
        said = []
        for function in self.of(change):
            ends = [text for name, text in self.said.items() if name.startswith(function.module) and f"::{name}".endswith(f"::{function.name}")]
            said += [self.said[called(function)]] if called(function) in self.said else ends or [""]
        return bool(said) and all(text.startswith("proved") for text in said)

    def verdict(self, change):
        """The verdict on an edit and the line that shows it, or nothing where it has to be tried by itself."""
        failed, gone = self.goals(change)
        if failed:
            return "refused", short(failed[0])
        if gone:
            return "by a name", short(gone[0])
        if self.is_proved(change):
            return "accepted", "it is still proved"
        if len(self.batch.changes) > 1:
            return None
        said = [text for function in self.of(change) for name, text in self.said.items() if name == called(function)]
        return "not tried", f"no goal of its own fails, and it isn't proved: {short((said or self.checked.lines[-1:] or ['-'])[0])}"


def judge(workspace, batch, checked):
    """The verdicts that a check gives, and the batches that are still to be tried."""
    answer = Answer(batch, checked, workspace.folder(batch.crate))
    if answer.stale():
        raise Unusable(f"the library of {answer.stale()} is of other sources: prove it again")
    spoilt = answer.spoilt()
    if not batch.is_whole:
        return judge_without_bodies(batch, answer, spoilt)
    tried = []
    if spoilt:
        culprits = answer.culprits(spoilt)
        tried += [Tried(batch.crate, change.edit.name, "not tried", short(line)) for change, line in culprits]
        left = [it for it in batch.changes if it not in [change for change, _ in culprits]]
        together = [left] if culprits else [[it] for it in left]
        return tried, [Batch(batch.crate, changes, is_whole=True) for changes in together if changes]
    left = []
    for change in batch.changes:
        verdict = answer.verdict(change)
        if verdict:
            tried.append(Tried(batch.crate, change.edit.name, *verdict))
        else:
            left.append(Batch(batch.crate, [change], is_whole=True))
    return tried, left


def judge_without_bodies(batch, answer, spoilt):
    """The refusals that a check gives in which other functions have no bodies, and a batch of what is left, to be tried with all bodies."""
    tried, left = [], []
    for change in batch.changes:
        failed, _ = ([], []) if spoilt else answer.goals(change)
        if failed:
            tried.append(Tried(batch.crate, change.edit.name, "refused", short(failed[0])))
        else:
            left.append(change)
    return tried, [Batch(batch.crate, left, is_whole=True)] if left else []


class Trials:
    """Batches that are tried side by side, each in a thread of its own, and what is known of them by now.

    The batches of one crate go one after the other: what all but the edited functions need is then checked once, and kept in a folder.
    """

    def __init__(self, workspace, batches, report=print):
        self.workspace, self.left, self.report = workspace, list(batches), report
        self.tried, self.seconds, self.running, self.failure = [], collections.Counter(), {}, None
        self.changed, self.room = threading.Condition(), tempfile.TemporaryDirectory(prefix=ROOM, ignore_cleanup_errors=True)
        counts = collections.Counter(batch.crate for batch in batches)
        self.kept = {crate: f"{self.room.name}/{crate}" for crate, count in counts.items() if count > 1}

    def is_done(self):
        return self.failure or not self.left and not self.running

    def start(self, niceness=0, is_ready=lambda crate: True):
        """Starts the next batch whose crate is ready, if there is one."""
        with self.changed:
            busy = {batch.crate for batch in self.running.values()}
            at = next((at for at, batch in enumerate(self.left) if batch.crate not in busy and is_ready(batch.crate)), None)
            if at is None or self.failure:
                return False
            check = Check(niceness)
            self.running[check] = self.left.pop(at)
        threading.Thread(target=self.work, args=(check,), daemon=True).start()
        return True

    def work(self, check):
        """Tries a batch, and notes what comes of it."""
        batch, tried, left, failure = self.running[check], [], [], None
        try:
            checked = check_batch(self.workspace, batch, check, self.kept.get(batch.crate))
            if check.is_stopped:
                left = [batch]
            elif checked.status == -signal.SIGKILL and not batch.times_killed:
                left = [batch._replace(times_killed=1)]
            else:
                tried, left = judge(self.workspace, batch, checked)
        except Unusable as error:
            failure = str(error)
        except Exception as error:  # pylint: disable=broad-except
            failure = f"{type(error).__name__}: {error}"
        with self.changed:
            del self.running[check]
            self.tried += tried
            self.left += left
            self.failure = self.failure or failure
            self.seconds[batch.crate] += check.seconds
            if tried:
                self.report_on(batch, tried, check)
            self.changed.notify_all()

    def report_on(self, batch, tried, check):
        """Says what a check has shown."""
        count = len(batch.changes)
        self.report(f"{batch.crate}: {count} {'edit' if count == 1 else 'edits in one check'}, {check.seconds:.0f} s of processor time")
        for it in tried:
            self.report(f"  {it.verdict}: {it.name}: {it.text}")

    def wait(self, seconds=None):
        """Waits until a batch has ended, or so long."""
        with self.changed:
            if self.running:
                self.changed.wait(seconds)

    def stop_newest(self):
        """Stops the batch that began last; it is tried again later."""
        with self.changed:
            check = next(reversed(self.running), None)
        if check:
            check.stop()

    def finish(self, jobs):
        """Tries what is left, so many side by side, at the usual priority."""
        for check in list(self.running):
            check.hasten()
        while not self.is_done():
            while len(self.running) < jobs and self.start():
                pass
            self.wait(1)

    def stop(self):
        """Stops what still runs, starts nothing more, and answers why nothing could be tried, if so."""
        failure = self.failure
        with self.changed:
            self.failure = failure or "stopped"
            checks = list(self.running)
        for check in checks:
            check.stop()
        with self.changed:
            self.changed.wait_for(lambda: not self.running, 10)
        self.room.cleanup()
        return failure


def table(tried, crates, seconds):
    """The table of what was made of the edits, a line for each crate."""
    rows = [
        "| crate | edits | refused by a contract | only because a proof names what is gone | accepted | could not be tried | seconds |",
        "|---" * 7 + "|",
    ]
    for crate in crates:
        counts = collections.Counter(it.verdict for it in tried if it.crate == crate)
        numbers = [sum(counts.values()), *(counts[verdict] for verdict in VERDICTS), f"{seconds[crate]:.0f}"]
        rows.append(f"| `{crate}` | " + " | ".join(map(str, numbers)) + " |")
    return "\n".join(rows)


def summary(tried):
    """The edits that were not refused by a contract, and how many were."""
    told = {"by a name": "only because a proof names what is gone", "accepted": "accepted", "not tried": "could not be tried"}
    rows = [f"{told[verdict]}: {it.crate}/{it.name}: {it.text}" for verdict in VERDICTS[1:] for it in tried if it.verdict == verdict]
    return rows, sum(it.verdict in ("refused", "by a name") for it in tried), sum(it.verdict in ("accepted", "not tried") for it in tried)
