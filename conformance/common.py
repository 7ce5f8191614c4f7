"""What the programs that compare share: running pyast, the files, smaller inputs, the table of classes, and the command line."""

import argparse
import collections
import multiprocessing
import os
import re
import shlex
import shutil
import subprocess
import sys
import sysconfig
import time

TOP = os.path.dirname(os.path.dirname(os.path.abspath(__file__)))
PROGRAM = os.path.join(TOP, "crates", "pyast", "out", "pyast")
NOT_THE_LIBRARY = {"site-packages", "dist-packages", "__pycache__"}
UNEXPLAINED = "NO CLASS"
SECONDS = 300

Outcome = collections.namedtuple("Outcome", "status out err")


def refuse(text):
    """Ends the run, as nothing can be compared."""
    print(f"{os.path.basename(sys.argv[0])}: {text}", file=sys.stderr)
    sys.exit(2)


class Count:
    """The checks of a script, and how many failed or were left out."""

    def __init__(self):
        self.passed, self.failed, self.skipped = 0, 0, 0

    def fail(self, name, text):
        """Reports a failure."""
        self.failed += 1
        print(f"{name}: {text[:400]}", flush=True)

    def is_due(self, name, found, due):
        """Checks that what was found is what is due."""
        if found == due:
            self.passed += 1
        else:
            self.fail(name, f"{found!r:.190} in place of {due!r:.190}")

    def skip(self, text):
        """Reports what is left out, and why."""
        self.skipped += 1
        print(f"skipped: {text}", flush=True)

    def end(self):
        """Prints how many there were; answers the exit status."""
        print(f"{self.passed} passed, {self.failed} failed" + (f", {self.skipped} skipped" if self.skipped else ""))
        return int(bool(self.failed))


# --- the program ------------------------------------------------------------------------------------------------------


def run(words, **more):
    """Runs a process to its end; one that doesn't end is an outcome too."""
    try:
        done = subprocess.run(words, stdout=subprocess.PIPE, stderr=subprocess.PIPE, timeout=SECONDS, **more)
    except subprocess.TimeoutExpired:
        return Outcome(None, b"", f"no end within {SECONDS} s\n".encode())
    return Outcome(done.returncode, done.stdout, done.stderr)


def outcome_of(program, words, data=b""):
    """What `pyast WORDS` does with a source on its standard input."""
    return run([*program, *words], input=data)


# --- the files --------------------------------------------------------------------------------------------------------


def python_files(folders):
    """The Python files below some folders, in order, site-packages left out."""
    for folder in folders:
        if os.path.isfile(folder):
            yield folder
        for path, inner, names in os.walk(folder):
            inner[:] = sorted(name for name in inner if name not in NOT_THE_LIBRARY)
            yield from (os.path.join(path, name) for name in sorted(names) if name.endswith(".py"))


def installed_folders():
    """The folders of Python's library and of the installed packages; the first of the path is that of the script."""
    return [path for path in sys.path[1:] if os.path.isdir(path)]


def chosen_files(options):
    """The files below the folders of the command line, each once; with --quick every 10th."""
    return list(dict.fromkeys(python_files(options.folders)))[::10 if options.quick else 1]


def short_name(path):
    """The path of a file of the library from there on, and any other as it is."""
    library = sysconfig.get_path("stdlib") + os.sep
    return path[len(library):] if path.startswith(library) else path


# --- the smallest input -----------------------------------------------------------------------------------------------


def shrink(pieces, fails):
    """The pieces less all runs of them that the failure doesn't need."""
    size = max(1, len(pieces) // 2)
    while size:
        at, before = 0, len(pieces)
        while at < len(pieces):
            fewer = pieces[:at] + pieces[at + size:]
            if fails(fewer):
                pieces = fewer
            else:
                at += size
        size = size // 2 if size > 1 else int(len(pieces) < before)
    return pieces


def smallest(data, fails, limit=120):
    """The smallest source found that still fails: first lines are left out, then characters."""
    end = time.monotonic() + limit

    def still_fails(pieces):
        return time.monotonic() < end and fails("".join(pieces).encode("utf-8", "surrogateescape"))

    text = data.decode("utf-8", "surrogateescape")
    lines = shrink(re.findall(r".*\n|.+", text), still_fails)
    return "".join(shrink(list("".join(lines)), still_fails)).encode("utf-8", "surrogateescape")


# --- the run ----------------------------------------------------------------------------------------------------------


def show_progress(done, count):
    """One line that is written over, on a terminal alone."""
    if sys.stderr.isatty():
        end = "\n" if done == count else ""
        print(f"\r{done} of {count} compared", end=end, file=sys.stderr, flush=True)


def results_of(work, count, cases, jobs, prepare=None):
    """The results of all cases, by some processes."""
    results = []
    with multiprocessing.Pool(jobs, prepare) as pool:
        for result in pool.imap_unordered(work, cases, 4):
            results.append(result)
            show_progress(len(results), count)
    return results


def show_table(results, samples):
    """Prints each class with its number of cases and its shortest example, or its sample where it has no case; the first
    class, that of no difference, has none."""
    groups = collections.defaultdict(list)
    for result in results:
        groups[result.found].append(result)
    print(f"\n{'class':44}{'cases':>8}  example")
    for number, name in enumerate([*samples, UNEXPLAINED]):
        group = groups.get(name, [])
        if group or name != UNEXPLAINED:
            examples = [repr(one.data) if one.data else one.name for one in group]
            example = min(examples or [repr(samples[name])], key=len)
            print(f"{name:44}{len(group):8}  {example if number else ''}"[:140].rstrip())


def show_end(failures, cases):
    """Prints whether every difference has a class, and how many cases there were; answers the exit status."""
    print(f"Differences without class: {len(failures)}" if failures else "Every difference has a class.")
    print(f"{max(0, cases - len(failures))} passed, {len(failures)} failed")
    return int(bool(failures))


# --- the command line -------------------------------------------------------------------------------------------------


def go_on_with_python_311(needed=True):
    """Runs this program again by Python 3.11, whose modules are those to compare with, where it isn't that already. Where there is none, the run
    ends if it is needed."""
    if sys.version_info[:2] == (3, 11):
        return
    for name in ("python3.11", "python3"):
        path = shutil.which(name)
        version = path and run([path, "-c", "import sys; print(*sys.version_info[:2])"]).out.split()
        if version == [b"3", b"11"]:
            os.execv(path, [path, os.path.abspath(sys.argv[0]), *sys.argv[1:]])
    if not needed:
        return
    why = "no Python 3.11 is found: there is no working `python3.11` on the PATH, and `python3` isn't of that version"
    if "--or-skip" in sys.argv[1:]:
        print(f"skipped: {why}")
        sys.exit(0)
    refuse(f"{why}. Install Python 3.11 (its standard library is all that is needed) and run this again.")


def program_parser(description):
    """A command line with what all have: the program, the processes, the seed."""
    parser = argparse.ArgumentParser(description=description)
    parser.add_argument("--program", default=shlex.quote(PROGRAM), metavar="WORDS",
                        help="the built program, or the words that call it; default: that of this project")
    parser.add_argument("--jobs", type=int, default=os.cpu_count() or 1, metavar="N", help="processes; default: cores")
    parser.add_argument("--seed", type=int, default=1, metavar="S", help="what is drawn depends on it; default: 1")
    parser.add_argument("--or-skip", action="store_true", help="where there is no Python 3.11, say so with status 0")
    return parser


def files_parser(description):
    """A command line with what those have that compare files and changed pieces of source."""
    parser = program_parser(description)
    parser.add_argument("folders", nargs="*", metavar="FOLDER", help="a folder or file; default: Python's own library")
    parser.add_argument("--installed", action="store_true", help="without a FOLDER: Python's own library and the installed packages")
    parser.add_argument("--quick", action="store_true", help="every 10th file alone")
    parser.add_argument("--mutate", type=int, default=0, metavar="N", help="also N changed pieces of source")
    parser.add_argument("--smallest", type=int, default=10, metavar="N",
                        help="for how many failures the smallest input is looked for; default: 10")
    return parser


def read_options(parser):
    """The command line; the run ends where it names what isn't there."""
    options = parser.parse_args()
    options.program = tuple(shlex.split(options.program))
    folders = getattr(options, "folders", []) or (installed_folders() if getattr(options, "installed", False) else [sysconfig.get_path("stdlib")])
    options.folders = [os.path.abspath(folder) for folder in folders]
    if not options.program or not shutil.which(options.program[0]):
        refuse(f"{' '.join(options.program)} isn't there: run {os.path.join(TOP, 'pyast')} once, which unpacks it")
    for folder in options.folders:
        if not os.path.exists(folder):
            refuse(f"{folder} isn't there")
    return options
