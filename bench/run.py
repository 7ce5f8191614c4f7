#!/usr/bin/env python3
"""Times `pyast tokens` beside Python's own tokenizers and a plain copy of the bytes, on sources of 1, 10 and 100 MB.

    bench/run.py [--program PATH] [--quick] [--goal TIMES]     the table of times: five to eight minutes
    bench/run.py --memory [--limit MB]                         the peak memory on 10, 100 and 1,000 MB of short lines

The sources are made of the library of Python 3.11: one of files that are ASCII alone, one of files that aren't. Times are
those of the processor, which other work on the machine disturbs less than the clock's: the least of three rounds, in which
the programs take turns. All write to /dev/null.

The exit status is 0, but 1 where a program failed, --limit was passed or --goal was missed, and 2 where nothing could be
measured.
"""

import argparse
import ast
import contextlib
import glob
import os
import platform
import random
import resource
import shutil
import subprocess
import sys
import tempfile
import time
import traceback

from timers import built_program, refuse

MEGABYTE = 1_000_000
SIZES = (1, 10, 100)
# The whole of a run is to take less than ten minutes: Python's listing of 100 MB takes minutes, and over 20 GB of memory.
LARGEST_OF_PYTHONS = 10
ROUNDS = 3
# No further round of a program that took this long already.
ENOUGH_SECONDS = 40
PEER = "python3.11 -m tokenize"
SHORT_LINE = b"total = total + 1  # one more\n"
# Python's C tokenizer alone, with nothing written: from 3.12 on it is what the module tokenize stands on.
C_TOKENIZER = """\
import collections, sys, _tokenize
with open(sys.argv[1], "rb") as file:
    collections.deque(_tokenize.TokenizerIter(file.readline, encoding="utf-8", extra_tokens=True), maxlen=0)
"""


class Runs:
    """What some runs of a program took: processor and clock seconds, the least of each, and the peak of memory in MB."""

    def __init__(self, name, words):
        self.name, self.words = name, words
        self.processor, self.clock, self.taken, self.memory, self.status = float("inf"), float("inf"), 0.0, 0.0, 0

    def run(self, watched=False, stdin=subprocess.DEVNULL):
        """Runs the program once more, unless it took long already. Watched, its own peak of memory is read while it runs."""
        if self.taken > ENOUGH_SECONDS:
            return
        before = time.monotonic()
        process = subprocess.Popen(self.words, stdin=stdin, stdout=subprocess.DEVNULL, stderr=subprocess.DEVNULL)
        peak = watch(process.pid) if watched else None
        _, status, used = os.wait4(process.pid, 0)
        process.returncode = os.waitstatus_to_exitcode(status)
        seconds = time.monotonic() - before
        self.taken += seconds
        self.clock = min(self.clock, seconds)
        self.processor = min(self.processor, used.ru_utime + used.ru_stime)
        self.memory = max(self.memory, peak or used.ru_maxrss * 1024 / MEGABYTE)
        self.status = self.status or process.returncode

    def shown_memory(self):
        """The peak of memory. A child's begins at that of this script, which starts it: less than that can't be seen."""
        own = resource.getrusage(resource.RUSAGE_SELF).ru_maxrss * 1024 / MEGABYTE
        return f"{self.memory:.0f}" if self.memory > own + 1 else f"under {self.memory:.0f}"

    def failed(self):
        """What is to be said of a run that failed."""
        return f"  status {self.status}" if self.status else ""


def watch(pid):
    """The peak of memory of a program until it ends, in MB, or none where the system doesn't give it."""
    peak = None
    while not os.waitid(os.P_PID, pid, os.WEXITED | os.WNOWAIT | os.WNOHANG):
        with contextlib.suppress(OSError, StopIteration), open(f"/proc/{pid}/status", encoding="utf-8") as file:
            peak = int(next(line for line in file if line.startswith("VmHWM:")).split()[1]) * 1024 / MEGABYTE
        time.sleep(0.005)
    return peak


# --- the sources ------------------------------------------------------------------------------------------------------


def apart(work):
    """Does some work in a process of its own: a child's peak of memory begins at that of the process that starts it."""
    pid = os.fork()
    if not pid:
        try:
            work()
            os._exit(0)
        except BaseException:
            traceback.print_exc()
            os._exit(1)
    if os.waitpid(pid, 0)[1]:
        refuse("the sources could not be made")


def library_files(library):
    """The library's files, in an order that is the same each time and mixes its parts; its tests' bad sources are left out."""
    paths = []
    for folder, folders, names in os.walk(library):
        folders[:] = sorted(set(folders) - {"site-packages", "dist-packages", "__pycache__"})
        paths += [os.path.join(folder, name) for name in sorted(names) if name.endswith(".py")]
    random.Random(1).shuffle(paths)
    return paths


def is_good(data):
    """Whether a source can stand among others: it ends its last line, and Python's parser takes it."""
    if not data.endswith(b"\n") or b"\r" in data or b"\0" in data or data.startswith(b"\xef\xbb\xbf"):
        return False
    try:
        ast.parse(data.decode())
    except (SyntaxError, ValueError, RecursionError):
        return False
    return True


def good_sources(library, wanted, size):
    """Good sources that are wanted, up to a size and each once."""
    for path in library_files(library):
        with open(path, "rb") as file:
            data = file.read()
        if size > 0 and wanted(data) and is_good(data):
            size -= len(data)
            yield data


def write_sources(folder, library, name, wanted, sizes=SIZES):
    """Writes the sources of some sizes. One of 10 MB begins as that of 1 MB does; where files run out, they come again."""
    pieces = list(good_sources(library, wanted, 10 * MEGABYTE))
    if not pieces:
        raise ValueError(f"{library} has no file to make a source of")
    for size in sizes:
        left = size * MEGABYTE
        with open(source_path(folder, name, size), "wb") as file:
            while left > 0:
                for piece in pieces:
                    if left > 0:
                        file.write(piece)
                        left -= len(piece)


def source_path(folder, name, size):
    """Where a source of so many MB stands."""
    return os.path.join(folder, f"{name.lower().replace(' ', '-')}-{size}.py")


def write_short_lines(path, size):
    """Writes a source of so many MB in short lines."""
    lines = SHORT_LINE * (MEGABYTE // len(SHORT_LINE))
    with open(path, "wb") as file:
        for _ in range(size):
            file.write(lines)


# --- the programs -----------------------------------------------------------------------------------------------------


def answer(path, code):
    """What a Python prints for a line of code, or None where it doesn't work."""
    with contextlib.suppress(OSError, subprocess.SubprocessError):
        return subprocess.run([path, "-c", code], stdout=subprocess.PIPE, stderr=subprocess.DEVNULL, check=True).stdout.decode()
    return None


def find_python(version):
    """The path of a Python of this version: on the PATH, or among those of pyenv."""
    kept = os.path.expanduser(f"~/.pyenv/versions/{version}.*/bin/python{version}")
    for path in (shutil.which(f"python{version}"), *sorted(glob.glob(kept), reverse=True)):
        found = path and answer(path, "import sys; print('%d.%d' % sys.version_info[:2], sys.executable)")
        if found and found.split()[0] == version:
            return found.split()[1]
    return None


def library_of_python_311():
    """The path of a Python 3.11, and the folder of its library, of which the sources are made."""
    python = find_python("3.11")
    if not python:
        refuse("no Python 3.11 is found on the PATH or among those of pyenv: sources are made of its library")
    return python, answer(python, "import sysconfig; print(sysconfig.get_path('stdlib'))").strip()


def programs(options, python):
    """The name of each program, its words before the source, and the largest source that it is run on, in MB."""
    yield "pyast tokens", [options.program, "tokens"], SIZES[-1]
    yield PEER, [python, "-m", "tokenize"], LARGEST_OF_PYTHONS
    for minor in range(12, 20):
        newer = find_python(f"3.{minor}")
        if newer:
            yield f"python3.{minor} -m tokenize", [newer, "-m", "tokenize"], LARGEST_OF_PYTHONS
            yield f"python3.{minor}, C tokenizer alone", [newer, "-c", C_TOKENIZER], LARGEST_OF_PYTHONS
    yield "copy of the source (cat)", ["cat"], SIZES[-1]


def show_machine():
    """Prints what the table was measured on."""
    model = platform.machine()
    with contextlib.suppress(OSError, StopIteration), open("/proc/cpuinfo") as file:
        model = next(line.split(":")[1].strip() for line in file if line.startswith("model name"))
    load = os.getloadavg()[0]
    print(f"{model}, {os.cpu_count()} cores, {platform.system()} {platform.release()}; load {load:.1f} when it began\n", flush=True)


# --- the tables -------------------------------------------------------------------------------------------------------


def write_listing(program, source, path):
    """Writes pyast's listing of a source to a file, and answers how many MB it has."""
    with open(path, "wb") as file:
        subprocess.run([program, "tokens", source], stdout=file, check=False)
    return os.path.getsize(path) / MEGABYTE


def measure_source(options, peers, folder, name):
    """Measures all programs on a kind of source, size by size, and prints the rows; answers whether all ended well, and how
    many times pyast's time Python 3.11 took on the largest source that it was run on."""
    well, times, before, listing = True, 0.0, {}, os.path.join(folder, "listing")
    for size in SIZES[:2] if options.quick else SIZES:
        path = source_path(folder, name, size)
        megabytes = os.path.getsize(path) / MEGABYTE
        rows = [Runs(program, [*words, path]) for program, words, largest in peers if size <= largest]
        if size <= LARGEST_OF_PYTHONS:
            listed = write_listing(options.program, path, listing)
            rows.append(Runs(f"copy of the listing, {listed:.0f} MB (cat)", ["cat", listing]))
        for _ in range(ROUNDS):
            for row in rows:
                row.run()
        mine = rows[0].processor
        for row in rows:
            # 1.00 where the time grew as the bytes did; what takes next to none can't be judged.
            was = before.get(row.name)
            growth = f"{row.processor / was[0] / (megabytes / was[1]):.2f}" if was and was[0] > 0.02 else ""
            before[row.name] = row.processor, megabytes
            speed = megabytes / row.processor if row.processor else float("inf")
            print(f"| {name} | {megabytes:.1f} | {row.name} | {row.processor:.3f} | {row.clock:.3f} | {speed:.1f} "
                  f"| {row.processor / mine:.2f} | {row.shown_memory()} | {growth} |{row.failed()}", flush=True)
            well &= not row.status
            times = row.processor / mine if row.name == PEER else times
    return well, times


def measure(options, folder):
    """Makes the sources, measures all and prints the table; answers the exit status."""
    python, library = library_of_python_311()
    show_machine()
    kinds = {"ASCII": bytes.isascii, "past ASCII": lambda data: not data.isascii() and is_text(data)}
    for name, wanted in kinds.items():
        apart(lambda name=name, wanted=wanted: write_sources(folder, library, name, wanted))
    peers = list(programs(options, python))
    print("| source | MB | program | processor s | clock s | MB/s | times pyast's | peak MB | growth |")
    print("|---|---|---|---|---|---|---|---|---|", flush=True)
    found = {name: measure_source(options, peers, folder, name) for name in kinds}
    print(f"\nMB/s of source, by processor time. Growth: how the time a byte changed from the size before. The Pythons are run on at"
          f"\nmost {LARGEST_OF_PYTHONS} MB: on more, Python's listings take minutes, and some GB of memory.")
    for name, (_, times) in found.items():
        print(f"{name}: {PEER} takes {times:.1f} times as long as pyast tokens")
    missed = options.goal is not None and min(times for _, times in found.values()) < options.goal
    if options.goal is not None:
        print(f"The goal of {options.goal:g} times is {'missed' if missed else 'reached'}.")
    return int(missed or not all(well for well, _ in found.values()))


def is_text(data):
    """Whether bytes are UTF-8."""
    with contextlib.suppress(UnicodeDecodeError):
        return data.decode() is not None
    return False


def measure_memory(options, folder):
    """Prints the peak of memory on sources of short lines, and answers the exit status."""
    path, well, passed, peaks = os.path.join(folder, "short.py"), True, False, []
    show_machine()
    print("| short lines, MB | peak MB | processor s | clock s |\n|---|---|---|---|")
    for size in (10, 100) if options.quick else (10, 100, 1000):
        apart(lambda size=size: write_short_lines(path, size))
        row = Runs("pyast tokens", [options.program, "tokens", path])
        row.run(watched=True)
        peaks.append(row.memory)
        well &= not row.status
        passed |= options.limit is not None and row.memory > options.limit
        print(f"| {size} | {row.memory:.2f} | {row.processor:.2f} | {row.clock:.2f} |{row.failed()}", flush=True)
    print(f"\nThe peaks differ by {max(peaks) - min(peaks):.2f} MB.")
    if options.limit is not None:
        print(f"{'More than' if passed else 'Never more than'} the {options.limit:g} MB that are allowed.")
    return int(passed or not well)


def main():
    parser = argparse.ArgumentParser(description="Times `pyast tokens` beside Python's own tokenizers.")
    parser.add_argument("--program", metavar="PATH", help="the built program; default: that of this project")
    parser.add_argument("--quick", action="store_true", help="without the largest size")
    parser.add_argument("--goal", type=float, metavar="TIMES",
                        help="status 1 where Python 3.11 doesn't take so many times as long, on the largest source for both")
    parser.add_argument("--memory", action="store_true", help="the peak of memory on short lines, and no times")
    parser.add_argument("--limit", type=float, metavar="MB", help="with --memory: status 1 where the peak is more than this")
    options = parser.parse_args()
    options.program = built_program(options.program)
    with tempfile.TemporaryDirectory(prefix="pyast-bench-") as folder:
        return measure_memory(options, folder) if options.memory else measure(options, folder)


if __name__ == "__main__":
    sys.exit(main())
