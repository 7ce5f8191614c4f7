#!/usr/bin/env python3
"""Runs the script `pyast` in small clones on machines where it can't unpack the program as usual, and checks what it does: which program it runs,
or with which line and status it ends. That it never proves is checked by an `rt` that leaves a mark.

    conformance/start.py

The clones have the scripts of this one, sources of a few lines, and a release/ made of the built program. A machine without a tool is a PATH without
it, another system an `uname` that names one, a clone that can't be written to belongs to another user, a full disk is a small tmpfs, or where
none can be mounted a limit on the size of files. The last line counts the checks; the exit status is 0, 1 where one failed, and 2 where the
built program isn't there.
"""

import contextlib
import functools
import hashlib
import lzma
import os
import re
import resource
import shutil
import subprocess
import sys
import tempfile

from common import PROGRAM, TOP, Count, refuse

# What the scripts call. A machine in these checks has no other tools.
TOOLS = (
    "awk basename bash cat chmod dirname env find getconf git grep head mkdir mktemp mv printf readlink rm sed sh sha256sum sort tail touch "
    "uname xargs xz"
).split()
LISTING = "0,0-0,0:            ENCODING       'utf-8'        \n1,0-1,1:            NAME           'x'            \n"
NOBODY = 65534


@functools.lru_cache(maxsize=None)
def packed(program):
    """A program as release/ has it."""
    return lzma.compress(program, preset=0)


class Room:
    """A small clone, its home, and a machine's tools."""

    def __init__(self, folder):
        self.folder, self.top, self.home, self.bin = folder, f"{folder}/clone", f"{folder}/home", f"{folder}/bin"
        self.own, self.mark = f"{self.top}/crates/pyast/out", f"{folder}/proved"
        os.chmod(folder, 0o777)
        for made in (f"{self.top}/tools", f"{self.top}/release", f"{self.top}/crates/pyast/src", self.home, self.bin):
            os.makedirs(made)
        os.chmod(self.home, 0o777)
        for name in ("pyast", "tools/provide", "tools/digest"):
            shutil.copy(f"{TOP}/{name}", f"{self.top}/{name}")
        self.write(f"{self.top}/crates.txt", "pyast:\n")
        self.write(f"{self.top}/crates/pyast/src/main.rt", "fn main() {}\n")
        for tool in TOOLS:
            if shutil.which(tool):
                os.symlink(shutil.which(tool), f"{self.bin}/{tool}")
        self.tool("rt", f"echo proved >{self.mark}")
        with open(PROGRAM, "rb") as file:
            self.release(file.read())
        self.cached = f"{self.home}/.cache/pyast/{self.digest()}/pyast"

    @staticmethod
    def write(path, text):
        """Makes a file anew."""
        with open(path, "w", encoding="utf-8") as file:
            file.write(text)

    def tool(self, name, script):
        """Puts a script in the place of a tool."""
        self.without(name)
        self.write(f"{self.bin}/{name}", f"#!/bin/sh\n{script}\n")
        os.chmod(f"{self.bin}/{name}", 0o755)

    def without(self, name):
        """Takes a tool away."""
        with contextlib.suppress(FileNotFoundError):
            os.remove(f"{self.bin}/{name}")

    def digest(self):
        """The digest of the sources."""
        return subprocess.run([f"{self.top}/tools/digest"], check=True, stdout=subprocess.PIPE, text=True).stdout.strip()

    def release(self, program):
        """Makes release/ of a program."""
        with open(f"{self.top}/release/pyast-x86_64-linux.xz", "wb") as file:
            file.write(packed(program))
        version = subprocess.run([PROGRAM, "--version"], check=True, stdout=subprocess.PIPE, text=True).stdout
        self.write(f"{self.top}/release/PROVENANCE", f"version: {version}sources: {self.digest()}\nkit: none\nprogram: {hashlib.sha256(program).hexdigest()}\n")

    def run(self, words=("./pyast", "tokens"), other_user=False, limit=None, cwd=None, **variables):
        """The status, the output and the lines of errors of a run."""
        def prepare():
            if limit:
                resource.setrlimit(resource.RLIMIT_FSIZE, (limit, limit))
            if other_user and os.getuid() == 0:
                os.setgroups([])
                os.setgid(NOBODY)
                os.setuid(NOBODY)
        given = {"PATH": self.bin, "HOME": self.home, "LC_ALL": "C", **variables}
        done = subprocess.run(
            words, input="x\n", capture_output=True, text=True, check=False, cwd=cwd or self.top, preexec_fn=prepare,
            env={name: value for name, value in given.items() if value is not None},
        )
        return done.returncode, done.stdout, done.stderr

    def lock(self):
        """Takes the right to write away from all but root."""
        for folder, _, _ in os.walk(self.top):
            os.chmod(folder, 0o555)


class Checks(Count):
    """The checks, and how many failed."""

    def __init__(self):
        super().__init__()
        self.statuses = set()

    @contextlib.contextmanager
    def room(self):
        """A room for some checks, in which nothing may be proved."""
        with tempfile.TemporaryDirectory(prefix="pyast start ") as folder:
            room = Room(folder)
            try:
                yield room
            finally:
                for path, _, _ in os.walk(folder):
                    os.chmod(path, 0o777)
            self.is_due("nothing is proved", os.path.exists(room.mark), False)

    def runs(self, name, outcome, program):
        """That the source is listed, by a program that is there then."""
        status, out, err = outcome
        self.is_due(name, (status, out[:len(LISTING)], err, os.access(program, os.X_OK)), (0, LISTING, "", True))

    def ends(self, name, outcome, status, *words):
        """That a run ends with a status and one line with some words."""
        self.statuses.add(status)
        lines = outcome[2].splitlines()
        lacks = [word for word in words if word not in outcome[2]]
        self.is_due(f"{name} ({outcome[2].strip()})", (outcome[0], outcome[1], len(lines), lacks), (status, "", 1, []))


@contextlib.contextmanager
def small_disk(folder, *options):
    """A tmpfs of 200 KB at a folder, or nothing where none can be mounted."""
    os.makedirs(folder, exist_ok=True)
    words = ["mount", "-t", "tmpfs", "-o", ",".join(["size=200k", "mode=777", *options]), "tmpfs", folder]
    mounted = bool(shutil.which("mount")) and subprocess.run(words, capture_output=True, check=False).returncode == 0
    try:
        yield mounted
    finally:
        if mounted:
            subprocess.run(["umount", folder], check=True)


def check_usual(checks):
    """A fresh clone, called in each way."""
    with checks.room() as room:
        in_cache = f"{room.home}/.cache/pyast"
        for words in (["./pyast"], ["bash", "pyast"], ["sh", "pyast"], [f"{room.top}/pyast"], ["bash", "./pyast"]):
            shutil.rmtree(room.own, ignore_errors=True)
            checks.runs(" ".join(words), room.run([*words, "tokens"]), f"{room.own}/pyast")
        os.symlink(f"{room.top}/pyast", f"{room.home}/a link")
        checks.runs("by a link", room.run([f"{room.home}/a link", "tokens"], cwd=room.home), f"{room.own}/pyast")
        checks.runs("by its path from elsewhere", room.run([f"{room.top}/pyast", "tokens"], cwd=room.home), f"{room.own}/pyast")
        os.chmod(f"{room.top}/tools/provide", 0o644)
        checks.runs("once it is unpacked, with nothing else", room.run(), f"{room.own}/pyast")
        checks.is_due("nothing in the cache", os.path.exists(in_cache), False)


def check_read_only(checks):
    """A clone that can't be written to."""
    with checks.room() as room:
        room.lock()
        checks.ends("no folder to write to", room.run(other_user=True, HOME=None), 73, "can't be unpacked", room.own, "XDG_CACHE_HOME")
        checks.ends("a cache folder that can't be written to", room.run(other_user=True, XDG_CACHE_HOME=f"{room.top}/cache"), 73, "can't be unpacked")
        for name, variables, made in (
            ("into the cache of the home", {}, room.cached),
            ("into the cache folder", {"XDG_CACHE_HOME": f"{room.home}/its cache"}, room.cached.replace(".cache", "its cache")),
        ):
            checks.runs(name, room.run(other_user=True, **variables), made)
            os.chmod(f"{room.top}/tools/provide", 0o444)
            checks.runs(f"{name}, once it is there", room.run(other_user=True, **variables), made)
            os.chmod(f"{room.top}/tools/provide", 0o555)
        checks.is_due("nothing in the clone", os.path.exists(room.own), False)


def check_machines(checks):
    """Machines that lack something."""
    for tool, words in (("xz", ("xz isn't found", "install")), ("sha256sum", ("sha256sum isn't found", "install"))):
        with checks.room() as room:
            room.without(tool)
            checks.ends(f"without {tool}", room.run(), 69, *words)
    for system in ("Darwin arm64", "Linux aarch64"):
        with checks.room() as room:
            room.tool("uname", f"echo {system}")
            checks.ends(system, room.run(), 69, "x86-64", system, "make prove")
    with checks.room() as room:
        room.release(b"#!/bin/sh\necho \"libc.so.6: version \\`GLIBC_2.99' not found\" >&2\nexit 1\n")
        checks.ends("an older C library", room.run(), 69, "glibc 2.99", "SSE4.1", "make prove")
        checks.is_due("of an older C library nothing is left", os.listdir(room.own), [])


def check_disks(checks):
    """Full disks, and disks from which nothing is run."""
    with checks.room() as room:
        checks.ends("files that can't be as large", room.run(limit=100_000), 73, "can't be unpacked")
        checks.is_due("nothing is left", os.listdir(room.own), [])
    with checks.room() as room, small_disk(room.own) as mounted:
        if mounted:
            checks.runs("a full disk, and room in the cache", room.run(), room.cached)
            checks.is_due("nothing is left there", os.listdir(room.own), [])
            shutil.rmtree(f"{room.home}/.cache")
            with small_disk(f"{room.home}/.cache"):
                checks.ends("full disks", room.run(), 73, "room for 2 MB")
        else:
            checks.skip("a full disk: no tmpfs can be mounted here")
    with checks.room() as room, small_disk(room.own, "noexec", "size=9m") as mounted:
        if mounted:
            checks.runs("a disk from which nothing is run", room.run(), room.cached)
        else:
            checks.skip("a disk from which nothing is run: no tmpfs can be mounted here")


def check_sources(checks):
    """A release/ that isn't that of the sources, and a program that is."""
    with checks.room() as room:
        checks.runs("before the change", room.run(), f"{room.own}/pyast")
        built = os.stat(f"{room.own}/built").st_mtime
        room.write(f"{room.top}/crates/pyast/src/main.rt", "fn main() {} // changed\n")
        os.utime(f"{room.top}/crates.txt", (built + 1, built + 1))
        checks.ends("changed sources", room.run(), 70, "have changed", "make prove")
        room.write(f"{room.own}/built", room.digest() + "\n")
        checks.runs("a program that was built of them", room.run(), f"{room.own}/pyast")
        room.without("xz")
        room.tool("uname", "echo Plan9 mips")
        checks.runs("the same wherever it is", room.run(), f"{room.own}/pyast")
    with checks.room() as room:
        archive = f"{room.top}/release/pyast-x86_64-linux.xz"
        os.truncate(archive, os.path.getsize(archive) // 2)
        checks.ends("a damaged release", room.run(), 70, "damaged", "git checkout release")
        os.remove(archive)
        checks.ends("no release", room.run(), 70, "no program", "git checkout release")
        os.remove(f"{room.top}/release/PROVENANCE")
        checks.ends("no record", room.run(), 70, "no program", "git checkout release")


def check_page(checks):
    """That docs/USE.md has a row for each of these statuses, and no other."""
    with open(f"{TOP}/docs/USE.md", encoding="utf-8") as file:
        found = {int(row) for row in re.findall(r"^\| (\d+) \|", file.read(), re.MULTILINE)}
    checks.is_due("statuses in docs/USE.md", sorted(status for status in found if status > 10), sorted(checks.statuses))


def main():
    if not os.access(PROGRAM, os.X_OK):
        refuse(f"{PROGRAM} isn't there: run {TOP}/pyast once")
    checks = Checks()
    for part in (check_usual, check_read_only, check_machines, check_disks, check_sources, check_page):
        part(checks)
    return checks.end()


if __name__ == "__main__":
    sys.exit(main())
