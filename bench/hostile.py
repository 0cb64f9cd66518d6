#!/usr/bin/env python3
"""Runs every command on inputs that want to hurt, and tells status, time and memory of each.

Use: hostile.py PROGRAM FOLDER [--seconds 60] [--only WORD ..]. The inputs are made in the folder: those of files.py and those of
hurting.py; listings of the files are assembled again, and logs replayed. Programs that end at a limit are run with the greatest limits too. A run that is
stopped by a signal, that lasts longer than so many seconds, that finds no memory where it may take 4 * 10^9 bytes (or does find it,
where it is to say that there is none), or takes more than 2 * 10^9 at the default limits is told at the end, and makes the status 1.
"""
import argparse
import os
import random
import subprocess
import sys
import tempfile

import files
import hurting

KINDS = ("ints", "strings", "names", "definitions", "bodies", "code", "compiled", "tiny", "chain", "interfaces", "traits", "one_text",
         "forward", "backward", "cycle", "straight", "branches", "tries", "nested", "handlers", "deep", "scopes", "locals")
TEXTS = ("labels", "renewed", "long", "comment")
OF_FILES = ("canon", "dis", "check", "tidy")
ROOMS = ("objects", "cells", "text", "frames", "stack")
GREATEST = ["run", "--fuel=4294967295", *(f"--{room}=16777216" for room in ROOMS)]
# These end with their fuel, or are done.
WITHOUT_LIMIT = ("throws", "lines", "missing", "scripts", "emptied")
LOGGED = ["log", "--fuel=1000000"]
ROOM, MOST, NO_MEMORY = 4 * 10**9, 2 * 10**9, 9
LINE = "{:20} {:12} {:>6} {:>8} {:>8} {:>8}"


class Inputs:
    """The inputs, made as they are asked for."""

    def __init__(self, abc, folder):
        self.abc, self.folder = abc, folder

    def path(self, name):
        return os.path.join(self.folder, name)

    def write(self, name, make):
        path = self.path(name)
        if not os.path.exists(path):
            made = make()
            with open(path, "wb") as out:
                out.write(made)
        return path

    def assembled(self, name, text):
        source = self.write(name + ".abcasm", text.encode)
        with open(source, "rb") as given:
            return self.write(name + ".abc", lambda: subprocess.run([self.abc, "asm"], stdin=given, stdout=subprocess.PIPE, check=True).stdout)

    def made(self, name, ending):
        """The file of that kind, as files.py makes it."""
        return self.write(name + ending, lambda: files.MAKERS[name](random.Random(name), files.SIZE))

    def all(self):
        """Triples of a name, what makes the input and answers its path, and the words that read it."""
        of_file = [[command] for command in OF_FILES]
        for name in KINDS:
            yield name, lambda: self.made(name, ".abc"), of_file
        for name, make in hurting.FILES.items():
            yield name, lambda: self.write(name + ".abc", make), of_file
        for name, text in hurting.LINKED.items():
            yield name, lambda: self.assembled(name, text()), of_file
        for name in TEXTS:
            yield name, lambda: self.made(name, ".abcasm"), [["asm"]]
        for name, text in hurting.RUNS.items():
            greatest = [] if name in WITHOUT_LIMIT else [GREATEST]
            yield "run_" + name, lambda: self.assembled("run_" + name, text), [["check"], ["run"], *greatest]
        yield "log_lines", lambda: self.assembled("run_lines", hurting.RUNS["lines"]), [LOGGED]
        yield "claim", lambda: self.write("claim.log", lambda: b"ffffffff\n" + bytes(500_000_000)), [["replay"]]
        yield "gen", lambda: os.devnull, [["gen", "--methods=10000"]]


def measured(abc, words, path, out, seconds):
    """Status (above 128 where a signal stopped it), seconds on the clock and of the processor, and the peak of memory, by GNU time."""
    limits = ["prlimit", f"--cpu={seconds}", f"--as={ROOM}"]
    with open(path, "rb") as source, open(out, "wb") as sink, tempfile.NamedTemporaryFile("r") as told:
        timed = ["/usr/bin/time", "-o", told.name, "-f", "%e %U %S %M", *limits, abc, *words]
        status = subprocess.run(timed, stdin=source, stdout=sink, stderr=subprocess.DEVNULL).returncode
        clock, user, system, peak = map(float, told.read().splitlines()[-1].split())
    return status, clock, user + system, peak * 1024


class Table:
    """The lines of the table, and what is told at its end."""

    def __init__(self, abc, seconds):
        self.abc, self.seconds, self.bad = abc, seconds, []

    def add(self, name, words, path, out=os.devnull):
        status, clock, cpu, peak = measured(self.abc, words, path, out, self.seconds)
        shown = "run, greatest" if words == GREATEST else words[0]
        print(LINE.format(name, shown, status, f"{clock:.2f}", f"{cpu:.2f}", f"{peak / 1e6:.0f}"), flush=True)
        wants_memory = words == ["check"] and name in hurting.TOO_MUCH
        if status > 128 or (status == NO_MEMORY) != wants_memory or peak > MOST and words != GREATEST:
            self.bad.append(f"{shown} {name}")
        return status


def main():
    parser = argparse.ArgumentParser()
    parser.add_argument("program")
    parser.add_argument("folder")
    parser.add_argument("--seconds", type=int, default=60)
    parser.add_argument("--only", nargs="*", default=[])
    given = parser.parse_args()
    os.makedirs(given.folder, exist_ok=True)
    table, kept = Table(given.program, given.seconds), os.path.join(given.folder, "kept")
    print(LINE.format("input", "", "status", "clock s", "cpu s", "MB"))
    for name, make, all_words in Inputs(given.program, given.folder).all():
        if given.only and name not in given.only:
            continue
        path = make()
        for words in all_words:
            # What is read again, and by which command.
            again = {"dis": "asm", "log": "replay"}.get(words[0])
            status = table.add(name, words, path, kept if again else os.devnull)
            if again and (status == 0 or again == "replay"):
                table.add(name, [again], kept)
    if os.path.exists(kept):
        os.remove(kept)
    if table.bad:
        sys.exit("too long, too large, no memory, or stopped: " + ", ".join(table.bad))


if __name__ == "__main__":
    main()
