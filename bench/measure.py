#!/usr/bin/env python3
"""Runs two programs on files in turn and compares them: their outputs, times and peak memory.

Use: measure.py 'PROGRAM WORDS' 'PEER WORDS' FOLDER KIND.. [--ending .abc] [--status 0] [--beside 'PROGRAM WORDS'] [--alone] [--runs 5] [--refused FILE..]

Each kind has a file KIND.abc and mostly one of half its size, KIND_half.abc, in the folder; --ending names another ending.
Of so many runs each the best time counts: that on the clock, and that of the processor (cpu), which other work on the machine
disturbs less. Growth is the time of a whole file by that of the half one. The peak of memory comes from one more run under
GNU time: what the system tells of a direct child counts the memory of this script too. All answers have the status that
--status says. With --beside the processor's times are also told by those of that program, whose answers are its own. Files that are
refused are told by their peak alone. With --alone the peer is measured alone.
"""
import argparse
import hashlib
import os
import subprocess
import sys
import tempfile
import time

GNU_TIME = "/usr/bin/time"


def peak(words, path):
    """The peak memory of a run in bytes."""
    with open(path, "rb") as source, tempfile.NamedTemporaryFile() as told:
        subprocess.run([GNU_TIME, "--quiet", "-f", "%M", "-o", told.name, *words], stdin=source, stdout=subprocess.DEVNULL, stderr=subprocess.DEVNULL)
        return int(told.read()) * 1024


class Best:
    """The best times of some runs of a program on a file, and what it answered."""

    def __init__(self):
        self.clock = self.cpu = float("inf")
        self.answers = set()

    def run(self, words, path):
        with open(path, "rb") as source, tempfile.TemporaryFile() as out, tempfile.TemporaryFile() as err:
            begin = time.perf_counter()
            child = subprocess.Popen(words, stdin=source, stdout=out, stderr=err)
            _, status, usage = os.wait4(child.pid, 0)
            self.clock = min(self.clock, time.perf_counter() - begin)
            child.returncode = os.waitstatus_to_exitcode(status)
            self.cpu = min(self.cpu, usage.ru_utime + usage.ru_stime)
            out.seek(0)
            err.seek(0)
            self.answers.add((child.returncode, hashlib.file_digest(out, "sha256").hexdigest(), err.read()))


def compare(programs, path, wanted, runs):
    """The best of each program on a file; all runs have to give the same answer, with the wanted status."""
    bests = [Best() for _ in programs]
    for _ in range(runs):
        for best, words in zip(bests, programs):
            best.run(words, path)
    answers = set.union(*(best.answers for best in bests))
    statuses = {status for status, _, _ in answers}
    if len(answers) != 1 or statuses != {wanted}:
        sys.exit(f"{path}: the answers differ, or their status is not {wanted}: {answers}")
    return bests


def figure(value, width, places=2):
    return f"{value:{width}.{places}f}" if value is not None else f"{'-':>{width}}"


def by(one, other):
    return one and one / other


class Table:
    """The figures of some files. Without our program those of the peer alone."""

    def __init__(self, given):
        self.given = given
        self.programs = [given.ours.split(), given.peer.split()]
        if given.alone:
            print("Figures of the peer alone:")
            del self.programs[0]

    def head(self):
        beside = f" {'beside':>7}" if self.given.beside else ""
        print(f"{'file':17} {'abc s':>7} {'peer s':>7} {'ratio':>6} {'of cpu':>6} {'MB/s':>6} {'peak/byte':>10} {'peer':>6}{beside} {'growth':>7} {'of cpu':>6}")

    def path(self, name):
        return os.path.join(self.given.folder, name + self.given.ending)

    def beside(self, first, path):
        """The time by that of the program beside."""
        other = Best()
        for _ in range(self.given.runs):
            other.run(self.given.beside.split(), path)
        return first.cpu / other.cpu

    def show(self, name):
        """Prints a file's figures without the line's end, and gives the best runs of the program that is measured."""
        path = self.path(name)
        bests = compare(self.programs, path, self.given.status, self.given.runs)
        size = os.path.getsize(path)
        peaks = [peak(words, path) / size for words in self.programs]
        first, peer = bests[0], bests[-1]
        ours, cpu, ours_peak = (first.clock, first.cpu, peaks[0]) if len(bests) == 2 else (None, None, None)
        print(f"{name:17} {figure(ours, 7, 3)} {figure(peer.clock, 7, 3)} {figure(by(ours, peer.clock), 6)} {figure(by(cpu, peer.cpu), 6)}", end="")
        print(f" {size / first.clock / 1e6:6.1f} {figure(ours_peak, 10)} {figure(peaks[-1], 6)}", end="")
        if self.given.beside:
            print(f" {self.beside(first, path):7.2f}", end="", flush=True)
        return first

    def kind(self, name):
        half = None
        if os.path.exists(self.path(name + "_half")):
            half = self.show(name + "_half")
            print(flush=True)
        whole = self.show(name)
        print(f" {whole.clock / half.clock:7.2f} {whole.cpu / half.cpu:6.2f}" if half else "", flush=True)

    def refused(self):
        paths = self.given.refused
        for path in paths:
            compare(self.programs, path, 1, self.given.runs)
        peaks = [max(peak(words, path) for path in paths) for words in self.programs]
        print(f"{len(paths)} small files with huge counts, refused: the greatest peak is {peaks[0]:,} bytes, that of the peer {peaks[-1]:,}")


def main():
    parser = argparse.ArgumentParser()
    parser.add_argument("ours")
    parser.add_argument("peer")
    parser.add_argument("folder")
    parser.add_argument("kinds", nargs="+")
    parser.add_argument("--ending", default=".abc")
    parser.add_argument("--status", type=int, default=0)
    parser.add_argument("--beside")
    parser.add_argument("--alone", action="store_true")
    parser.add_argument("--runs", type=int, default=5)
    parser.add_argument("--refused", nargs="*", default=[])
    given = parser.parse_args()
    if not os.path.exists(GNU_TIME):
        sys.exit(f"{GNU_TIME} is not here (Debian's package time)")
    table = Table(given)
    table.head()
    for name in given.kinds:
        table.kind(name)
    if given.refused:
        table.refused()


main()
