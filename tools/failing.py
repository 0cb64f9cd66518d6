#!/usr/bin/env python3
"""Fails each read and each write of each command, one at a time, where each moves one byte, and tells how many there were.

Use: failing.py PROGRAM. A read that fails makes the status 7 with `abc: read fault` and no output. A write that fails makes the status 8: of the
output, with what was written before and `abc: write fault`, and with nothing on standard error where all later writes fail too; of a line,
with the output and the front of the line. A C compiler is asked for.
"""
import os
import subprocess
import sys
import tempfile

HERE = os.path.dirname(os.path.abspath(__file__))


def example(name):
    with open(os.path.join(HERE, "..", "examples", name), "rb") as given:
        return given.read()


def cases():
    """Words and an input of each run, among them one for each status whose line the input causes."""
    hello = example("hello.abc")
    for command in ("canon", "dis", "check", "tidy", "run"):
        yield [command], hello
    yield ["asm"], example("hello.abcasm")
    yield ["gen", "--methods=1"], b""
    yield ["canon"], hello[:40]
    yield ["asm"], b"abc 16 47\n"
    yield ["check"], example("empty.abc")
    yield ["check"], example("merge.abc")
    yield ["canon", "--fuel=1"], hello
    yield ["run", "--fuel=6"], hello
    yield ["run", "--frames=0"], hello
    yield ["run"], hello.replace(b"trace", b"trac3")
    ticks, log = example("ticks.abc"), example("ticks.log")
    yield ["calls", "--times=3"], ticks
    yield ["calls"], hello
    yield ["calls", "--fuel=3"], ticks
    yield ["log"], hello
    yield ["log", "--fuel=3"], hello
    yield ["log", "--objects=0"], hello
    yield ["log"], hello.replace(b"trace", b"trac3")
    yield ["replay"], log
    yield ["replay"], log[:-4]
    yield ["replay"], log.replace(b"end Done", b"end Gone")
    yield ["replay"], hello


class Runs:
    def __init__(self, program, folder):
        self.program, library = program, os.path.join(folder, "refused.so")
        subprocess.run(["cc", "-O2", "-shared", "-fPIC", "-o", library, os.path.join(HERE, "refused.c"), "-ldl"], check=True)
        self.environment = {**os.environ, "LD_PRELOAD": library, "PIECE": "1"}

    def run(self, words, given, **faults):
        environment = {**self.environment, **{name: str(value) for name, value in faults.items()}}
        done = subprocess.run([self.program, *words], input=given, capture_output=True, env=environment)
        return done.returncode, done.stdout, done.stderr

    def expect(self, words, given, wanted, **faults):
        ended = self.run(words, given, **faults)
        if ended != wanted:
            sys.exit(f"{words}, {faults}: {ended}, and not {wanted}")

    def fail_reads(self, words, given):
        """How many reads there are; the first that is not asked for changes nothing."""
        whole, read = self.run(words, given), 1
        while (ended := self.run(words, given, READ=read)) != whole:
            if ended != (7, b"", b"abc: read fault\n"):
                sys.exit(f"{words}, read {read}: {ended}")
            read += 1
        return read - 1

    def fail_writes(self, words, given):
        """How many writes there are, each of a byte."""
        _, out, err = self.run(words, given)
        for write in range(1, len(out) + 1):
            front = out[: write - 1]
            self.expect(words, given, (8, front, b"abc: write fault\n"), WRITE=write)
            self.expect(words, given, (8, front, b""), WRITE=write, AND_LATER=1)
        for write in range(1, len(err) + 1):
            self.expect(words, given, (8, out, err[: write - 1]), WRITE=len(out) + write)
        return len(out) + len(err)


def main():
    with tempfile.TemporaryDirectory() as folder:
        runs = Runs(os.path.abspath(sys.argv[1]), folder)
        for words, given in cases():
            reads, writes = runs.fail_reads(words, given), runs.fail_writes(words, given)
            print(f"{' '.join(words)}, {len(given)} bytes: {reads} reads and {writes} writes failed", flush=True)


if __name__ == "__main__":
    main()
