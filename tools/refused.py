#!/usr/bin/env python3
"""Refuses each allocation of each command, one at a time, on the examples and a generated file, and tells how many there were.

Use: refused.py PROGRAM. Each run has to end with status 9, the line `abc: no memory` and nothing on standard output. An allocation
of the system's libraries may do without its memory: then the run ends as it does with all memory, and is counted apart. The program is
one that asks the system's `malloc`; a C compiler is asked for.
"""
import os
import subprocess
import sys
import tempfile

HERE = os.path.dirname(os.path.abspath(__file__))
# The makers of files.
sys.path.insert(0, os.path.join(HERE, "..", "bench"))
import running  # noqa: E402
from spelling import SIZE  # noqa: E402

EXAMPLES = os.path.join(HERE, "..", "examples")
NAMES = sorted(name[:-7] for name in os.listdir(EXAMPLES) if name.endswith(".abcasm"))
NO_MEMORY = (9, b"", b"abc: no memory\n")


def texts():
    """The texts of the examples, and that of the program of `gen` with four functions."""
    for name in NAMES:
        with open(os.path.join(EXAMPLES, name + ".abcasm"), "rb") as given:
            yield given.read()
    yield running.generated(None, SIZE // 2500)


def cases(program):
    """Words and an input of each run."""
    for text in texts():
        yield ["asm"], text
        file = subprocess.run([program, "asm"], input=text, stdout=subprocess.PIPE, check=True).stdout
        for command in ("canon", "dis", "check", "tidy", "run", "calls", "log"):
            yield [command], file
        log = subprocess.run([program, "log"], input=file, capture_output=True).stdout
        # Of a file that is refused there is none.
        if log:
            yield ["replay"], log
    yield ["gen", "--methods=4"], b""


class Runs:
    def __init__(self, program, folder):
        self.program, self.counted = program, os.path.join(folder, "counted")
        library = os.path.join(folder, "refused.so")
        subprocess.run(["cc", "-O2", "-shared", "-fPIC", "-o", library, os.path.join(HERE, "refused.c"), "-ldl"], check=True)
        self.environment = {**os.environ, "LD_PRELOAD": library, "COUNTED": self.counted}

    def run(self, words, given, refused):
        done = subprocess.run([self.program, *words], input=given, capture_output=True, env={**self.environment, "REFUSED": str(refused)})
        return done.returncode, done.stdout, done.stderr

    def sweep(self, words, given):
        """How many allocations there were, and how many of them the run can do without."""
        whole = self.run(words, given, 0)
        count, spared = int(open(self.counted).read()), 0
        for refused in range(1, count + 1):
            ended = self.run(words, given, refused)
            if ended == whole:
                spared += 1
            elif ended != NO_MEMORY:
                sys.exit(f"{words}: allocation {refused} of {count} refused: {ended}")
        return count, spared


def main():
    program = os.path.abspath(sys.argv[1])
    with tempfile.TemporaryDirectory() as folder:
        runs, all_counts = Runs(program, folder), {}
        for words, given in cases(program):
            count, spared = runs.sweep(words, given)
            sums = all_counts.setdefault(words[0], [0, 0, 0])
            for n, more in enumerate((1, count, spared)):
                sums[n] += more
        for command, (inputs, count, spared) in all_counts.items():
            print(f"{command}: {inputs} inputs, {count} allocations refused, {count - spared} ended with status 9, {spared} can be done without")


main()
