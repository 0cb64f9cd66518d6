#!/usr/bin/env python3
"""Searches for files on which a command's time or memory grows faster than the file.

Use: search.py PROGRAM FOLDER [--rounds 20] [--seed 1] [--seconds 60] [--only SHAPE ..]

Each round draws a shape and how it is mixed, and makes it at 1, 2 and 4 MB: each count that a shape has grows with the size, so that two counts that a command
multiplies show. Every command runs on each file: `asm` on its listing and `replay` on its log. A line is printed for each command whose time or memory at 4 MB is more
than SUSPECT times its share, as 1 MB and 2 MB tell it, or that ends otherwise than at 1 MB by a signal, a limit of time or want of memory. Small figures are passed over. The
name, the seed and the sizes make the same file again. This is a search by hand, and no test.
"""
import argparse
import os
import random
import sys

import hurting
import linking
import running
import tidying
import verifying
from hostile import NO_MEMORY, measured
from spelling import SIZE, counted, number, pool, text as spelled
from statements import distance

SIZES = (1 << 20, 1 << 21, 1 << 22)
SUSPECT, LEAST_SECONDS, LEAST_MEMORY = 1.5, 0.3, 60e6
LAST, RETURN = b"\x47", b"\x29\x47"


class Shares:
    """Random shares of a file, one for each thing that a shape has, which are the same at each size."""

    def __init__(self, rng, *names):
        weights = {name: rng.choice((0.02, 0.1, 0.3, 1, 3)) for name in names}
        self.of = {name: weight / sum(weights.values()) for name, weight in weights.items()}

    def count(self, name, size, each, most=1 << 30):
        """How many there are of what takes so many bytes each."""
        return max(1, min(most, int(size * self.of[name] / each)))


def mixed_body(rng):
    """One body: writes of locals, branches to the next place or back, plain code and handlers, in random shares."""
    shares = Shares(rng, "branches", "plain", "handlers")
    local_count, scatter, nested = rng.choice((2, 30, 300)), rng.random(), rng.random() < 0.5

    def make(size):
        draw, code, starts = random.Random(1), bytearray(), []
        count = shares.count("branches", size, 9)
        plain = max(1, shares.count("plain", size, 1) // count)
        for _ in range(count):
            starts.append(len(code))
            if draw.random() < 0.5:
                code += b"\x26\x63" + number(draw.randrange(1, local_count + 1))
            to = draw.choice(starts) if draw.random() < scatter else len(code) + 5
            code += b"\x26\x11" + distance(to - (len(code) + 5)) + b"\x02" * plain
        handlers = shares.count("handlers", size, 11)
        half = max(1, len(starts) // 2)
        exceptions = []
        for n in range(handlers):
            first = n % half if nested else n % len(starts)
            end = starts[-1 - first] if nested else len(code)
            exceptions.append(verifying.exception(starts[first], max(end, starts[first]), len(code) + 1))
        return verifying.of_bodies((local_count + 1, bytes(code) + LAST + RETURN, exceptions))

    return make


def led_heads(rng):
    """Heads that are led to with one local, or one class, after the other changed."""
    shares, heads, by_class = Shares(rng, "rounds", "code"), rng.choice((4, 16, 40)), rng.random() < 0.5

    def make(size):
        rounds, length = shares.count("rounds", size, 5 * heads + (60 if by_class else 4), 30_000), shares.count("code", size, 1)
        return hurting.heads_by_class(rounds, length, heads) if by_class else hurting.heads_by_local(rounds, length, heads)

    return make


def handled_head(rng):
    shares = Shares(rng, "classes", "handlers")
    return lambda size: hurting.one_head_handled(shares.count("classes", size, 60, 60_000), shares.count("handlers", size, 6))


def wide_code(rng):
    """Many bodies, or branches of one body, with many locals."""
    locals_ = rng.choice((100, 1000, 10_000))
    if rng.random() < 0.5:
        return lambda size: verifying.of_bodies(*[(locals_, LAST, [])] * (size // 22))
    return lambda size: verifying.of_bodies((locals_, b"\x10\0\0\0" * (size // 5) + LAST, []))


def sets_of_names(rng):
    """Texts, namespaces, sets and names in random shares, and classes of some of the names."""
    shares, in_set = Shares(rng, "texts", "spaces", "names", "classes"), rng.choice((2, 30, 1000))

    def make(size):
        texts, spaces = shares.count("texts", size, 6), shares.count("spaces", size, 4)
        classes, names = shares.count("classes", size, 16), shares.count("names", size, 7)
        own = [linking.qname(n % spaces + 1, n // spaces % texts + 1) for n in range(classes)]
        wide = min(in_set, spaces)
        sets = [hurting.set_of(n * wide % (spaces - wide + 1) + 1, wide) for n in range(max(1, size // 4 // (3 * wide)))]
        return hurting.of_names(texts, spaces, sets, own + [hurting.multiname(n % texts + 1, n % len(sets) + 1) for n in range(names)], range(1, classes + 1), classes + 1)

    return make


def bases(rng):
    """Classes in chains of a drawn length, each with some slots."""
    long, slots = rng.choice((1, 10, 100, 1000, 4000)), rng.choice((0, 1, 3))

    def make(size):
        count = size // (60 + 8 * slots)
        above = [n + 2 if (n + 1) % long and n + 1 < count else 0 for n in range(count)]
        return linking.class_file(above, 0, [[]] * count, [linking.slot(n + 1, 0) for n in range(min(slots, count))])

    return make


def interfaces(rng):
    """Rows of interfaces, each of which names some of the next row."""
    width, named = rng.choice((1, 8, 64)), rng.choice((1, 4, 64))

    def make(size):
        count = min(size // (40 + 3 * named), 4000 * size // SIZES[0])
        following = [[n // width * width + width + k + 1 for k in range(min(named, width)) if n // width * width + width + k < count] for n in range(count)]
        return linking.class_file([0] * count, linking.INTERFACE, following)

    return make


def texts_alike(rng):
    """Strings that many names share, and names that are like others."""
    length, few = rng.choice((1, 20, 3000)), rng.choice((1, 40, 5000))

    def make(size):
        count = size // (length + 12)
        strings = pool([spelled(b"%x" % (n % few) + b"x" * length) for n in range(count)])
        names = pool([linking.qname(1, n + 1) for n in range(count)])
        return hurting.small_script(bytes(3) + strings + pool([b"\x16\0"]) + b"\0" + names)

    return make


def type_names(rng):
    maker = rng.choice((tidying.forward, tidying.backward, tidying.cycle))
    return lambda size: maker(rng, size)


def verified(rng):
    maker = rng.choice((verifying.branches, verifying.tries, verifying.nested, verifying.handlers, verifying.deep, verifying.scopes))
    return lambda size: maker(random.Random(1), size * 4)


def linked(rng):
    maker = rng.choice((linking.chain, linking.traits, linking.one_text))
    return lambda size: maker(rng, size)


def switches(rng):
    """Switches with a drawn number of cases, all to the same place or to each next one."""
    cases, back = rng.choice((1, 50, 5000)), rng.random() < 0.5

    def make(size):
        code, spelled_count = bytearray(b"\x09"), number(cases)
        to_next = 1 + 3 + len(spelled_count) + 3 * (cases + 1)
        while len(code) + 2 + to_next < size:
            to = distance(-(len(code) + 2) if back else to_next)
            code += b"\x24\x01\x1b" + to + spelled_count + to * (cases + 1)
        return verifying.of_bodies((1, bytes(code) + LAST, []))

    return make


def loops(rng):
    """A program that runs, assembled by the program that is tried."""
    maker = rng.choice((running.loop_locals, running.loop_properties, running.load_elements, running.load_properties))
    return lambda size: maker(rng, size // 8)


SHAPES = {
    "mixed_body": mixed_body,
    "led_heads": led_heads,
    "handled_head": handled_head,
    "wide_code": wide_code,
    "sets_of_names": sets_of_names,
    "bases": bases,
    "interfaces": interfaces,
    "texts_alike": texts_alike,
    "type_names": type_names,
    "verified": verified,
    "linked": linked,
    "switches": switches,
    "loops": loops,
}
COMMANDS = ("canon", "dis", "check", "tidy", "run", "calls", "log")
AGAIN = {"dis": "asm", "log": "replay"}


class Tried:
    """Runs the commands on a file, and keeps what each took: its status, the processor's seconds and its memory."""

    def __init__(self, program, folder, seconds):
        self.program, self.folder, self.seconds = program, folder, seconds

    def path(self, name):
        return os.path.join(self.folder, name)

    def take(self, command, path, out):
        words = [command, "--fuel=1000000"] if command in ("run", "calls", "log") else [command]
        status, _, cpu, peak = measured(self.program, words, path, out, self.seconds)
        return status, cpu, peak

    def file(self, made):
        """The file of what was made: a text is assembled."""
        path = self.path("searched")
        with open(path, "wb") as out:
            out.write(made)
        if not made.startswith(b"abc "):
            return path
        self.take("asm", path, self.path("assembled"))
        return self.path("assembled")

    def all(self, made):
        path, told = self.file(made), {}
        for command in COMMANDS:
            kept = self.path("kept") if command in AGAIN else os.devnull
            told[command] = self.take(command, path, kept)
            if command in AGAIN and (told[command][0] == 0 or command == "log"):
                told[AGAIN[command]] = self.take(AGAIN[command], kept, os.devnull)
        return told


def suspicion(figures, sizes):
    """What is wrong with a command's figures at the three sizes, if anything."""
    (first, *_), last = figures, figures[-1]
    growth = sizes[-1] / sizes[0] * SUSPECT
    if last[0] > 128 or last[0] != first[0] and NO_MEMORY in (first[0], last[0]):
        return f"ends with {first[0]} and {last[0]}"
    if last[1] > LEAST_SECONDS and last[1] > growth * max(first[1], 0.01):
        return "time"
    if last[2] > LEAST_MEMORY and last[2] - 2e6 > growth * max(first[2] - 2e6, 1e5):
        return "memory"
    return None


def main():
    parser = argparse.ArgumentParser()
    parser.add_argument("program")
    parser.add_argument("folder")
    parser.add_argument("--rounds", type=int, default=20)
    parser.add_argument("--seed", type=int, default=1)
    parser.add_argument("--seconds", type=int, default=60)
    parser.add_argument("--only", nargs="*", default=list(SHAPES))
    given = parser.parse_args()
    os.makedirs(given.folder, exist_ok=True)
    tried, found = Tried(os.path.abspath(given.program), given.folder, given.seconds), 0
    for seed in range(given.seed, given.seed + given.rounds):
        rng = random.Random(seed)
        name = rng.choice(given.only)
        make = SHAPES[name](rng)
        made = [make(size) for size in SIZES]
        all_figures, sizes = [tried.all(one) for one in made], [len(one) for one in made]
        for command in all_figures[0]:
            figures = [one.get(command, (0, 0.0, 0.0)) for one in all_figures]
            what = suspicion(figures, sizes)
            if what:
                found += 1
                shown = ", ".join(f"{size / 1e6:.2f} MB {status} {cpu:.2f} s {peak / 1e6:.0f} MB" for size, (status, cpu, peak) in zip(sizes, figures))
                print(f"{name}, seed {seed}, {command}: {what}: {shown}", flush=True)
    print(f"{given.rounds} rounds, {found} suspicions")


if __name__ == "__main__":
    main()
