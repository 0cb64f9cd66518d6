#!/usr/bin/env python3
"""Compares two programs on mutated files: their status, output and error line have to be equal.

Use: agree.py 'PROGRAM WORDS' 'PEER WORDS' [--runs N] [--seed N]

The files come from examples/ and from the makers of files.py at a small size; where the program's last word is `asm`, their
listings are taken, which the peer makes. An input on which the programs differ is kept beside the temporary files and its
name is printed. Two refusals of one method are taken as equal: which place is named is free. The last lines count the
answers, so that one sees what was tried. This is a search for faults by hand, and no test.
"""
import argparse
import collections
import glob
import os
import random
import subprocess
import sys
import tempfile

TOP = os.path.dirname(os.path.dirname(os.path.abspath(__file__)))
# The makers of files.
sys.path.insert(0, os.path.join(TOP, "bench"))
import bodies  # noqa: E402
import compiling  # noqa: E402
import linking  # noqa: E402
import tables  # noqa: E402
import tidying  # noqa: E402
import verifying  # noqa: E402
from spelling import HEAD  # noqa: E402

SMALL, MIDDLE = 4096, 1 << 16
MAKERS = (tables.ints, tables.strings, tables.names, tables.definitions, bodies.small_bodies, bodies.small_bodies, bodies.large_body)
# These link, and are verified.
PROGRAMS = (compiling.compiled, compiling.compiled, linking.chain, tidying.forward, verifying.branches, verifying.tries)
BYTES = bytes.fromhex("00 01 02 07 08 10 1b 25 2f 40 62 7f 80 84 8f ef ff")
NUMBERS = [bytes.fromhex(spelled) for spelled in ("ff ff ff ff 03", "80 80 80 80 04", "ff ff ff ff 8f", "ff ff ff ff 7f", "80 80 80 04", "80 80 01", "85 80 00")]


# Two methods and two bodies: one with a branch and an exception, one with a switch.
TWO_BODIES = HEAD + bytes(7) + bytes.fromhex(
    "02 00000000 00000000 00 00 00"
    "02 00 02 01 00 01 0a 09 62 80 00 29 10 f7 ff ff 47 01 01 05 00 00 00 00"
    "01 02 01 00 01 0c 1b 0c 00 00 01 00 00 00 0b 00 00 47 00 00"
)


def set_byte(rng, data, at):
    data[at:at + 1] = bytes([rng.choice(BYTES) if rng.random() < 0.5 else rng.getrandbits(8)])


def step(rng, data, at):
    data[at:at + 1] = bytes([data[at] + rng.choice((-4, -1, 1, 4)) & 255]) if at < len(data) else b"\0"


def lengthen(rng, data, at):
    """A byte below 80, spelled as a number of more bytes."""
    if at < len(data) and data[at] < 128:
        data[at:at + 1] = bytes([data[at] | 128]) + b"\x80" * rng.randint(0, 3) + b"\0"


def number(rng, data, at):
    data[at:at + rng.randint(0, 5)] = rng.choice(NUMBERS)


def insert(rng, data, at):
    data[at:at] = rng.randbytes(rng.randint(1, 4))


def delete(rng, data, at):
    del data[at:at + rng.randint(1, 4)]


def copy(rng, data, at):
    begin = rng.randint(0, len(data))
    data[at:at] = data[begin:begin + rng.randint(1, 30)]


def cut(rng, data, at):
    del data[at:]


CHANGES = (set_byte, set_byte, step, step, step, lengthen, lengthen, number, insert, delete, copy, cut)


def mutated(rng, seed):
    data = bytearray(seed)
    for _ in range(rng.choice((0, 1, 1, 1, 2, 4))):
        # A fault near the beginning hides all that follows it, so the end gets more than its share.
        at = rng.randint(0, len(data)) if rng.random() < 0.7 else max(0, len(data) - rng.randint(0, 80))
        rng.choice(CHANGES)(rng, data, at)
    return bytes(data)


def answer(words, data):
    done = subprocess.run(words, input=data, capture_output=True)
    return done.returncode, done.stdout, done.stderr


def seeds_for(rng, peer):
    """Files, or their listings."""
    seeds = [open(path, "rb").read() for path in sorted(glob.glob(os.path.join(TOP, "examples", "*.abc")))]
    seeds += [maker(rng, SMALL) for maker in MAKERS] + [maker(rng, MIDDLE) for maker in PROGRAMS] + [TWO_BODIES] * 5
    if peer[-1] == "asm":
        return [answer([*peer[:-1], "dis"], seed)[1] for seed in seeds]
    return seeds


def refused_method(one):
    """The words of a refusal that name a method."""
    words = one[2].split()
    return words[:3] if one[0] == 1 and words[1:2] == [b"method"] else None


def is_same(one, other):
    return one == other or refused_method(one) and refused_method(one) == refused_method(other)


def main():
    parser = argparse.ArgumentParser()
    parser.add_argument("ours")
    parser.add_argument("peer")
    parser.add_argument("--runs", type=int, default=2000)
    parser.add_argument("--seed", type=int, default=1)
    given = parser.parse_args()
    ours, peer = given.ours.split(), given.peer.split()
    rng = random.Random(given.seed)
    seeds = seeds_for(rng, peer)
    counts, differences = collections.Counter(), 0
    for _ in range(given.runs):
        data = mutated(rng, rng.choice(seeds))
        ours_answer, peer_answer = answer(ours, data), answer(peer, data)
        counts[ours_answer[2].decode().rsplit(" ", 1)[-1].strip() or "accepted"] += 1
        if not is_same(ours_answer, peer_answer):
            differences += 1
            with tempfile.NamedTemporaryFile(prefix="agree-", suffix=".abc", delete=False) as kept:
                kept.write(data)
            print(kept.name, ours_answer[0], ours_answer[2], peer_answer[0], peer_answer[2])
    for reason, count in counts.most_common():
        print(f"{count:6} {reason}")
    print(f"{given.runs} inputs, {differences} answered differently")
    sys.exit(differences != 0)


main()
