#!/usr/bin/env python3
"""Tells which lines of crates.txt make the gate slow: what `rt ci` reads to sum up the sources below each library, and which edges it reads the most along.

Use: tools/edges.py [N]     the N dearest edges, 20 where no number is given

Before and after `rt ci` builds a library it sums up the files of the crate and of each crate that it names, and so on down, once for each way that leads to a
crate. A file is read as often as there are ways. An edge costs the files below it times the ways from libraries down to it; beside it stands how many files of the crate name the other.
"""
import functools
import os
import re
import sys

TOP = os.path.dirname(os.path.dirname(os.path.abspath(__file__)))


def files_of(crate):
    """The files of a crate that a sum is made of."""
    for part in ("src", "specs", "proofs"):
        for at, _, names in os.walk(os.path.join(TOP, "crates", crate, part)):
            yield from (os.path.join(at, name) for name in names)


def read_edges():
    """The crates of crates.txt, each with those of the repository that it names, and those of them that are libraries for other crates."""
    named, libraries = {}, set()
    with open(os.path.join(TOP, "crates.txt"), encoding="utf-8") as given:
        for line in given:
            head, colon, rest = line.split("#")[0].partition(":")
            if not colon:
                continue
            crate, *words = head.split()
            named[crate] = rest.split()
            if "staticlib" not in words and not os.path.exists(os.path.join(TOP, "crates", crate, "src", "main.rt")):
                libraries.add(crate)
    return {crate: [one for one in below if one in named] for crate, below in named.items()}, libraries


def main():
    count = int(sys.argv[1]) if len(sys.argv) > 1 else 20
    edges, libraries = read_edges()
    number = {crate: sum(1 for _ in files_of(crate)) for crate in edges}

    @functools.lru_cache(None)
    def reads(crate):
        """How many files are read for one sum of a crate."""
        return number[crate] + sum(reads(below) for below in edges[crate])

    @functools.lru_cache(None)
    def ways(crate):
        """How many ways lead from libraries down to a crate, that of itself among them."""
        return (crate in libraries) + sum(ways(above) for above in edges if crate in edges[above])

    total = 2 * sum(reads(crate) for crate in libraries)
    print(f"{len(edges)} crates, {sum(map(len, edges.values()))} edges, {total / 1e6:.1f} million files read for sums by one run of `rt ci`")
    costs = sorted(((2 * ways(crate) * reads(below), crate, below) for crate in edges for below in edges[crate]), reverse=True)
    for cost, crate, below in costs[:count]:
        citing = sum(1 for file in files_of(crate) if re.search(rf"\b{below}\b", open(file, encoding="utf-8").read()))
        print(f"{cost / 1e6:6.2f} million  {crate} -> {below}, named by {citing} files")


if __name__ == "__main__":
    main()
