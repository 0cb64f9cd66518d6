#!/usr/bin/env python3
"""Checks that what the documents name is where they say.

Use: names.py [DOCUMENT ..]     all documents where none is named

A document may name a crate of crates.txt, a word of a crate (`word` of abc_crate), a file of a crate (abc_crate/specs/File.antt), and any other word in backticks
that begins with a capital letter and has a small one, or that has an underscore: each has to be found. docs/ARCHITECTURE.md has a row for each crate. What
isn't found is printed, and the status is 1 then.
"""
import glob
import os
import re
import sys

TOP = os.path.dirname(os.path.dirname(os.path.abspath(__file__)))
WORD = re.compile(r"[A-Za-z_][A-Za-z_0-9]*")
# Words of the toolchain, the system and other programs.
FOREIGN = set("GLIBC_TUNABLES also_shares shr_at res_v from_residual".split())


def read(path):
    with open(os.path.join(TOP, path), encoding="utf-8") as given:
        return given.read()


def words_of(folder, endings):
    """All words of the files below a folder, and the files' own names."""
    words = set()
    for path, folders, files in os.walk(os.path.join(TOP, folder)):
        folders[:] = [name for name in folders if name not in ("out", "target")]
        for name in files:
            if name.endswith(endings):
                words.update(WORD.findall(read(os.path.join(path, name))), [name.split(".")[0]])
    return words


def shown(text):
    """The words and paths in backticks, but for those of blocks."""
    return re.findall(r"`([^`\n]+)`", re.sub(r"```.*?```", "", text, flags=re.S))


def faults(path, text, crates, others):
    known = set(others).union(*crates.values())
    for name in sorted(set(re.findall(r"\babc_[a-z_]*[a-z]\b", text))):
        if name not in crates and name not in known:
            yield f"no crate {name}"
    for names, crate in re.findall(r"((?:`[\w:]+`(?:, | and )?)+) of (abc_[a-z_]*[a-z])\b", text):
        for name in re.findall(r"`([\w:]+)`", names)[-1:]:
            if crate in crates and not set(name.split("::")) <= crates[crate]:
                yield f"{crate} has no {name}"
    for crate, rest in re.findall(r"\b(abc_[a-z_]+)/((?:src|specs|proofs|must-fail)/[\w/]+(?:\.antt|\.rt|\.edit)?)", text):
        if not any(os.path.exists(os.path.join(TOP, "crates", crate, rest + ending)) for ending in ("", ".rt", ".antt")):
            yield f"no file {crate}/{rest}"
    for one in shown(text):
        word = one.split("::")[-1].removesuffix("_half")
        is_name = re.fullmatch(r"[A-Z][A-Za-z]+[a-z][A-Za-z]*|[a-z]+(_[a-z0-9]+)+", word)
        if is_name and word not in known and word not in FOREIGN:
            yield f"no word {word}"


def main():
    names = [line.split(":")[0].split()[0] for line in read("crates.txt").splitlines() if line.strip()]
    crates = {name: words_of(f"crates/{name}", (".rt", ".antt", ".edit")) for name in names}
    others = words_of("include", (".h",)) | words_of("bench", (".py", ".rs")) | words_of("tools", (".py", ".c")) | words_of("examples", (".abcasm", ".c"))
    documents = sys.argv[1:] or ["README.md", *sorted(glob.glob("docs/*", root_dir=TOP)), *glob.glob("examples/*.md", root_dir=TOP), *glob.glob("contrib/*.md", root_dir=TOP), "tools/README.md", *sorted(glob.glob("bench/*.md", root_dir=TOP))]
    found = [f"{path}: {fault}" for path in documents for fault in dict.fromkeys(faults(path, read(path), crates, others))]
    rows = " ".join(re.findall(r"^\| ([^|]*) \|", read("docs/ARCHITECTURE.md"), flags=re.M))
    found += [f"docs/ARCHITECTURE.md: no row for {name}" for name in names if not re.search(rf"\b{name}\b", rows)]
    print("\n".join(found) or "all names are found")
    sys.exit(bool(found))


if __name__ == "__main__":
    main()
