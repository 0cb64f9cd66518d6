#!/usr/bin/env python3
"""Makes docs/API.md: the public calls of the public crates, each with its docstring and its contract, word for word from the sources. README.md has the
clauses of `abc_main`, which it puts in place too.

Use: api.py             writes docs/API.md, and the clauses in README.md
     api.py --check     says whether both are what the sources give; status 1 where they aren't
"""
import glob
import os
import re
import sys

TOP = os.path.dirname(os.path.dirname(os.path.abspath(__file__)))
PAGE = os.path.join(TOP, "docs", "API.md")
README = os.path.join(TOP, "README.md")
# The public crates by layers, lowest first: those whose calls a program, an embedder or a statement makes.
LAYERS = [
    ("Base", "abc_base abc_host"),
    ("Format", "abc_file_types abc_tables abc_varint abc_pools abc_traits abc_instr abc_bodies abc_file"),
    ("Texts and tidying", "abc_text_lines abc_asm abc_disasm abc_tidy"),
    ("Linking", "abc_link_rules abc_kinds abc_link"),
    ("Verifying", "abc_verify_typing abc_verify"),
    ("Heap", "abc_frames abc_log abc_log_blocks abc_objects abc_ops abc_lookup"),
    ("Meaning", "abc_meaning abc_meaning_sound"),
    ("Machine and sessions", "abc_machine abc_session abc_replay"),
    ("Commands", "abc_cli_answers abc_cli"),
    ("The interface to C", "abc_c"),
]
HEAD = """# Public calls

The public calls of each public crate, with their docstrings and contracts as they stand in the sources. `tools/api.py` makes this page, and the gate checks that it is current.

- `requires` is what a caller has to show; `ensures` is what is proved of the answer. A name before the braces is the clause's name.
- In a contract `x.now` is the value that a reference leads to, `x.old` and `x.new` that before and after the call, and `result` the answer. A `Table` is a list, an integer a number.
- A call returns for all arguments that meet its `requires`: no index is out of range, no sum wraps, nothing is freed too early.
- A call whose answer has `NoMemory` may answer it at any time; no other call does.
- [STATEMENT.md](STATEMENT.md) says how to print the definitions that a clause names, and how to read them.
"""


def read(path):
    with open(path, encoding="utf-8") as given:
        return given.read()


class Crate:
    def __init__(self, name):
        self.name = name
        folder = os.path.join(TOP, "crates", name, "src")
        self.files = {os.path.relpath(path, folder): read(path).splitlines() for path in sorted(glob.glob(os.path.join(folder, "**", "*.rt"), recursive=True))}
        self.root = "\n".join(self.files["lib.rt"])

    def about(self):
        return [line[3:].strip() for line in self.files["lib.rt"] if line.startswith("//!")]

    def handed(self):
        """The names that the root hands on, in its order, with the crate of those that are another's."""
        for use in re.findall(r"^pub use ([^;]*);", self.root, flags=re.M):
            path, _, names = " ".join(use.split()).partition("::{")
            if not names:
                path, _, names = path.rpartition("::")
            for name in names.rstrip("} ").split(","):
                if name.strip():
                    yield name.strip().split(" as ")[-1], path if path.startswith("abc_") else None
        for line in self.files["lib.rt"]:
            item = re.match(r"pub (?:extern \"C\" )?(?:fn|struct|enum|trait|const) (\w+)", line)
            if item:
                yield item[1], None


def doc_above(lines, at):
    """The docstring above a line."""
    first = at
    while first > 0 and re.match(r"\s*(///|#\[|//)", lines[first - 1]):
        first -= 1
    return [line.strip()[3:].strip() for line in lines[first:at] if line.strip().startswith("///")]


def signature(lines, at):
    """A function's signature and clauses: the lines up to its body."""
    indent = re.match(r" *", lines[at])[0]
    found = []
    for line in lines[at:]:
        if line in (indent + "{", indent + "{}"):
            break
        found.append(line.removeprefix(indent))
        if line.rstrip().endswith(" {") and not re.match(r"\s*(ensures|requires)\b", line):
            found[-1] = found[-1].rstrip()[:-2]
            break
        if line.rstrip().endswith(" {}"):
            found[-1] = found[-1].rstrip()[:-3]
            break
        if line.rstrip().endswith(";"):
            break
    return [re.sub(r"^pub (extern \"C\" )?", "", found[0]), *found[1:]]


def functions(lines, first, last, public):
    """The functions between two lines: (line, name)."""
    for at in range(first, last):
        found = re.match(r"( *)pub (?:extern \"C\" )?(?:const )?fn (\w+)" if public else r"( +)fn (\w+)", lines[at])
        if found:
            yield at, found[2]


def end_of(lines, at):
    return next((i for i in range(at, len(lines)) if re.match(r"\}", lines[i])), len(lines) - 1)


def call(title, lines, at):
    shown = [f"### `{title}`", "", *doc_above(lines, at), "", "```rust", *signature(lines, at), "```", ""]
    return [line for i, line in enumerate(shown) if line or shown[i - 1]]


def of_type(crate, name):
    """The calls of a type: those of its own impl blocks."""
    for lines in crate.files.values():
        for at, line in enumerate(lines):
            if re.match(rf"impl(<.*?>)? {name}(<.*>)?( \{{|$)", line) or re.match(rf"impl(<[^>]*>)? {name}\b(?!.* for )", line):
                for place, function in functions(lines, at, end_of(lines, at), True):
                    yield call(f"{name}::{function}", lines, place)


def of_trait(crate, name):
    for lines in crate.files.values():
        for at, line in enumerate(lines):
            if re.match(rf"pub trait {name}\b", line):
                said, docs = [], []
                for one in map(str.strip, lines[at : end_of(lines, at)]):
                    said += [*docs, one] if re.match(r"ghost (?!use)", one) else []
                    docs = [*docs, one] if one.startswith("///") else []
                yield [f"### `{name}`, a trait", "", *doc_above(lines, at), "", *(["```rust", *said, "```", ""] if said else [])]
                for place, function in functions(lines, at, end_of(lines, at), False):
                    yield call(f"{name}::{function}", lines, place)


def of_function(crate, name):
    for lines in crate.files.values():
        for at, line in enumerate(lines):
            if re.match(rf"pub (?:extern \"C\" )?(?:const )?fn {name}\b", line):
                yield call(name, lines, at)


def of_crate(name):
    crate = Crate(name)
    own, others = [], []
    for word, other in dict(crate.handed()).items():
        if other:
            others.append(f"`{word}` of {other}")
            continue
        for found in (of_function, of_trait, of_type):
            own += found(crate, word)
    if not own and not others:
        return []
    head = [f"## {name}", "", *crate.about(), ""]
    if others:
        head += ["It hands on " + ", ".join(others) + ".", ""]
    return head + [line for lines in own for line in lines]


def page():
    lines = [HEAD]
    for layer, crates in LAYERS:
        for name in crates.split():
            lines += of_crate(name)
    return "\n".join(lines).rstrip("\n") + "\n"


def readme():
    """README.md with the clauses of `abc_main` as they stand: they are its block that begins with `ensures`."""
    top = read(os.path.join(TOP, "crates", "abc_cli", "src", "top.rt")).split("pub fn abc_main")[1].split("\n{")[0]
    clauses = [line[4:] for line in top.split("-> Status\n")[1].splitlines() if not line.strip().startswith("//")]
    return re.sub(r"(?<=```\n)ensures .*?(?=\n```)", lambda found: "\n".join(clauses), read(README), count=1, flags=re.S)


def main():
    if sys.argv[1:] not in ([], ["--check"]):
        print(__doc__.strip())
        sys.exit(0 if sys.argv[1:] == ["--help"] else 2)
    made = page()
    if sys.argv[1:]:
        if not os.path.exists(PAGE) or read(PAGE) != made:
            sys.exit("tools/api.py: docs/API.md is not what the sources give; tools/api.py makes it anew")
        if read(README) != readme():
            sys.exit("tools/api.py: README.md has other clauses than abc_main; tools/api.py puts them in place")
        print("docs/API.md and the clauses in README.md are current")
        return
    with_clauses = readme()
    with open(README, "w", encoding="utf-8") as out:
        out.write(with_clauses)
    with open(PAGE, "w", encoding="utf-8") as out:
        out.write(made)
    print(f"docs/API.md: {made.count(chr(10) + '### ')} calls of {made.count(chr(10) + '## ')} crates, {len(made.encode())} bytes")


if __name__ == "__main__":
    main()
