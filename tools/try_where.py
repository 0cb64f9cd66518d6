#!/usr/bin/env python3
"""Tries contrib/where on the example of each rule in docs/VERIFYING.md.

Use: try_where.py         ABC names the program, bin/abc where there is no such setting

Each text of the page is assembled and checked; the line has to be that of the page, and the line that contrib/where marks has to be the instruction that is
refused. So is a file whose code has a longer spelling than its listing. Then the bytes at which examples of docs/FORMAT.md are refused are named.
"""
import os
import re
import subprocess
import sys
import tempfile

TOP = os.path.dirname(os.path.dirname(os.path.abspath(__file__)))
ABC = os.environ.get("ABC") or os.path.join(TOP, "bin", "abc")
WHERE = os.path.join(TOP, "contrib", "where")
# What each rule's example is refused at.
REFUSED = {
    "NotRun": "dxnslate",
    "PoolIndex": "pushstring 1",
    "NameForm": 'findproperty 1 ; "x"',
    "StackUnder": "pop",
    "StackOver": "pushtrue",
    "ScopeUnder": "popscope",
    "ScopeOver": "pushscope",
    "LocalIndex": "getlocal_1",
    "OffEnd": "pop",
    "Merge": "returnvoid",
    "NotSpace": 'getproperty 1 ; "x"',
    "NotObject": "getslot 1",
    "SlotIndex": "getslot 1",
    "ScopeIndex": "getscopeobject 0",
    "NotHere": "newactivation",
    "NotIndex": "nextvalue",
    "Parameters": "returnvoid",
    "Flags": "returnvoid",
}

# A method whose code is `getlocal 0` in three bytes, `pop`, `pop` and `returnvoid`.
LONGER = bytes.fromhex("10002e00 00000000000000 01 00000000 00 00 01 0000 01 00 0101 0001 06 628000 29 29 47 00 00")
# The beginning of a file, the place at which it is refused, and the part that stands there.
PARTS = [
    ("", 0, "the minor version"),
    ("11", 1, "the minor version"),
    ("10002f00", 2, "the major version"),
    ("10002e00 02ffffffff8f", 5, "int 1, its value"),
    ("10002e00 000000 028080808004", 8, "string 1, its size"),
    ("10002e00 00000000 0207", 9, "namespace 1, its kind"),
    ("10002e00 000000000000 021d00", 12, "multiname 1, its base"),
    ("10002e00 000000000000 021d010102", 14, "multiname 1, parameter 0"),
    ("10002e00 000000000000000000000000 00", 16, "behind the end of the file"),
]


def abc(command, given):
    done = subprocess.run([ABC, command], input=given, capture_output=True)
    return done.stdout, done.stderr.decode()


def text_of(cell):
    """The text of a row: the frame, the code, and what the row puts in place of a line or behind one."""
    code, _, other = cell.partition(", with ")
    lines = {"abc": ["abc 16 46"], "method": ["method 0 0 0"], "script": ["script 0"], "body": ["body 0 1 1 0 1"]}
    for line in re.findall(r"`([^`]*)`", other):
        word = line.split()[0]
        if word in lines:
            lines[word] = [line]
        else:
            lines["method" if word == "param" else "abc"].append(line)
    return "\n".join([*lines["abc"], *lines["method"], *lines["script"], *lines["body"], *re.findall(r"`([^`]*)`", code)]) + "\n"


def rows():
    page = open(os.path.join(TOP, "docs", "VERIFYING.md"), encoding="utf-8").read().split("## An example for each rule")[1]
    for cell, line in re.findall(r"^\| (.*) \| `(abc: method .*)` \|$", page, flags=re.M):
        yield text_of(cell), line


def where(path, line):
    done = subprocess.run([WHERE, path, line], capture_output=True, text=True)
    return done.stdout + done.stderr


def marked(path, line):
    found = re.search(r"^> +\d+  (.*)$", where(path, line), flags=re.M)
    return found.group(1) if found else "nothing"


def main():
    tried, wrong = 0, []
    with tempfile.TemporaryDirectory() as folder:
        path = os.path.join(folder, "file.abc")
        for text, line in rows():
            made, error = abc("asm", text.encode())
            with open(path, "wb") as out:
                out.write(made)
            said = abc("check", made)[1].strip() or error.strip()
            rule = line.rsplit(" ", 1)[1]
            if said != line:
                wrong.append(f"{rule}: the page has {line}, the program says {said}")
            elif marked(path, line) != REFUSED[rule]:
                wrong.append(f"{rule}: {REFUSED[rule]} was wanted, and {marked(path, line)} is marked")
            tried += 1
        with open(path, "wb") as out:
            out.write(LONGER)
        said = abc("check", LONGER)[1].strip()
        if said != "abc: method 0 offset 4: StackUnder" or marked(path, said) != "pop" or "instruction 2" not in where(path, said):
            wrong.append(f"the longer spelling: {said}, {where(path, said)}")
        for front, place, part in PARTS:
            with open(path, "wb") as out:
                out.write(bytes.fromhex(front))
            told = where(path, f"abc: byte {place}: Short")
            if f"byte {place}: {part}" not in told:
                wrong.append(f"{front}: {part} was wanted, and it said {told}")
    print("\n".join(wrong) or f"{tried} rules, a longer spelling and {len(PARTS)} bytes: each place is found")
    sys.exit(bool(wrong) or tried != len(REFUSED))


if __name__ == "__main__":
    main()
