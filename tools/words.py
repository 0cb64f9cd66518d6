#!/usr/bin/env python3
"""Counts what makes the sources hard to read aloud.

Use: words.py [-v] [CRATE ..]     all crates where none is named; -v lists what is counted, not only how much

One line each: clause lines that repeat another word for word; clauses over 110 columns, those of public functions apart; opcodes by hexadecimal number; names of
definitions that stand in several crates; bare participles among these names; functions with more than six clauses, public ones apart. Then the ten files with
most lines that repeat or are too long.

A clause line begins with `requires`, `ensures`, or `ghost` and a name; of lines that are the same the first doesn't count. An opcode by number is a number of one or
two hexadecimal digits in the crates that speak of instructions, but for flags and for the tables that give each its name. A definition is what a file of specs/
declares; a name that several crates declare counts as having several meanings, since no crate hands a definition on.
"""
import collections
import os
import re
import sys

TOP = os.path.dirname(os.path.dirname(os.path.abspath(__file__)))
CLAUSE = re.compile(r"\s*(requires|ensures|ghost (?!use\b)\w+(?=[:=\s]))")
GHOST = re.compile(r"\s*ghost \w+\s*:")
FUNCTION = re.compile(r"\s*(pub(?:\(crate\))? )?(?:const )?(?:unsafe )?fn (\w+)")
DEFINITION = re.compile(r"^(?:abbrev |unfoldable )?pub (?:record |data )?([^\W\d][\w'-]*)(?= .*:)", re.M)
NUMBER = re.compile(r"\b0x[0-9A-Fa-f]{1,2}\b")
# Numbers that are no opcodes: comments, flags, and bytes of texts.
OTHER = re.compile(r"(--|//).*|.*(_flag|\b(ARGUMENTS|REST):|nat_lt b|\*b <).*")
WIDE, MANY = 110, 6
# What speaks of instructions, and the files that name each opcode once.
SPEAK = ("abc_file_types/specs/Opcodes", "abc_heap_values", "abc_verify_typing", "abc_verify_states", "abc_meaning", "abc_ops", "abc_cli_answers", "abc_instr",
         "abc_text_operands/src/instructions", "abc_run_")
TABLES = ("abc_file_types/specs/Opcodes.antt", "abc_file_types/src/opcodes.rt", "abc_run_values/src/op.rt")
# Participles that aren't formed with -ed, and words that only look like participles.
IRREGULAR = set("begun bound built come cut done drawn fed felt found given gone held kept known laid led left lent lost made meant met paid put read said seen sent "
                "set shown spelt spent stood struck stuck sunk taken taught thrown told torn walked won worn wound written".split())
WHOLE = set("bed embed exceed feed need proceed red seed shed speed succeed weed indeed put read set cut found".split())


def read(path):
    with open(path, encoding="utf-8") as given:
        return given.read()


def files(crates):
    """Each file of sources and of definitions, with its crate and its place below crates/."""
    for crate in crates:
        for part, ending in ("src", ".rt"), ("specs", ".antt"):
            for folder, _, names in sorted(os.walk(os.path.join(TOP, "crates", crate, part))):
                for name in sorted(names):
                    if name.endswith(ending):
                        path = os.path.join(folder, name)
                        yield crate, os.path.relpath(path, os.path.join(TOP, "crates")), read(path)


def clauses(text):
    """Each function with its clauses: (name, is public, lines). A clause may go over lines."""
    name, public, found, depth = "", False, [], 0
    for line in text.split("\n"):
        starts = FUNCTION.match(line)
        if starts and depth == 0:
            yield name, public, found
            name, public, found = starts.group(2), starts.group(1) == "pub ", []
        if depth > 0:
            found[-1].append(line)
        elif CLAUSE.match(line) and "{" in line:
            found.append([line])
        else:
            continue
        depth += line.count("{") - line.count("}")
    yield name, public, found


def is_participle(name):
    return name not in WHOLE and (name in IRREGULAR or re.fullmatch(r"[a-z]+ed", name) is not None)


def main(words):
    lists = words[:1] == ["-v"]
    named = words[1:] if lists else words
    every = sorted(os.listdir(os.path.join(TOP, "crates")))
    lines, wide, wide_public, hexes = [], [], [], collections.Counter()
    homes, many, many_public, bad = collections.defaultdict(set), [], [], collections.Counter()
    for crate, path, text in files(every):
        if path.endswith(".antt"):
            for name in DEFINITION.findall(re.sub(r"--.*", "", text)):
                if name != "mod":
                    homes[name].add(crate)
        if named and crate not in named:
            continue
        if path.startswith(SPEAK) and not path.startswith(TABLES):
            hexes[path] += len(NUMBER.findall(OTHER.sub("", text)))
        if path.endswith(".antt"):
            continue
        for name, public, found in clauses(text):
            given = [clause for clause in found if not GHOST.match(clause[0])]
            if len(given) > MANY:
                (many_public if public else many).append(f"{path}: {name} ({len(given)})")
            for clause in found:
                lines.append((path, " ".join(map(str.strip, clause))))
                if max(map(len, clause)) > WIDE:
                    (wide_public if public else wide).append(f"{path}: {name}: {max(map(len, clause))}")
                    bad[path] += 1
    times = collections.Counter(line for _, line in lines)
    for path, line in lines:
        bad[path] += times[line] > 1
    again = sorted(((n - 1, line) for line, n in times.items() if n > 1), reverse=True)
    several = sorted(name for name, crates in homes.items() if len(crates) > 1 and (not named or crates & set(named)))
    bare = sorted(name for name, crates in homes.items() if is_participle(name) and (not named or crates & set(named)))
    show = [
        (f"of {len(lines)} clause lines that repeat an earlier one", sum(n for n, _ in again), [f"{n} {line}" for n, line in again]),
        ("of these, lines that say a ghost value alone", sum(n for n, line in again if GHOST.match(line)), []),
        (f"clauses over {WIDE} columns, of public functions", len(wide_public), wide_public),
        (f"clauses over {WIDE} columns, of others", len(wide), wide),
        ("opcodes by number in .rt", sum(n for path, n in hexes.items() if path.endswith(".rt")), [f"{n} {p}" for p, n in hexes.most_common() if n and p.endswith(".rt")]),
        ("opcodes by number in specs", sum(n for path, n in hexes.items() if path.endswith(".antt")), [f"{n} {p}" for p, n in hexes.most_common() if n and p.endswith(".antt")]),
        ("names of definitions in several crates", len(several), [f"{name}: {' '.join(sorted(homes[name]))}" for name in several]),
        ("names of definitions that are bare participles", len(bare), [f"{name}: {' '.join(sorted(homes[name]))}" for name in bare]),
        (f"public functions with more than {MANY} clauses", len(many_public), many_public),
        (f"other functions with more than {MANY} clauses", len(many), many),
    ]
    for what, count, items in show:
        print(f"{count:6} {what}")
        if lists:
            print("".join(f"         {item}\n" for item in items), end="")
    print("files with most clauses that repeat another or are too wide:")
    for path, count in bad.most_common(10):
        print(f"{count:6} {path}")


if __name__ == "__main__":
    main(sys.argv[1:])
