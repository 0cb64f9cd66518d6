#!/usr/bin/env python3
"""Makes the files that the benchmarks read, by a seed for each.

Use: files.py FOLDER [KIND..]. A file that is there already is left as it is. Each kind has KIND.abc, of 16,777,216 bytes,
and KIND_half.abc, of 8,388,608; from `tiny` on they have at most so many:
  ints         ints, in short and in long spellings
  strings      strings of 0 to 40 bytes
  names        namespaces, namespace sets and multinames, a fifth of them with 0 to 4 parameters
  definitions  methods, classes and traits
  bodies       method bodies of 20 to 200 bytes of code, as a compiler writes them
  code         a body with 8 MiB less a byte of code (4 MiB less a byte in the half file), and smaller ones after it
  compiled     classes with methods, as a compiler writes them: the file links and is verified
  tiny         2^20 bodies of one instruction
  chain        2^18 classes, each with the next one as its base
  interfaces   2^18 edges among 65 rows of 64 interfaces
  traits       2^20 slots of one class, each with a number
  one_text     2^20 slots of one text in as many namespaces
  forward      as many type names as fit, each of which names the next
  backward     the same, each of which names the one before
  cycle        the same in one cycle
  straight     a body with 8 MiB less a byte of code without branches
  branches     a body with 2^20 branches
  tries        a body with 2^16 handlers, one behind the other
  nested       a body with 2^10 handlers, each around the next, over 4 MiB of code
  handlers     a body with 2^18 writes of locals, each with a branch behind it, under two handlers
  deep         a chain of 2^17 classes, and a body with 2^17 branches behind which a local is of the lowest or the highest
  scopes       a body with 65,000 scopes, of which the last is popped and pushed again in 4 MiB of code
  locals       a body with 65,535 locals and 2^20 writes of them, and bodies with 1000 locals
These are texts, KIND.abcasm and KIND_half.abcasm, and have any size:
  labels       a body with 2^20 labels
  renewed      a body with 2^20 labels, and then 2^20 - 1 bodies without
  long         a label and quoted texts of a megabyte
  comment      2^28 bytes, of which the second line has all but a few
  loop_locals, loop_calls, loop_properties, loop_arrays
               programs that go around one loop five or ten million times
  load_elements, load_properties, load_names
               a million elements of an array, 400,000 properties of one object, and two million reads of names ten classes up
  generated    the program of `gen --methods=10000`, that of the half file with 5000
FOLDER/huge gets small files, each of which claims 2^30 - 1 entries of one table and then ends.
"""
import os
import random
import sys

import bodies
import compiling
import linking
import running
import tables
import texts
import tidying
import verifying
from spelling import HEAD, SIZE

MAKERS = {
    "ints": tables.ints,
    "strings": tables.strings,
    "names": tables.names,
    "definitions": tables.definitions,
    "bodies": bodies.small_bodies,
    "code": bodies.large_body,
    "compiled": compiling.compiled,
    "tiny": bodies.tiny_bodies,
    "chain": linking.chain,
    "interfaces": linking.interfaces,
    "traits": linking.traits,
    "one_text": linking.one_text,
    "forward": tidying.forward,
    "backward": tidying.backward,
    "cycle": tidying.cycle,
    "straight": verifying.straight,
    "branches": verifying.branches,
    "tries": verifying.tries,
    "nested": verifying.nested,
    "handlers": verifying.handlers,
    "deep": verifying.deep,
    "scopes": verifying.scopes,
    "locals": verifying.many_locals,
    "labels": texts.labels,
    "renewed": texts.bodies,
    "long": texts.long_tokens,
    "comment": texts.comment,
    "loop_locals": running.loop_locals,
    "loop_calls": running.loop_calls,
    "loop_properties": running.loop_properties,
    "loop_arrays": running.loop_arrays,
    "load_elements": running.load_elements,
    "load_properties": running.load_properties,
    "load_names": running.load_names,
    "generated": running.generated,
}
RUNS = ("loop_locals", "loop_calls", "loop_properties", "loop_arrays", "load_elements", "load_properties", "load_names", "generated")
TEXTS = ("labels", "renewed", "long", "comment", *RUNS)
HUGE = "ff ff ff ff 03"
# The bytes between the version and the huge count.
CLAIMS = {
    "ints": "",
    "uints": "00",
    "doubles": "00 00",
    "strings": "00 00 00",
    "bytes_of_a_string": "00 00 00 02",
    "namespaces": "00 00 00 00",
    "sets": "00 00 00 00 00",
    "namespaces_of_a_set": "00 00 00 00 00 02",
    "names": "00 00 00 00 00 00",
    "methods": "00 00 00 00 00 00 00",
    "params": "00 00 00 00 00 00 00 01",
    "metadata": "00 00 00 00 00 00 00 00",
    "items": "00 00 00 00 00 00 00 00 01 00",
    "classes": "00 00 00 00 00 00 00 00 00",
    "interfaces": "00 00 00 00 00 00 02 11 00 00 01 01 00 00",
    "traits": "00 00 00 00 00 00 00 01 00 00 00 00 00 00 01 00",
    "scripts": "00 00 00 00 00 00 00 00 00 00",
    "bodies": "00 00 00 00 00 00 00 00 00 00 00",
    "cases": "00 00 00 00 00 00 00 01 00 00 00 00 00 00 00 01 00 00 00 00 00 ff ff ff 03 1b 00 00 00",
    "exceptions": "00 00 00 00 00 00 00 01 00 00 00 00 00 00 00 01 00 00 00 00 00 00",
    "traits_of_a_body": "00 00 00 00 00 00 00 01 00 00 00 00 00 00 00 01 00 00 00 00 00 00 00",
}


def write_new(path, make):
    if os.path.exists(path):
        return
    made = make()
    with open(path + ".part", "wb") as out:
        out.write(made)
    os.rename(path + ".part", path)
    print(path, len(made))


def main():
    folder, kinds = sys.argv[1], sys.argv[2:] or list(MAKERS)
    os.makedirs(os.path.join(folder, "huge"), exist_ok=True)
    for name, maker in MAKERS.items():
        if name in kinds:
            ending = ".abcasm" if name in TEXTS else ".abc"
            write_new(os.path.join(folder, name + ending), lambda: maker(random.Random(name), SIZE))
            write_new(os.path.join(folder, name + "_half" + ending), lambda: maker(random.Random(name), SIZE // 2))
    for name, before in CLAIMS.items():
        write_new(os.path.join(folder, "huge", name + ".abc"), lambda: HEAD + bytes.fromhex(before + HUGE))


if __name__ == "__main__":
    main()
