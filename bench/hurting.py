"""Programs that want to hurt: each makes as much of one thing as the limits of a run allow, or makes the verifier work as much as
the bytes of a file can. As assembly texts and as files."""
from linking import INTERFACE, METHOD, PACKAGE, PRIVATE, body, class_file, qname
from spelling import HEAD, SIZE, counted, number, pool, text as spelled
from statements import distance
from verifying import body as body_of, exception, of_bodies

CODE = (1 << 23) - 1
PUBLIC = PACKAGE + b"\0"
LAST = b"\x47"


def text(code, more="", strings=(), names=(), method="method 0 0 0", script="script 0", scopes=1, begin=("getlocal_0", "pushscope")):
    """A program whose script has this code, behind those of `more`."""
    lines = ["abc 16 46", *(f'string "{s}"' for s in ("trace", "next", *strings)), "ns Package 0", "set 1"]
    lines += ["name QName 1 1", "name QName 1 2", "name MultinameL 1", *names, method, script]
    lines += [f"body 0 8 4 0 {scopes}", *begin, *code.split("; "), more]
    return "\n".join(lines) + "\n"


LOOP = "Again:; label; {}; jump Again"
COUNTED = "pushbyte 0; convert_i; setlocal_2; " + LOOP.format("{}; inclocal_i 2")
FUNCTION = "body 1 1 1 0 0\nreturnvoid"
TWO = "method 0 0 0\nmethod 0 0 0"
ITSELF = "script 0\ntrait method 0 2 0 1"


def frames(then):
    """A method that calls itself, as deep as frames go; what stands there goes on in each."""
    return text("findpropstrict 2; callproperty 2 0; pop; returnvoid", f"body 1 4 2 0 0\ngetlocal_0\ncallproperty 2 0\n{then}", method=TWO, script=ITSELF)


def throwing():
    """Calls 900 deep, each in a frame whose handler doesn't fit, and a throw that goes through all of them; the script takes what is
    thrown, and begins again."""
    code = "Again:; label; getlocal_0; pushscope; getlocal_0; pushbyte 0; callproperty 2 1; pop; End:; returnvoid; Caught:; pop; jump Again; catch Again End Caught 0 0"
    deep = "body 1 3 2 0 0\nBegin:\ngetlocal_1\nincrement\nsetlocal_1\ngetlocal_1\npushshort 900\nifge Deep\ngetlocal_0\ngetlocal_1\ncallproperty 2 1\nreturnvalue"
    deep += "\nDeep:\npushstring 1\nthrow\nEnd:\npop\npushnull\nreturnvalue\ncatch Begin End End 4 0"
    return text(code, deep, strings=("Error",), names=("name QName 1 3",), method="method 0 0 0\nmethod 0 0 0\nparam 0", script=ITSELF, begin=())


RUNS = {
    "properties": text("newobject 0; setlocal_1; " + COUNTED.format("getlocal_1; getlocal_2; getlocal_2; setproperty 3")),
    "deleted": text("newobject 0; setlocal_1; " + COUNTED.format("getlocal_1; getlocal_2; getlocal_2; setproperty 3; getlocal_1; getlocal_2; deleteproperty 3; pop")),
    "elements": text("newarray 0; setlocal_1; " + COUNTED.format("getlocal_1; getlocal_2; getlocal_2; setproperty 3")),
    "objects": text(LOOP.format("newobject 0; pop")),
    "closures": text(LOOP.format("newfunction 1; pop"), FUNCTION, method=TWO),
    "scopes": text("; ".join(["getlocal_0; pushscope"] * 65000) + "; " + LOOP.format("newfunction 1; pop"), FUNCTION, method=TWO, scopes=65535),
    "texts": text("pushstring 1; setlocal_1; " + LOOP.format("getlocal_1; dup; add; setlocal_1")),
    "joined": text("pushstring 1; setlocal_1; " + LOOP.format("getlocal_1; pushstring 2; add; setlocal_1")),
    "frames": frames("returnvalue"),
    "throws": throwing(),
    "lines": text(LOOP.format("findpropstrict 1; pushstring 1; callpropvoid 1 1")),
    "missing": text(LOOP.format("findproperty 2; pop")),
    # A property is made and deleted 900,000 times, and then the next one after position 0 is asked for eleven times.
    "emptied": text(
        "newobject 0; setlocal_1; pushint 1; setlocal_2; Fill:; label; getlocal_1; pushnull; setproperty 2; getlocal_1; deleteproperty 2; pop; declocal_i 2; "
        "getlocal_2; pushbyte 0; ifgt Fill; pushbyte 11; setlocal_2; Ask:; label; getlocal_1; pushbyte 0; hasnext; pop; declocal_i 2; getlocal_2; pushbyte 0; ifgt Ask; returnvoid"
    ).replace("abc 16 46\n", "abc 16 46\nint 900000\n", 1),
}


def scripts(count):
    """Scripts of which each names what the one before it has: the last one starts all."""
    lines = ["abc 16 46", *(f'string "s{n}"' for n in range(count)), "ns Package 0", *(f"name QName 1 {n + 1}" for n in range(count))]
    lines += ["method 0 0 0"] * count
    for n in range(count):
        lines += [f"script {n}", f"trait slot 0 {n + 1} 0 0 0"]
    for n in range(count):
        lines += [f"body {n} 2 1 0 1", "getlocal_0", "pushscope", *([f"findpropstrict {n}", "pop"] if n else []), "returnvoid"]
    return "\n".join(lines) + "\n"


RUNS["scripts"] = scripts(900)


def nops():
    return of_bodies((1, b"\x02" * (CODE - 1) + LAST, []))


def to_one_place():
    """Branches that all lead to the first place."""
    code = bytearray(b"\x09")
    while len(code) + 5 < CODE:
        code += b"\x26\x11" + distance(-(len(code) + 5))
    return of_bodies((1, bytes(code) + LAST, []))


def switches():
    """Switches of 100 cases each, which lead to the places behind them."""
    cases = 100
    unit = 2 + 1 + 3 + 1 + 3 * (cases + 1)
    code = bytearray()
    while len(code) + unit < CODE:
        base = len(code) + 2
        code += b"\x24\x01\x1b" + distance(unit - 2) + number(cases) + distance(unit - 2) * (cases + 1)
    return of_bodies((1, bytes(code) + LAST, []))


def covered():
    """2^16 handlers over all of a body that writes 64 locals."""
    unit = b"".join(b"\x24\x01\x63" + number(n % 64) for n in range(1024))
    code = unit * 256
    end = len(code)
    return of_bodies((64, code + LAST + b"\x29" + LAST, [exception(0, end, end + 1)] * (1 << 16)))


def covered_branches():
    """2^12 handlers over all of a body with 2^14 branches, each to the next place: so many walks, and each is told to all handlers."""
    code = b"\x24\x01\xd5\x10\0\0\0" * (1 << 14)
    exceptions = [exception(0, len(code), len(code) + 1)] * (1 << 12)
    return of_bodies((3, code + LAST + b"\x29" + LAST, exceptions))


def nests():
    """2^13 handlers, each around the next, over as many instructions before their middle as behind it."""
    count = 1 << 13
    code = b"\xc2\x01" * (2 * count)
    exceptions = [exception(2 * n, len(code) - 2 * n, len(code) + 1) for n in range(count)]
    return of_bodies((3, code + LAST + b"\x29" + LAST, exceptions))


NEXT = b"\x10\0\0\0"
SCOPE = b"\xd0\x30"


def states():
    """A body with 65,535 locals and 2^9 branches to the next place, before each of which one local of each 64 gets another kind: a
    state for each is 2^25 kinds."""
    writes = [b"".join(kind + b"\x63" + number(64 * k) for k in range(1 << 10)) for kind in (b"\x20", b"\x26")]
    return of_bodies((65535, b"".join(writes[k % 2] + NEXT for k in range(1 << 9)) + LAST, []))


def locals_written():
    """65,535 locals and 7,600 branches to the next place, before each of which another local is written: the blocks of 64 locals are near
    the bound."""
    code = b"".join(b"\x26\x63" + number(k + 1) + NEXT for k in range(7600))
    return of_bodies((65535, code + LAST, []))


def equal_states():
    """The same with 8,000 branches and without the writes: all states are equal."""
    return of_bodies((65535, NEXT * 8000 + LAST, []))


def scope_states():
    """A body that pushes 65,000 scopes, and then has 2^14 branches to the next place."""
    return of_bodies((1, SCOPE * 65000 + NEXT * (1 << 14) + LAST, []), max_scope=65535)


def told_states():
    """A body with 32,767 locals that pushes as many scopes, and then has 2^11 branches to the next place, which hang as leaves in a
    tree of handlers: each handler is told what is seen below it."""
    begin, branches = SCOPE * 32767, NEXT * (1 << 11)
    end, exceptions, size = len(begin) + len(branches), [], len(branches)
    while size >= len(NEXT):
        exceptions += [exception(at, at + size, end + 1) for at in range(len(begin), end, size)]
        size //= 2
    return of_bodies((32767, begin + branches + LAST + b"\x29" + LAST, exceptions), max_scope=65535)


def wide_branches():
    """A body with 65,535 locals and 2^13 branches to its first place, each of which compares all locals."""
    code = bytearray(b"\x09")
    while len(code) < 5 << 13:
        code += b"\x26\x11" + distance(-(len(code) + 5))
    return of_bodies((65535, bytes(code) + LAST, []))


def wide_bodies():
    """2^13 bodies of one instruction with 65,535 locals each."""
    return of_bodies(*[(65535, LAST, [])] * (1 << 13))


def multiname(string, of_set):
    return b"\x09" + number(string) + number(of_set)


def of_names(texts, spaces, sets, names, classes, ty):
    """A file with so many texts and Private namespaces, with sets of these, and with classes of these names, which share their methods;
    a method has a parameter of a type. It is refused, but not before each name was looked up."""
    pools = pool([spelled(b"%x" % n) for n in range(texts)]) + pool([PRIVATE + b"\0"] * spaces) + pool(sets) + pool(names)
    methods = counted([METHOD, METHOD, b"\1\0" + number(ty) + b"\0\0"])
    instances = counted([number(name) + bytes(5) for name in classes])
    made = HEAD + bytes(3) + pools + methods + b"\0" + instances + b"\1\0" * len(classes) + counted([b"\0\0"]) + counted([body(0)])
    assert len(made) <= SIZE, len(made)
    return made


def set_of(first, count):
    return counted([number(n) for n in range(first, first + count)])


def long_set(count=1 << 20):
    """As many names with one set of as many namespaces."""
    return of_names(count, count, [set_of(1, count)], [multiname(n + 1, 1) for n in range(count)], [], 1)


def long_set_of_classes(count=410_000, spaces=1_150_000):
    """A class for each text, and as many names with one long set that has the namespace of none."""
    names = [qname(1, n + 1) for n in range(count)] + [multiname(n + 1, 1) for n in range(count)]
    return of_names(count, spaces + 1, [set_of(2, spaces)], names, range(1, count + 1), count + 1)


def classes_of_one_text(classes=470_000, count=1_350_000):
    """Classes of one text, each in a namespace of its own, and names of that text in another."""
    names = [qname(n + 1, 1) for n in range(classes)] + [qname(classes + 1, 1)] * count
    return of_names(1, classes + 1, [], names, range(1, classes + 1), classes + 1)


def short_sets_of_one_text(classes=440_000, count=760_000):
    """Classes of one text, each in a namespace of its own, and names of that text, each with a set of another namespace."""
    names = [qname(n + 1, 1) for n in range(classes)] + [multiname(1, n + 1) for n in range(count)]
    return of_names(1, classes + 1, [set_of(classes + 1, 1)] * count, names, range(1, classes + 1), classes + 1)


def sets_and_texts(texts=400, classes=950, sets=2450, spaces=1150):
    """Texts of so many classes each, sets of so many other namespaces each, and a name for each text and each set."""
    names = [qname(k + 1, n + 1) for n in range(texts) for k in range(classes)]
    names += [multiname(n + 1, k + 1) for k in range(sets) for n in range(texts)]
    return of_names(texts, classes + spaces, [set_of(classes + 1, spaces)] * sets, names, range(1, texts * classes + 1), texts * classes + 1)


def alike(classes=300_000, spaces=800_000, count=1_700_000):
    """Classes of one text, and names of that text with one long set that has none of their namespaces."""
    names = [qname(n + 1, 1) for n in range(classes)] + [multiname(1, 1)] * count
    return of_names(1, classes + spaces, [set_of(classes + 1, spaces)], names, range(1, classes + 1), classes + 1)


def many_handlers(count=2_500_000):
    """A body with so many handlers, each of which has a layout."""
    return of_bodies((1, b"\x02" + LAST + b"\x29" + LAST, [exception(0, 1, 2)] * count))


def supers(classes=1 << 17, count=1 << 20):
    """A chain of classes, and in the constructor of the second highest so many super operations on the lowest."""
    bases = [n + 2 for n in range(classes - 1)] + [0]
    method = 2 * classes - 4
    code = body_of(method, 1, 1, b"\x20\x80\x01\x04\x01\x29" * count + LAST, [])
    return class_file(bases, 0, [[]] * classes, code=code, at=method)


def wide_interfaces(count=2000):
    """As many interfaces that each name as many others, of which each has as many."""
    between, one, below = (list(range(n * count + 1, n * count + count + 1)) for n in range(1, 4))
    named = [between] * count + [one[:1]] * count + [below] + [[]] * (2 * count - 1)
    return class_file([0] * len(named), INTERFACE, named)


def chain_code(classes, code, locals_=2, exceptions=()):
    """A chain of classes, each with the next as its base, and a script with this code."""
    bases = [n + 2 for n in range(classes - 1)] + [0]
    method = 2 * classes
    return class_file(bases, 0, [[]] * classes, code=body_of(method, 1, locals_, code, exceptions))


def as_class(n):
    """Makes local 1 null, of the n-th class."""
    return b"\x20\x80" + number(n + 1) + b"\xd5"


def back_to_one(classes, head):
    """A chain of classes, and a head of so many instructions that is led to with each class in turn: it is walked from each time."""
    code = b"\x10" + distance(len(head) + 1) + head + LAST
    for n in range(classes):
        code += as_class(n) + b"\x26\x11"
        code += distance(4 - (len(code) + 3)) + NEXT
    return code + LAST


def one_head(classes=1000, length=200_000):
    return chain_code(classes, back_to_one(classes, b"\x02" * length))


def one_head_handled(classes=1000, handlers=1 << 16):
    """The same, with a short head that so many handlers cover."""
    target = b"\x29" + LAST
    code = back_to_one(classes, b"\x02\x02" + LAST + target)
    return chain_code(classes, code, exceptions=[exception(4, 7, 7)] * handlers)


def led_to(before, rounds, heads, length):
    """Code that leads to each of the heads in each round, forward alone, after what `before` makes of the round's number; a head is so many
    instructions."""
    unit, parts = length // heads, [before(n) for n in range(rounds)]
    lead = sum(map(len, parts)) + 5 * heads * rounds + 1
    starts, code = [lead + n * (unit + 1) for n in range(heads)], bytearray()
    for part in parts:
        code += part
        for start in starts:
            code += b"\x26\x11" + distance(start - (len(code) + 5))
    return bytes(code) + LAST + (b"\x02" * unit + LAST) * heads


def heads_by_class(classes=1000, length=200_000, heads=16):
    """Heads that are led to with each class of a chain in turn, and nothing leads back."""
    return chain_code(classes, led_to(as_class, classes, heads, length))


def heads_by_local(count=1000, length=200_000, heads=16):
    """The same without classes: one local after the other becomes a truth value before all heads are led to again."""
    return of_bodies((count + 1, led_to(lambda n: b"\x26\x63" + number(n + 1), count, heads, length), []))


def local_heads(count=1030):
    """65,535 locals and so many branches, each to the next place."""
    return of_bodies((65535, b"\x26\x11\0\0\0" * count + LAST, []))


def near_all_bounds(sets=85_000, size=127, classes=4000, interfaces=2800, handlers=1 << 18, locals_=890, heads=540_000):
    """Many sets of names, classes in a chain with a slot each, interfaces in a chain, handlers and heads with locals: each near the bound
    beyond which memory is said to have run out."""
    total = classes + interfaces
    pools = pool([spelled(b"%x" % n) for n in range(total)]) + pool([PUBLIC] + [b"\x08" + number(n + 1) for n in range(size)])
    pools += pool([set_of(2, size - 1)] * sets) + pool([qname(1, n + 1) for n in range(total)])
    instances = []
    for n in range(classes):
        instances.append(number(n + 1) + number(n + 2 if n + 1 < classes else 0) + b"\0\0" + number(2 * n) + b"\1\1\0\0\0\0")
    for n in range(classes, total):
        instances.append(number(n + 1) + b"\0\4" + (b"\1" + number(n + 2) if n + 1 < total else b"\0") + number(2 * n) + b"\0")
    parts = counted(instances) + b"".join(number(2 * n + 1) + b"\0" for n in range(total)) + counted([number(2 * total) + b"\0"])
    bodies = [body(of) for of in range(2 * total) if of % 2 or of < 2 * classes]
    code = NEXT * heads
    exceptions = [exception(4 * n, 4 * n + 4, len(code) + 1) for n in range(handlers)]
    bodies.append(body_of(2 * total, 1, locals_, code + LAST + b"\x29" + LAST, exceptions))
    made = HEAD + bytes(3) + pools + counted([METHOD] * (2 * total + 1)) + b"\0" + parts + counted(bodies)
    assert len(made) <= SIZE, len(made)
    return made


def small_script(pools, methods=1):
    """A file of pools and of so many methods, whose script has the first."""
    made = HEAD + pools + counted([METHOD] * methods) + b"\0\0" + counted([b"\0\0"]) + counted([body(0)])
    assert len(made) <= SIZE, len(made)
    return made


def many_scripts(count=860_000):
    """As many scripts, each with an initializer that has an activation: two layouts for some 19 bytes."""
    bodies = [number(n) + b"\0\1\0\0\1\x47\0\0" for n in range(count)]
    made = HEAD + bytes(7) + counted([b"\0\0\0\2"] * count) + b"\0\0" + counted([number(n) + b"\0" for n in range(count)]) + counted(bodies)
    assert len(made) <= SIZE, len(made)
    return made


def wide_sets(size=127, count=130_000):
    """Sets of so many namespaces each."""
    strings = pool([spelled(b"%x" % n) for n in range(size)])
    return small_script(bytes(3) + strings + pool([b"\x08" + number(n + 1) for n in range(size)]) + pool([set_of(1, size)] * count) + b"\0")


def bare_names(count=16_700_000):
    return small_script(bytes(6) + number(count + 1) + b"\x11" * count)


def empty_strings(count=16_700_000):
    return small_script(bytes(3) + number(count + 1) + bytes(count + 3))


def empty_sets(count=16_700_000):
    return small_script(bytes(5) + number(count + 1) + bytes(count + 1))


def bare_methods(count=4_180_000):
    return small_script(bytes(7), count)


def two_long_bodies():
    return of_bodies((1, b"\x02" * (CODE - 200) + LAST, []), (1, b"\x02" * (CODE - 300) + LAST, []))


FILES = {
    "nops": nops,
    "to_one_place": to_one_place,
    "switches": switches,
    "covered": covered,
    "covered_branches": covered_branches,
    "nests": nests,
    "states": states,
    "equal_states": equal_states,
    "locals_written": locals_written,
    "scope_states": scope_states,
    "told_states": told_states,
    "wide_branches": wide_branches,
    "wide_bodies": wide_bodies,
    "long_set": long_set,
    "long_set_of_classes": long_set_of_classes,
    "classes_of_one_text": classes_of_one_text,
    "short_sets_of_one_text": short_sets_of_one_text,
    "sets_and_texts": sets_and_texts,
    "alike": alike,
    "many_handlers": many_handlers,
    "supers": supers,
    "wide_interfaces": wide_interfaces,
    "one_head": one_head,
    "one_head_handled": one_head_handled,
    "heads_by_class": heads_by_class,
    "heads_by_local": heads_by_local,
    "local_heads": local_heads,
    "near_all_bounds": near_all_bounds,
    "many_scripts": many_scripts,
    "wide_sets": wide_sets,
    "bare_names": bare_names,
    "empty_strings": empty_strings,
    "empty_sets": empty_sets,
    "bare_methods": bare_methods,
    "two_long_bodies": two_long_bodies,
}
# `check` answers that memory ran out, since more would be made than is made of a file.
TOO_MUCH = ("states", "scope_states", "told_states", "many_handlers", "wide_interfaces", "long_slot_chain")


def linked(strings, names, methods, items, bodies):
    """A text whose script has the last method; the bodies return at once."""
    lines = ["abc 16 46", *(f'string "{s}"' for s in strings), "ns Package 0", *names, *methods, *items]
    return "\n".join([*lines, *(f"body {of} 1 1 0 1\nreturnvoid" for of in bodies)]) + "\n"


def public(count):
    return [f"name QName 1 {n + 1}" for n in range(count)]


def interface_chain(count=2800):
    """Interfaces of which each names the next: as many sets, of all that are below."""
    instances = [f"instance {n + 1} 0 4" + (f"\nimplements {n + 2}" if n + 1 < count else "") + f"\niinit {2 * n}" for n in range(count)]
    items = [*instances, *(f"class {2 * n + 1}" for n in range(count)), f"script {2 * count}"]
    bodies = [*(2 * n + 1 for n in range(count)), 2 * count]
    return linked([f"i{n}" for n in range(count)], public(count), ["method 0 0 0"] * (2 * count + 1), items, bodies)


def slot_chain(count=4000):
    """Classes of which each has the next as its base and a slot of its own: as many layouts, with all slots of those below."""
    strings = [f"{kind}{n}" for kind in "cs" for n in range(count)]
    bases = [*range(2, count + 1), 0]
    instances = [f"instance {n + 1} {base} 0\niinit {2 * n}\ntrait slot 0 {count + n + 1} 0 0 0" for n, base in enumerate(bases)]
    items = [*instances, *(f"class {2 * n + 1}" for n in range(count)), f"script {2 * count}"]
    return linked(strings, public(2 * count), ["method 0 0 0"] * (2 * count + 1), items, range(2 * count + 1))


LINKED = {"interface_chain": interface_chain, "slot_chain": slot_chain, "long_slot_chain": lambda: slot_chain(5900)}
