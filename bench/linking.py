"""Files that link, and cost a linker much. Half versions have half as many classes, edges, traits or names."""
from spelling import HEAD, SIZE, counted, number, pool, text

INTERFACE = 4
PRIVATE, PACKAGE = b"\x05", b"\x16"
METHOD = bytes(4)
CODE = b"\x47"


def qname(space, string):
    return b"\x07" + number(space) + number(string)


def body(of):
    """A body that returns at once."""
    return number(of) + b"\x01\x01\x00\x01" + counted([CODE[n:n + 1] for n in range(len(CODE))]) + b"\0\0"


def slot(name, slot_id):
    return number(name) + b"\0" + number(slot_id) + b"\0\0"


def program(strings, spaces, names, methods, instances, classes, script_traits, bodies):
    """A file whose one script has the last method."""
    script = number(methods - 1) + counted(script_traits)
    pools = bytes(3) + pool(strings) + pool(spaces) + b"\0" + pool(names)
    made = HEAD + pools + counted([METHOD] * methods) + b"\0" + counted(instances) + b"".join(classes) + counted([script]) + counted(bodies)
    assert len(made) <= SIZE, len(made)
    return made


def class_file(bases, flags, interfaces, traits=(), code=None, at=-1):
    """Classes by the numbers of their bases' names and of their interfaces' names; the first one has the traits. One body, that of
    the script if no other is named, may be another than one that returns at once."""
    count = len(bases)
    strings = [text(b"%x" % n) for n in range(count)]
    names = [qname(1, n + 1) for n in range(count)]
    instances = []
    for n in range(count):
        own = counted(traits) if n == 0 else b"\0"
        named = counted([number(name) for name in interfaces[n]])
        instances.append(number(n + 1) + number(bases[n]) + bytes([flags]) + named + number(2 * n) + own)
    classes = [number(2 * n + 1) + b"\0" for n in range(count)]
    methods = 2 * count + 1
    bodies = [body(of) for of in range(methods) if not flags & INTERFACE or of % 2 or of == methods - 1]
    bodies[at] = code or bodies[at]
    return program(strings, [PACKAGE + b"\0"], names, methods, instances, classes, [], bodies)


def chain(rng, size):
    """2^18 classes, each with the one after it as its base."""
    count = (1 << 18) * size // SIZE
    bases = [n + 2 for n in range(count - 1)] + [0]
    return class_file(bases, 0, [[]] * count)


def interfaces(rng, size):
    """65 rows of 64 interfaces, each of which names all of the next row: 2^18 edges, and 64^64 ways through them."""
    width, rows = 64, 64 * size // SIZE + 1
    rows_of_names = [list(range(row * width + 1, row * width + width + 1)) for row in range(rows + 1)]
    named = [rows_of_names[row + 1] if row + 1 < rows else [] for row in range(rows) for _ in range(width)]
    return class_file([0] * len(named), INTERFACE, named)


def slots(names):
    """Slots with numbers of their own."""
    return [slot(name, name) for name in range(1, names + 1)]


def traits(rng, size):
    """A class with 2^20 slots of 1024 texts in 1024 namespaces, each with a number."""
    texts, spaces = 1024, 1024 * size // SIZE
    strings = [text(b"%x" % n) for n in range(texts)]
    names = [qname(space + 1, string + 1) for space in range(spaces) for string in range(texts)]
    kinds = [PACKAGE + number(n + 1) for n in range(spaces)]
    instance = b"\x01\0\0\0" + b"\0" + counted(slots(len(names)))
    return program(strings, kinds, names, 3, [instance], [b"\x01\0"], [], [body(of) for of in range(3)])


def one_text(rng, size):
    """A script with 2^20 slots of one text, each in a Private namespace of its own."""
    count = (1 << 20) * size // SIZE
    names = [qname(n + 1, 1) for n in range(count)]
    return program([text(b"x")], [PRIVATE + b"\0"] * count, names, 1, [], [], [slot(n + 1, 0) for n in range(count)], [body(0)])
