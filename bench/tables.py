"""Files of pools and definitions."""
from spelling import HEAD, counted, longer, number, padded, pool, share, slack, text

KINDS = (0x05, 0x08, 0x16, 0x17, 0x18, 0x19, 0x1A)


def ints(rng, size):
    entries, made = [], 0
    while made < size - slack(size):
        value = rng.getrandbits(rng.choice((6, 13, 20, 27, 32)))
        entries.append(longer(value, rng.choice((0, 0, 0, 3, 5))))
        made += len(entries[-1])
    body = pool(entries)
    return padded(size, lambda filler: HEAD + body + b"\0\0" + pool([text(filler)]) + bytes(8))


def strings(rng, size):
    entries, made = [], 0
    while made < size - slack(size):
        entries.append(text(rng.randbytes(rng.randint(0, 40))))
        made += len(entries[-1])
    return padded(size, lambda filler: HEAD + bytes(3) + pool(entries + [text(filler)]) + bytes(8))


def multiname(rng, strings_count, spaces, sets):
    kind = rng.choice((0x07, 0x07, 0x07, 0x09, 0x09, 0x0D, 0x0E, 0x0F, 0x10, 0x11, 0x12, 0x1B, 0x1C))
    name = number(rng.randint(0, strings_count))
    space = number(rng.randint(0, spaces))
    one_set = number(rng.randint(1, sets))
    fields = {0x07: space + name, 0x0D: space + name, 0x0F: name, 0x10: name, 0x11: b"", 0x12: b"",
              0x09: name + one_set, 0x0E: name + one_set, 0x1B: one_set, 0x1C: one_set}
    return bytes([kind]) + fields[kind]


def type_name(rng, names):
    """A name with parameters, where there will be so many names."""
    params = [number(rng.randint(0, names)) for _ in range(rng.randint(0, 4))]
    return b"\x1d" + number(rng.randint(1, names)) + counted(params)


def namespace(rng, strings_count):
    return bytes([rng.choice(KINDS)]) + number(rng.randint(0, strings_count))


def names(rng, size):
    words = [text(rng.randbytes(rng.randint(1, 12))) for _ in range(share(20000, size))]
    spaces = [namespace(rng, len(words)) for _ in range(share(1200000, size))]
    sets = []
    for _ in range(share(500000, size)):
        count = rng.randint(0, 6)
        sets.append(counted([number(rng.randint(1, len(spaces))) for _ in range(count)]))
    made = sum(map(len, words)) + sum(map(len, spaces)) + sum(map(len, sets))
    entries = []
    while made < size - slack(size):
        # It may name itself, or one of the sixteen after it.
        has_params = rng.random() < 0.2
        entries.append(type_name(rng, len(entries) + 17) if has_params else multiname(rng, len(words), len(spaces), len(sets)))
        made += len(entries[-1])
    entries += [b"\x11"] * 16
    tail = pool(spaces) + pool(sets) + pool(entries) + bytes(5)
    return padded(size, lambda filler: HEAD + bytes(3) + pool(words + [text(filler)]) + tail)


class Pools:
    """The pools of a program, and how many entries its tables have."""

    def __init__(self, rng, size):
        self.words = [text(rng.randbytes(rng.randint(1, 12))) for _ in range(share(5000, size))]
        self.values = [number(rng.getrandbits(16)) for _ in range(share(3000, size))]
        spaces = [namespace(rng, len(self.words)) for _ in range(share(500, size))]
        sets = [b"\x02" + number(rng.randint(1, len(spaces))) + number(rng.randint(1, len(spaces))) for _ in range(share(300, size))]
        entries = [multiname(rng, len(self.words), len(spaces), len(sets)) for _ in range(share(9000, size))]
        self.tail = pool(spaces) + pool(sets) + pool(entries)
        self.strings, self.ints, self.spaces, self.names = len(self.words), len(self.values), len(spaces), len(entries)
        self.methods = self.metadata = self.classes = 1

    def spelled(self, filler):
        """The version and the pools, with one more string."""
        return HEAD + pool(self.values) + bytes(2) + pool(self.words + [text(filler)]) + self.tail


def trait(rng, kinds, v):
    kind = rng.choice(kinds)
    attrs = rng.choice((0, 0, 1, 2, 4))
    out = number(rng.randint(1, v.names)) + bytes([attrs << 4 | kind])
    method = number(rng.randrange(v.methods))
    if kind in (0, 6):
        out += number(rng.randint(0, 40)) + number(rng.randint(0, v.names))
        value = rng.randint(0, v.ints)
        out += number(value) + (b"\x03" if value else b"")
    elif kind == 4:
        out += number(rng.randint(0, 40)) + number(rng.randrange(v.classes))
    else:
        out += number(rng.randint(0, 40)) + method
    if attrs & 4:
        count = rng.randint(0, 2)
        out += counted([number(rng.randrange(v.metadata)) for _ in range(count)])
    return out


def traits(rng, most, v):
    count = rng.randint(0, most)
    return counted([trait(rng, (0, 1, 1, 1, 2, 3, 4, 5, 6), v) for _ in range(count)])


def method(rng, v):
    params = rng.randint(0, 5)
    flags = rng.choice((0, 0, 0, 0x08, 0x80, 0x88))
    out = number(params) + number(rng.randint(0, v.names))
    out += b"".join(number(rng.randint(0, v.names)) for _ in range(params))
    out += number(rng.randint(0, v.strings)) + bytes([flags])
    if flags & 0x08:
        options = rng.randint(0, params)
        out += counted([number(rng.randint(0, v.ints)) + b"\x03" for _ in range(options)])
    if flags & 0x80:
        out += b"".join(number(rng.randint(0, v.strings)) for _ in range(params))
    return out


def metadata(rng, v):
    count = rng.randint(0, 4)
    return number(rng.randint(0, v.strings)) + number(count) + b"".join(number(rng.randint(0, v.strings)) for _ in range(2 * count))


def instance(rng, v):
    flags = rng.choice((0, 1, 8, 9))
    out = number(rng.randint(1, v.names)) + number(rng.randint(0, v.names)) + bytes([flags])
    if flags & 8:
        out += number(rng.randint(0, v.spaces))
    count = rng.randint(0, 2)
    out += counted([number(rng.randint(1, v.names)) for _ in range(count)])
    return out + number(rng.randrange(v.methods)) + traits(rng, 8, v)


def owner(rng, most, v):
    return number(rng.randrange(v.methods)) + traits(rng, most, v)


def definitions(rng, size):
    v = Pools(rng, size)
    v.metadata, v.methods, v.classes = share(400, size), share(500000, size), share(110000, size)
    methods = [method(rng, v) for _ in range(v.methods)]
    metadatas = [metadata(rng, v) for _ in range(v.metadata)]
    instances, classes = [], []
    for _ in range(v.classes):
        instances.append(instance(rng, v))
        classes.append(owner(rng, 4, v))
    made = sum(map(len, methods)) + sum(map(len, instances)) + sum(map(len, classes)) + share(300000, size)
    scripts = []
    while made < size - slack(size):
        scripts.append(owner(rng, 12, v))
        made += len(scripts[-1])
    tail = counted(methods) + counted(metadatas) + counted(instances) + b"".join(classes) + counted(scripts) + b"\0"
    return padded(size, lambda filler: v.spelled(filler) + tail)
