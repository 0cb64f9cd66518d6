"""Files of method bodies. Numbers in them have short and long spellings, so that offsets move when they are mended."""
from itertools import accumulate

from spelling import HEAD, counted, longer, number, padded, share, slack, varied
from tables import Pools, method, trait

SWITCH = 0x1B
BRANCHES = range(0x0C, 0x1B)
# What a compiler writes most, with its weight: straight code, operands, calls, branches.
SINGLE = bytes.fromhex("d0d0d0d0d1d1d1d2d2d3d4d5d6d7 20 26 27 29 29 2a 2b 30 1d 82 82 73 75 76 91 96 a0 a0 a1 a2 ab ad c0 c5 48 09")
ONE = bytes.fromhex("6262626363 606060 616161 66666666 5d5d5d 68 2c2c2c 2d 2f 6c6c 6d 80808080 08 92 c2 f0f0f0f0 f1 41 42 49 55 5a 40")
TWO = bytes.fromhex("46464646 4f4f4f 4a4a 45 4c 4e 32")
JUMPS = bytes.fromhex("10101010 1111 12121212 13 14 15 16 17 18 19 1a 0c 0d 0e 0f")
WEIGHTS = {"single": 40, "one": 34, "two": 8, "branch": 8, "byte": 6, "short": 2, "debug": 1, "scope": 0.5, "switch": 0.3}


def operand(rng):
    return varied(rng, rng.randint(0, rng.choice((5, 120, 9000))))


def short(rng):
    """The operand of `pushshort`: as few bytes as its 16 bits need, or those of a number that is extended by its sign."""
    value = rng.getrandbits(16)
    return number(value) if rng.random() < 0.7 else longer(value | 0xFFFF0000, 5)


def switch(rng):
    cases = rng.randint(0, 9)
    return bytes([SWITCH]) + bytes(3) + longer(cases, rng.choice((1, 1, 1, 2))) + bytes(3 * cases + 3)


def instruction(rng, form):
    """One instruction of the form. Its offsets are zero for now."""
    makers = {
        "single": lambda: bytes([rng.choice(SINGLE)]),
        "one": lambda: bytes([rng.choice(ONE)]) + operand(rng),
        "two": lambda: bytes([rng.choice(TWO)]) + operand(rng) + varied(rng, rng.randint(0, 6)),
        "branch": lambda: bytes([rng.choice(JUMPS)]) + bytes(3),
        "byte": lambda: bytes([0x24, rng.getrandbits(8)]),
        "short": lambda: b"\x25" + short(rng),
        "debug": lambda: b"\xef\x01" + operand(rng) + bytes([rng.randint(0, 9)]) + operand(rng),
        "scope": lambda: bytes([0x65, rng.randint(0, 3)]),
        "switch": lambda: switch(rng),
    }
    return makers[form]()


def stock(rng):
    """Instructions to choose from."""
    forms = rng.choices(list(WEIGHTS), list(WEIGHTS.values()), k=20000)
    return [instruction(rng, form) for form in forms]


def instructions(rng, choices, length):
    """Instructions of so many bytes, without their offsets."""
    chosen, left = [], length - 1
    while left:
        one = rng.choice(choices)
        if len(one) > left:
            one = instruction(rng, "single")
        chosen.append(one)
        left -= len(one)
    return chosen + [b"\x47"]


def offset(rng, starts, n, base):
    """From a base to an instruction or the end: one in 16 anywhere, the others near the n-th instruction."""
    last = len(starts) - 1
    least, most = (0, last) if rng.random() < 1 / 16 else (max(0, n - 40), min(last, n + 40))
    return (starts[rng.randint(least, most)] - base & 0xFFFFFF).to_bytes(3, "little")


def aimed(rng, one, starts, n):
    """The n-th instruction, with its offsets."""
    if one[0] in BRANCHES:
        return one[:1] + offset(rng, starts, n, starts[n + 1])
    if one[0] == SWITCH:
        cases = (one[4] & 127) + 1
        targets = [offset(rng, starts, n, starts[n]) for _ in range(cases + 1)]
        return one[:1] + targets[0] + one[4:-3 * cases] + b"".join(targets[1:])
    return one


def exception(rng, starts, v):
    first = rng.randrange(len(starts))
    places = [starts[min(first + ahead, len(starts) - 1)] for ahead in (0, rng.randint(0, 60), rng.randint(0, 90))]
    return b"".join(varied(rng, value) for value in (*places, rng.randint(0, v.names), rng.randint(0, v.names)))


def body(rng, v, choices, of, length, exceptions):
    """The body of a method, with so many bytes of code and so many exceptions."""
    chosen = instructions(rng, choices, length)
    starts = list(accumulate(map(len, chosen), initial=0))
    code = b"".join(aimed(rng, one, starts, n) for n, one in enumerate(chosen))
    assert len(code) == length
    fields = b"".join(varied(rng, value) for value in (of, rng.randint(1, 9), rng.randint(1, 12), rng.randint(0, 9), rng.randint(9, 15), length))
    slots = [trait(rng, (0, 0, 6), v) for _ in range(rng.choice((0,) * 15 + (1, 2, 3)))]
    return fields + code + counted([exception(rng, starts, v) for _ in range(exceptions)]) + counted(slots)


def program(rng, size, v, first, more):
    """A file of these bodies and of as many more as fill it, each by more(method)."""
    bodies, methods = first, [method(rng, v) for _ in first]
    made = len(v.spelled(b"")) + sum(map(len, bodies)) + sum(map(len, methods))
    while made < size - slack(size):
        bodies.append(more(len(methods)))
        methods.append(method(rng, v))
        made += len(methods[-1]) + len(bodies[-1])
    metadata, script = b"\0\0", number(len(methods) - 1) + b"\0"
    tail = counted(methods) + counted([metadata]) + b"\0" + counted([script]) + counted(bodies)
    return padded(size, lambda filler: v.spelled(filler) + tail)


def small_bodies(rng, size):
    """Bodies of 20 to 200 bytes of code; one in eight has exceptions, one in six has traits."""
    v, choices = Pools(rng, size), stock(rng)

    def more(of):
        return body(rng, v, choices, of, rng.randint(20, 200), rng.choice((0,) * 7 + (rng.randint(1, 3),)))

    return program(rng, size, v, [], more)


def large_body(rng, size):
    """A body whose code has half of the file's bytes less one, with an exception for each 400 of them, and others after it."""
    v, choices = Pools(rng, size), stock(rng)
    length = size // 2 - 1
    large = body(rng, v, choices, 0, length, length // 400)

    def more(of):
        return body(rng, v, choices, of, rng.randint(20, slack(size) // 2), rng.randint(0, 3))

    return program(rng, size, v, [large], more)


def tiny_bodies(rng, size):
    """2^20 bodies that return at once, of which the last one is that of the script."""
    count = share(1 << 20, size)
    spelled = [number(method) + b"\x01\x01\x00\x01\x01\x47\0\0" for method in range(count)]
    return HEAD + bytes(7) + counted([bytes(4)] * count) + b"\0\0" + counted([number(count - 1) + b"\0"]) + counted(spelled)
