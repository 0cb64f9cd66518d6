"""Files that a verifier accepts, and that cost it much. Half versions have half as much code, half as many branches or handlers."""
from compiling import Program
from linking import class_file, program
from spelling import SIZE, counted, number
from statements import Maker, distance

STRING, PACKAGE = b"\x01x", b"\x16\0"
# getlocal_1, getlocal_2 and their comparison; the first of their ways to go on is the next place.
TESTS = (b"\xd1\x11", b"\xd2\x12", b"\xd1\xd2\x15", b"\xd1\xd2\x13")
BETWEEN = (b"", b"", b"\xc2\x01", b"\xd2\xd6", b"\x09")
POP_AND_RETURN = b"\x29\x47"
HANDLED = b"\0\0"


class Straight(Maker):
    """Makes code without branches."""

    def __init__(self, rng, pools):
        super().__init__(rng, pools)
        self.trees = [tree for tree in self.trees if tree not in (self.either, self.choice)]

    def code(self, length):
        """So many bytes, and the greatest depth."""
        stock = [self.statement(0) for _ in range(4000)]
        made, left, depth = [], length - 1, 1
        while left > 200:
            code, need = self.rng.choice(stock)
            made.append(code)
            left, depth = left - len(code), max(depth, need)
        return b"".join(made) + b"\x02" * left + b"\x47", depth


def straight(rng, size):
    """A body with 8 MiB less a byte of code without branches, as a compiler writes it."""
    made = Program(rng, size // 64)
    for _ in range(made.pools.known_classes()):
        made.add_class()
    method = made.method(0)
    code, depth = Straight(rng, made.pools).code(size // 2 - 1)
    made.put(made.bodies, b"".join(map(number, (method, depth, 18, 0, 1, len(code)))) + code + b"\0\0")
    return made.finish()(b"")


def body(method, max_scope, local_count, code, exceptions):
    fields = b"".join(map(number, (method, 2, local_count, 0, max_scope, len(code))))
    assert len(code) < 1 << 23, len(code)
    return fields + code + counted(exceptions) + b"\0"


def of_bodies(*bodies, max_scope=1):
    """A file with one script, whose bodies are those of its methods in turn."""
    spelled = [body(method, max_scope, *parts) for method, parts in enumerate(bodies)]
    return program([STRING], [PACKAGE], [], len(bodies), [], [], [], spelled)


def exception(start, end, target):
    return number(start) + number(end) + number(target) + HANDLED


def near(rng, n, count):
    """A number of a branch: one in 16 any, the others near the n-th."""
    if rng.random() < 1 / 16:
        return rng.randrange(count)
    return rng.randint(max(0, n - 40), min(count - 1, n + 40))


def branching(rng, count):
    """So many branches to each other; local 1 is a number, and stays one."""
    units = [rng.choice(TESTS) for _ in range(count)]
    starts, at = [], 3
    for n, unit in enumerate(units):
        units[n] = (unit, rng.choice(BETWEEN))
        starts.append(at)
        at += len(unit) + 3 + len(units[n][1])
    code = [b"\x24\x01\xd5"]
    for n, (unit, between) in enumerate(units):
        base = starts[n] + len(unit) + 3
        code.append(unit + distance(starts[near(rng, n, count)] - base) + between)
    return b"".join(code) + b"\x47"


def branches(rng, size):
    """A body with 2^20 branches."""
    return of_bodies((3, branching(rng, (1 << 20) * size // SIZE), []))


def tries(rng, size):
    """A body with 2^16 handlers, one behind the other: getlocal_1 getlocal_2 add setlocal_1, and a jump over a pop."""
    count, unit = (1 << 16) * size // SIZE, b"\xd1\xd2\xa0\xd5\x10\x01\x00\x00\x29"
    exceptions = [exception(at, at + 4, at + 8) for at in range(0, count * len(unit), len(unit))]
    return of_bodies((3, unit * count + b"\x47", exceptions))


def nested(rng, size):
    """A body with 4 MiB of straight code that writes locals, under 2^10 handlers, each around the next."""
    count, length = (1 << 10) * size // SIZE, (1 << 22) * size // SIZE
    step, unit = length // (4 * count), b"\xc2\x01\xd1\xd6"
    code = b"\x24\x01\xd5\x02" + unit * (length // 4 - 1)
    exceptions = [exception(4 * step * n, length - 4 * step * n, length + 1 + 2 * n) for n in range(count)]
    return of_bodies((3, code + b"\x47" + POP_AND_RETURN * count, exceptions))


def handlers(rng, size):
    """A body with 2^18 writes of 64 locals, each with a branch to the next, under two handlers."""
    count = (1 << 18) * size // SIZE
    code = b"".join(b"\x24\x01\x63" + number(rng.randrange(64)) + b"\x10\0\0\0" for _ in range(count))
    around = [exception(0, len(code), len(code) + 1)] * 2
    return of_bodies((64, code + b"\x47" + POP_AND_RETURN, around))


def deep(rng, size):
    """A chain of 2^17 classes, and 2^17 branches behind which a local is of the lowest class or of the highest."""
    classes, branches = (1 << 17) * size // SIZE, (1 << 17) * size // SIZE
    low, high = (b"\x20\x80" + number(name) + b"\xd5" for name in (1, classes))
    unit = low + b"\x26\x11" + distance(len(high)) + high
    bases = [n + 2 for n in range(classes - 1)] + [0]
    return class_file(bases, 0, [[]] * classes, code=body(2 * classes, 1, 2, unit * branches + b"\x47", []))


def scopes(rng, size):
    """A body that has 65,000 scopes, and pops and pushes the last one in 4 MiB of code."""
    most, length = 65000, (1 << 22) * size // SIZE
    code = b"\xd0\x30" * most + b"\x1d\xd0\x30" * (length // 3) + b"\x47"
    return of_bodies((3, code, []), max_scope=65535)


def written(rng, writes, local_count):
    """So many writes of any locals under one handler."""
    code = b"".join(b"\x26\x63" + number(rng.randrange(local_count)) for _ in range(writes))
    return code + b"\x47" + POP_AND_RETURN, [exception(0, len(code), len(code) + 1)]


def many_locals(rng, size):
    """A body with 65,535 locals and 2^20 writes of them, and 2^12 bodies with 1000 locals, 16 branches and a handler."""
    code, exceptions = written(rng, (1 << 20) * size // SIZE, 65535)
    others = []
    for _ in range((1 << 12) * size // SIZE):
        one = branching(rng, 16)
        others.append((1000, one + POP_AND_RETURN, [exception(3, len(one) - 1, len(one))]))
    return of_bodies((65535, code, exceptions), *others)
