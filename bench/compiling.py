"""A file of classes, as a compiler writes it: it links, and all bodies have typings. Numbers have their fewest bytes."""
from spelling import HEAD, counted, number, padded, pool, share, slack, text
from statements import ACTIVATION, CAUGHT, DUP, GET, JUMP, LOCALS, PARAMS, SET, SLOTS, Maker, branch, local, op

HOST = (b"Object", b"int", b"uint", b"Number", b"Boolean", b"String", b"Array", b"Function", b"Error", b"Namespace", b"Class", b"void")
OBJECT = 1
# Namespaces: that of packages without a name, one of a package and one of the file.
PUBLIC, OWN = 1, 2
SPACES = b"\x16\0", b"\x16\x01", b"\x05\0"
HAS_ACTIVATION, HAS_REST, HAS_OPTIONS = 0x02, 0x04, 0x08
FUNCTIONS = 200
THIS_SCOPE = b"\xd0\x30"


class Pools:
    """The pools, and their entries by their uses: names of the host's classes, of classes, and of properties."""

    def __init__(self, rng, size):
        self.rng = rng
        self.most_classes, self.properties = max(8, share(8000, size)), max(60, share(6000, size))
        words = [b"package"] + list(HOST) + [b"Class%d" % n for n in range(self.most_classes)] + [b"property%d" % n for n in range(self.properties)]
        self.first_class = 1 + len(HOST)
        self.first_property = self.first_class + self.most_classes
        self.words = [text(word) for word in words + [rng.randbytes(rng.randint(4, 30)) for _ in range(share(4000, size))]]
        self.ints = [number(rng.getrandbits(rng.choice((8, 17, 31)))) for _ in range(share(3000, size))]
        self.names = self.spelled_names()

    def spelled_names(self):
        qnames = [b"\x07" + number(PUBLIC if n < len(HOST) else OWN) + number(n + 2) for n in range(self.first_property - 1)]
        strings = [self.first_property + 1 + n for n in range(self.properties)]
        spaces = [self.rng.choice((PUBLIC, OWN, 3)) for _ in strings]
        qnames += [b"\x07" + number(space) + number(string) for space, string in zip(spaces, strings)]
        self.first_element = len(qnames) + 1 + self.properties
        return qnames + [b"\x09" + number(string) + b"\x01" for string in strings] + [b"\x1b\x01"]

    def spelled(self, filler):
        sets = [counted([number(PUBLIC), number(OWN)])]
        return HEAD + pool(self.ints) + b"\0\0" + pool(self.words + [text(filler)]) + pool(SPACES) + pool(sets) + pool(self.names)

    def an_int(self):
        return self.rng.randint(1, len(self.ints))

    def a_string(self):
        return self.rng.randint(1, len(self.words))

    def a_property(self):
        """By one namespace, or by a set."""
        return self.first_property + self.rng.randrange(2 * self.properties)

    def an_element(self):
        return self.first_element

    def a_class(self):
        return self.first_class + self.rng.randrange(self.known_classes())

    def a_type(self):
        return self.rng.choice((OBJECT, 2, 3, 4, 5, 6, 6, 7, self.a_class()))

    def known_classes(self):
        """How many classes there are at least."""
        return max(1, self.most_classes // 8)


class Program:
    """Methods and bodies by their numbers, and classes."""

    def __init__(self, rng, size):
        self.rng, self.pools = rng, Pools(rng, size)
        self.methods, self.bodies, self.instances, self.classes = [], [], [], []
        # The names of the bases of classes, and how many bytes there are so far, but for the pools and the script.
        self.bases, self.made = [], 0
        makers = {kind: Maker(rng, self.pools, *kind) for kind in ((False, False), (True, False), (False, True), (True, True))}
        count = max(40, share(4000, size))
        self.stock = {kind: [maker.statement(rng.choice((0, 0, 1, 1, 2))) for _ in range(count)] for kind, maker in makers.items()}

    def put(self, part, made):
        part.append(made)
        self.made += len(made)

    def method(self, flags):
        rng = self.rng
        params = rng.randint(0, PARAMS - 1)
        types = b"".join(number(self.pools.a_type()) for _ in range(params))
        options = rng.randint(1, params) if params and rng.random() < 0.2 else 0
        values = counted([number(self.pools.an_int()) + b"\x03" for _ in range(options)]) if options else b""
        flags |= HAS_OPTIONS if options else 0
        made = number(params) + number(rng.choice((0, self.pools.a_type()))) + types + number(self.pools.a_string()) + bytes([flags]) + values
        self.put(self.methods, made)
        return len(self.methods) - 1

    def statements(self, kind, count):
        made = [self.rng.choice(self.stock[kind]) for _ in range(count)]
        return b"".join(code for code, _ in made), max((depth for _, depth in made), default=0)

    def caught(self, kind, handler):
        """What a catch block begins with, where its value alone is on the stack: the scopes, and the value's own."""
        scopes = THIS_SCOPE + (local(GET, ACTIVATION) + b"\x30" if kind[1] else b"")
        return scopes + op(0x5A, handler) + DUP + local(SET, CAUGHT) + DUP + b"\x30\x2b" + op(0x6D, 1)

    def guarded(self, kind, start, handler):
        """Statements with a catch block behind them, from a place on, and the exception."""
        block, other = self.statements(kind, self.rng.randint(1, 3)), self.statements(kind, 1)
        catch = self.caught(kind, handler) + other[0] + b"\x1d" + op(0x08, CAUGHT)
        code = block[0] + branch(JUMP, len(catch)) + catch
        end = start + len(block[0])
        exception = b"".join(map(number, (start, end, end + 4, self.rng.choice((0, 9)), self.rng.choice((0, self.pools.first_property)))))
        return code, max(block[1], other[1], 3), exception

    def code(self, kind, begin, count):
        """So many statements, of which one in 30 is guarded, the greatest depth and the exceptions."""
        code, depth, exceptions = begin, 2, []
        for _ in range(count):
            if self.rng.random() < 1 / 30:
                more, need, exception = self.guarded(kind, len(code), len(exceptions))
                exceptions.append(exception)
            else:
                more, need = self.statements(kind, 1)
            code, depth = code + more, max(depth, need)
        return code + b"\x47", depth, exceptions

    def body(self, method, kind, begin=THIS_SCOPE, count=None):
        """The body of a method. The kind tells whether its class has a base, and whether it has an activation."""
        if kind[1]:
            begin += b"\x57" + DUP + local(SET, ACTIVATION) + b"\x30"
        count = self.rng.choice((1, 1, 2, 2, 3, 4, 6, 10)) if count is None else count
        code, depth, exceptions = self.code(kind, begin, count)
        slots = [number(self.pools.first_property + n) + b"\0" + number(n + 1) + number(self.pools.a_type()) + b"\0" for n in range(SLOTS if kind[1] else 0)]
        fields = b"".join(map(number, (method, depth, LOCALS, 0, 3, len(code))))
        self.put(self.bodies, fields + code + counted(exceptions) + counted(slots))

    def routine(self, has_base, begin=THIS_SCOPE, count=None):
        """A method with its body."""
        has_activation = self.rng.random() < 0.15
        rest = HAS_REST if self.rng.random() < 0.03 else 0
        method = self.method(rest | (HAS_ACTIVATION if has_activation else 0))
        self.body(method, (has_base, has_activation), begin, count)
        return method

    def traits(self, has_base, fields, methods):
        """Slots and methods of a class, each with a name of its own."""
        first = self.pools.first_property + self.rng.randrange(max(1, self.pools.properties - fields - methods))
        made = [number(first + n) + b"\0\0" + number(self.pools.a_type()) + b"\0" for n in range(fields)]
        made += [number(first + fields + n) + b"\x01\0" + number(self.routine(has_base)) for n in range(methods)]
        return counted(made)

    def add_class(self):
        """The next class; its base is one before it, or Object."""
        rng, pools, n = self.rng, self.pools, len(self.bases)
        self.bases.append(pools.first_class + rng.randrange(n) if n and rng.random() < 0.6 else OBJECT)
        maker = self.routine(True, THIS_SCOPE + b"\xd0\x49\x00")
        instance = self.traits(True, rng.randint(0, 8), rng.randint(1, 20))
        self.put(self.instances, number(pools.first_class + n) + number(self.bases[n]) + b"\x01\0" + number(maker) + instance)
        init = self.routine(False, THIS_SCOPE, 0)
        self.put(self.classes, number(init) + self.traits(False, rng.randint(0, 3), rng.randint(0, 3)))

    def made_class(self, n):
        """The code that makes a class."""
        base = op(0x60, self.bases[n])
        return b"\x65\0" + base + b"\x30" + base + op(0x58, n) + b"\x1d" + op(0x68, self.pools.first_class + n)

    def script(self):
        """A script that makes all classes."""
        code = THIS_SCOPE + b"".join(map(self.made_class, range(len(self.bases)))) + b"\x47"
        method = len(self.methods)
        self.put(self.methods, bytes(4))
        self.put(self.bodies, b"".join(map(number, (method, 2, 1, 0, 3, len(code)))) + code + b"\0\0")
        return number(method) + b"\0"

    def finish(self):
        """Adds the script. The file, by one more string."""
        script = self.script()
        definitions = counted(self.methods) + b"\0" + counted(self.instances) + b"".join(self.classes) + counted([script])
        return lambda filler: self.pools.spelled(filler) + definitions + counted(self.bodies)


def compiled(rng, size):
    """Classes with as many methods as fill the file."""
    program = Program(rng, size)
    for _ in range(share(FUNCTIONS, size)):
        program.routine(False)
    pools, known = len(program.pools.spelled(b"")), program.pools.known_classes()
    # The script takes 20 bytes for a class, and the greatest class less than what is left.
    while pools + program.made + 20 * len(program.bases) < size - 8 * slack(size) or len(program.bases) < known:
        program.add_class()
    assert len(program.bases) <= program.pools.most_classes
    return padded(size, program.finish())
