"""Expressions and statements as a compiler writes them, with whatever operands the pools have.

Code is a pair: its bytes, which may stand anywhere, and how many values it has on the stack at most. An expression leaves one
value, a statement none.
"""
from spelling import number

LINE, JUMP, IF_TRUE, IF_FALSE, SWITCH = 0xF0, 0x10, 0x11, 0x12, 0x1B
GET, SET, KILL = 0x62, 0x63, 0x08
POP, DUP, LABEL = b"\x29", b"\x2a", b"\x09"
CONVERSIONS = bytes.fromhex("70 73 74 75 76 82 85")
UNARY = bytes.fromhex("73 75 76 82 90 91 93 95 96 97 c0 c1")
BINARY = bytes.fromhex("a0a0a0a0 a1a1 a2 a3 a4 a5 a8 a9 ab ab ac ad ae af b0 b4 c5 c6 c7")
COMPARING = bytes.fromhex("0c 0d 0e 0f 13 13 14 15 16 17 18 19 1a")
CONSTANTS = (b"\x20", b"\x21", b"\x26", b"\x27")
# Locals: this and parameters, others, and those that a for loop, an activation and a catch block keep to themselves.
PARAMS, PLAIN, WALKED, ACTIVATION, CAUGHT, LOCALS = 4, 12, 12, 16, 17, 18
# The scope that an activation is, and how many slots it has.
ACTIVATION_SCOPE, SLOTS = 1, 4


def op(opcode, *operands):
    return bytes([opcode]) + b"".join(map(number, operands))


def distance(value):
    return (value & 0xFFFFFF).to_bytes(3, "little")


def branch(opcode, value):
    return bytes([opcode]) + distance(value)


def local(opcode, n):
    """`getlocal` or `setlocal`."""
    if n < 4:
        return bytes([(0xD0 if opcode == GET else 0xD4) + n])
    return op(opcode, n)


def skipped(opcode, code):
    """A branch over code."""
    return branch(opcode, len(code)) + code


class Maker:
    """Makes code of a method that may call those of its base, or has an activation."""

    def __init__(self, rng, pools, has_base=False, has_activation=False):
        self.rng, self.pools = rng, pools
        self.leaves = [self.constant, self.number, self.text, self.value, self.value, self.value, self.found]
        self.trees = [self.binary, self.binary, self.binary, self.unary, self.read, self.read, self.read_at, self.call, self.call_found,
                      self.either, self.choice, self.literal, self.array, self.made, self.typed]
        self.simple = [self.assign, self.assign, self.assign, self.write, self.write, self.call_void, self.call_void, self.count, self.write_at]
        self.nested = [self.condition, self.condition, self.condition, self.loop, self.walk, self.cases, self.leave, self.fail]
        if has_base:
            self.trees.append(self.call_base)
        if has_activation:
            self.leaves += [self.slot, self.slot]
            self.simple += [self.set_slot, self.set_slot]

    def below(self, most):
        return self.rng.randrange(most)

    # Expressions

    def constant(self):
        return self.rng.choice(CONSTANTS), 1

    def number(self):
        spelled = self.rng.choice((op(0x24, self.below(128)), op(0x25, self.below(32768)), op(0x2D, self.pools.an_int())))
        return spelled, 1

    def text(self):
        return op(0x2C, self.pools.a_string()), 1

    def value(self):
        return local(GET, self.below(PLAIN)), 1

    def found(self):
        return op(0x60, self.pools.a_property()), 1

    def slot(self):
        return bytes([0x65, ACTIVATION_SCOPE]) + op(0x6C, 1 + self.below(SLOTS)), 1

    def expression(self, level):
        if level == 0 or self.rng.random() < 0.25:
            return self.rng.choice(self.leaves)()
        return self.rng.choice(self.trees)(level - 1)

    def several(self, level, most):
        """Some expressions, one above the other."""
        count = self.below(most + 1)
        code, depth = b"", 0
        for n in range(count):
            one, need = self.expression(level)
            code, depth = code + one, max(depth, n + need)
        return count, code, depth

    def binary(self, level):
        left, right = self.expression(level), self.expression(level)
        return left[0] + right[0] + bytes([self.rng.choice(BINARY)]), max(left[1], 1 + right[1])

    def unary(self, level):
        code, depth = self.expression(level)
        return code + bytes([self.rng.choice(UNARY)]), depth

    def read(self, level):
        code, depth = self.expression(level)
        return code + op(0x66, self.pools.a_property()), depth

    def read_at(self, level):
        code, depth = self.expression(level)
        index, need = self.expression(0)
        return code + index + op(0x66, self.pools.an_element()), max(depth, 1 + need)

    def call(self, level):
        code, depth = self.expression(level)
        count, values, need = self.several(level, 3)
        return code + values + op(0x46, self.pools.a_property(), count), max(depth, 1 + need)

    def call_found(self, level):
        name = self.pools.a_property()
        count, values, need = self.several(level, 3)
        return op(0x5D, name) + values + op(0x46, name, count), 1 + need

    def call_base(self, level):
        count, values, need = self.several(level, 2)
        return local(GET, 0) + values + op(0x45, self.pools.a_property(), count), 1 + need

    def either(self, level):
        """One value, or another where it is false or where it is true."""
        left, right = self.expression(level), self.expression(level)
        opcode = self.rng.choice((IF_TRUE, IF_FALSE))
        return left[0] + DUP + skipped(opcode, POP + right[0]), max(left[1] + 1, right[1])

    def choice(self, level):
        test, one, other = self.expression(level), self.expression(level), self.expression(level)
        taken = one[0] + b"\x82" + branch(JUMP, len(other[0]) + 1)
        return test[0] + skipped(IF_FALSE, taken) + other[0] + b"\x82", max(test[1], one[1], other[1])

    def literal(self, level):
        count = self.below(4)
        code, depth = b"", 1
        for n in range(count):
            value, need = self.expression(level)
            code, depth = code + self.text()[0] + value, max(depth, 2 * n + 1 + need)
        return code + op(0x55, count), depth

    def array(self, level):
        count, values, need = self.several(level, 4)
        return values + op(0x56, count), max(1, need)

    def made(self, level):
        name = self.pools.a_class()
        count, values, need = self.several(level, 3)
        return op(0x5D, name) + values + op(0x4A, name, count), 1 + need

    def typed(self, level):
        code, depth = self.expression(level)
        return code + op(self.rng.choice((0x80, 0x80, 0x86, 0xB2)), self.pools.a_type()), depth

    # Statements

    def statement(self, level):
        line = op(LINE, self.below(2000))
        makers = self.simple if level == 0 or self.rng.random() < 0.5 else self.nested
        code, depth = self.rng.choice(makers)(level)
        return line + code, depth

    def block(self, level):
        made = [self.statement(level) for _ in range(self.rng.randint(1, 3))]
        return b"".join(code for code, _ in made), max(depth for _, depth in made)

    def assign(self, level):
        code, depth = self.expression(level + 1)
        return code + bytes([self.rng.choice(CONVERSIONS)]) + local(SET, 1 + self.below(PLAIN - 1)), depth

    def write(self, level):
        value, need = self.expression(level + 1)
        return self.value()[0] + value + op(0x61, self.pools.a_property()), 1 + need

    def write_at(self, level):
        value, need = self.expression(level)
        return self.value()[0] + self.value()[0] + value + op(0x61, self.pools.an_element()), 2 + need

    def set_slot(self, level):
        value, need = self.expression(level + 1)
        return bytes([0x65, ACTIVATION_SCOPE]) + value + op(0x6D, 1 + self.below(SLOTS)), 1 + need

    def call_void(self, level):
        name = self.pools.a_property()
        count, values, need = self.several(level + 1, 3)
        return op(0x5D, name) + values + op(0x4F, name, count), 1 + need

    def count(self, level):
        return op(self.rng.choice((0x92, 0xC2, 0xC3)), 4 + self.below(PLAIN - 4)), 0

    def comparison(self):
        left, right = self.expression(1), self.expression(1)
        return left[0] + right[0], max(left[1], 1 + right[1])

    def condition(self, level):
        test, block, other = self.comparison(), self.block(level - 1), self.block(level - 1)
        opcode, depth = self.rng.choice(COMPARING), max(test[1], block[1])
        if self.rng.random() < 0.6:
            return test[0] + skipped(opcode, block[0]), depth
        taken = block[0] + branch(JUMP, len(other[0]))
        return test[0] + skipped(opcode, taken) + other[0], max(depth, other[1])

    def looped(self, block, test, opcode):
        """A block behind a test, and the branch back to it."""
        code = LABEL + block
        back = len(code) + len(test) + 4
        return skipped(JUMP, code) + test + branch(opcode, -back)

    def loop(self, level):
        block, test = self.block(level - 1), self.comparison()
        return self.looped(block[0], test[0], self.rng.choice(COMPARING)), max(block[1], test[1])

    def walk(self, level):
        """The values of an object, one after the other."""
        walked, index = WALKED + 2 * (level - 1), WALKED + 2 * (level - 1) + 1
        start, block = self.expression(1), self.block(level - 1)
        begin = b"\x24\x00" + local(SET, index) + start[0] + b"\x82" + local(SET, walked)
        value = local(GET, walked) + local(GET, index) + b"\x23\x82" + local(SET, 4 + self.below(PLAIN - 4))
        looped = self.looped(value + block[0], op(0x32, walked, index), IF_TRUE)
        return begin + looped + op(KILL, walked) + op(KILL, index), max(start[1], 2, block[1])

    def cases(self, level):
        value = self.expression(1)
        blocks = [self.block(level - 1) for _ in range(self.rng.randint(2, 6))]
        starts, code = [], b""
        end = sum(len(block) + 4 for block, _ in blocks)
        for block, _ in blocks:
            starts.append(len(code))
            code += block + branch(JUMP, end - len(code) - len(block) - 4)
        head = 1 + 3 + len(number(len(blocks) - 1)) + 3 * len(blocks)
        targets = b"".join(distance(head + start) for start in starts)
        switch = bytes([SWITCH]) + distance(head + end) + number(len(blocks) - 1) + targets
        return value[0] + b"\x73" + switch + code, max(value[1], *(depth for _, depth in blocks))

    def leave(self, level):
        test, value = self.comparison(), self.expression(level)
        return test[0] + skipped(self.rng.choice(COMPARING), value[0] + b"\x48"), max(test[1], value[1])

    def fail(self, level):
        test, value = self.comparison(), self.made(1)
        return test[0] + skipped(self.rng.choice(COMPARING), value[0] + b"\x03"), max(test[1], value[1])
