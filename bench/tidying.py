"""Files of long chains of type names (kind 1D), as many as fit."""
from spelling import HEAD, counted, number, pool

EMPTY = b"\x11"
# The bytes of a file beside its names, and some more for an index that grows.
REST = 64


def type_name(base):
    return b"\x1d" + number(base) + b"\0"


def longest(size):
    """How many type names fit, each of which names the next: two bytes beside those of the next one's number."""
    left, count = size - REST, 0
    for width in range(1, 6):
        more = min(left // (width + 2), 128**width - 2 - count)
        count += more
        left -= more * (width + 2)
    return count


def program(names, used):
    """A file with one method, which returns the name that is used."""
    method = b"\0" + number(used) + b"\0\0"
    return HEAD + bytes(6) + pool(names) + counted([method]) + bytes(4)


def forward(rng, size):
    """Each names the one after it, and the last a plain name."""
    names = [type_name(n + 2) for n in range(longest(size))]
    return program(names + [EMPTY], 1)


def backward(rng, size):
    """Each names the one before it, and the first a plain name."""
    names = [type_name(n + 1) for n in range(longest(size))]
    return program([EMPTY] + names, len(names) + 1)


def cycle(rng, size):
    """Each names the one after it, and the last the first. Tidying refuses it."""
    names = [type_name(n + 2) for n in range(longest(size))]
    return program(names + [type_name(1)], 1)
