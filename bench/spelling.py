"""How the parts of a file are spelled."""

SIZE = 1 << 24
HEAD = bytes([16, 0, 46, 0])


def number(value):
    """The fewest bytes of a number."""
    out = bytearray()
    while value >= 128:
        out.append(value % 128 + 128)
        value //= 128
    out.append(value)
    return bytes(out)


def longer(value, length):
    """The same number in at least so many bytes."""
    out = bytearray(number(value))
    while len(out) < length:
        out[-1] |= 128
        out.append(0)
    return bytes(out)


def varied(rng, value):
    """A number below 2^30, at times in more bytes than it needs."""
    return longer(value, rng.choice((0, 0, 0, 0, 0, 0, 0, 0, 0, 2, 3, 5)))


def pool(entries):
    """A pool of these entries."""
    return number(len(entries) + 1) + b"".join(entries) if entries else b"\0"


def counted(items):
    """A list of these items."""
    return number(len(items)) + b"".join(items)


def text(value):
    return number(len(value)) + value


def share(count, size):
    """So many for a file of SIZE bytes, and at least one for a smaller file."""
    return max(1, count * size // SIZE)


def slack(size):
    """How many bytes of a file are left for counts and for the string that fills it up."""
    return min(4096, size // 8)


def padded(size, parts):
    """The file, where one more string fills it up: parts(filler) gives its bytes."""
    missing = size - len(parts(b""))
    assert missing > 0, missing
    filler = b"x" * missing
    while len(parts(filler)) > size:
        filler = filler[:-1]
    made = parts(filler)
    assert len(made) == size, len(made)
    return made
