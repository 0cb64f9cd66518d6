"""Texts of assembly with many or long tokens."""
from spelling import SIZE

HEAD = b"abc 16 46\n"
MEGABYTE = 1 << 20
BODY = b"method 0 0 0\nbody 0 1 1 0 1\n"


def labels(rng, size):
    """A body with 2^20 labels, each set once and used by the jump at another."""
    count = MEGABYTE * size // SIZE
    targets = list(range(count))
    rng.shuffle(targets)
    lines = [b"Label_%x:\njump Label_%x\n" % (n, target) for n, target in enumerate(targets)]
    return HEAD + BODY + b"".join(lines)


def bodies(rng, size):
    """A body with 2^20 labels, and then bodies of one instruction, 2^20 in all."""
    count = MEGABYTE * size // SIZE
    labels = b"".join(b"Label_%x:\n" % n for n in range(count))
    others = b"".join(b"body %d 1 1 0 1\nreturnvoid\n" % method for method in range(1, count))
    return HEAD + b"method 0 0 0\n" * count + b"body 0 1 1 0 1\n" + labels + b"returnvoid\n" + others


def long_tokens(rng, size):
    """Quoted texts of a megabyte, one of them all escapes, and a label of a megabyte, which is used three times."""
    length = MEGABYTE * size // SIZE
    plain, escaped = b"x" * length, b"\\%02x" % rng.getrandbits(8) * length
    label = b"L" * length
    code = label + b":\njump " + label + b"\nlookupswitch " + label + b" " + label + b"\n"
    return HEAD + b'string "%s"\nstring "%s"\n' % (plain, escaped) + BODY + code


def comment(rng, size):
    """The longest text: one comment, but for the first line."""
    length = (1 << 28) * size // SIZE
    return HEAD + b"; " + b"x" * (length - len(HEAD) - 3) + b"\n"
