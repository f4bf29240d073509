"""The lines of a list that is being made: calls, comments that name the cases, and what many cases begin or end with."""

HUGE = 2 ** 63
DIGEST = 0
# the settings that are no calls of the port
GC_FIELD, SEQ_FIELD, BYTE, LENGTH = 42, 43, 44, 45
lines = []


def case(words):
    lines.append("# " + words)


def call(*numbers):
    lines.append(" ".join(map(str, numbers)))


def calls(*rows):
    for row in rows:
        call(*row)


def count():
    """How many calls there are so far."""
    return sum(not line.startswith("#") for line in lines)


def fresh(crate):
    """Both records at their start, for the cases of a crate."""
    case(f"---- {crate}")
    calls((11,), (27,))


def lend(*lengths):
    calls(*((LENGTH, which, length) for which, length in enumerate(lengths)))


def lend_all(n):
    lend(n, n, n, n, 8 * n)


def fill(offsets, planes, pixel):
    """A byte of each plane and the eight pixels of each offset."""
    for at in offsets:
        calls(*((BYTE, plane, at, byte) for plane, byte in enumerate(planes)))
        calls(*((BYTE, 4, 8 * at + i, pixel) for i in range(8)))


def seen(n, at):
    """The whole state, every offset's pixels, and the planes at one offset."""
    call(DIGEST)
    calls(*((5, offset) for offset in range(n)))
    calls(*((1, plane, at) for plane in range(4)))
