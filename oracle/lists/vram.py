"""Every call of vram: a run of accepted calls, arguments in and out of reach, lengths that are refused."""
from .words import DIGEST, HUGE, call, calls, case, fill, lend, lend_all, seen

FILL = [0xA5, 0x0F, 0xFF, 0x00], 0xEE


def row(title, plane, offset, place):
    """Every call on the same memory, first those that change nothing."""
    case(title)
    calls((3, offset), (2, plane, offset), (1, plane, offset), (4, place), (5, offset))
    calls((10, offset), *((operation, plane, offset, 0x3C) for operation in (6, 7, 8, 9)), (DIGEST,))


def story():
    case("two bytes a plane, a picture that does not match; planes A5 00, 0F 00, FF 00, 00 00")
    lend_all(2)
    fill([0], *FILL)
    fill([1], [0] * 4, 0xEE)
    seen(2, 1)
    calls((1, 0, 0), (1, 1, 0), (1, 3, 0), (1, 2, 1), (2, 2, 0), (3, 0), (3, 1), (4, 2), (4, 15))
    for words, made in [("deplane", (10, 0)), ("plane_set", (7, 3, 1, 0x81)), ("write_u8", (6, 2, 1, 0x18)),
                       ("plane_and", (8, 0, 0, 0x3C)), ("plane_or", (9, 1, 0, 0xF0))]:
        case(words + ", then the whole memory")
        call(*made)
        seen(2, made[-2] if len(made) == 4 else 0)
    calls((4, 2), (4, 8), (4, 11))


def arguments():
    case("from here each case: read_glyph, peek_u8, read_u8, read_linear, serialize_linear, deplane, write_u8, plane_set, plane_and, plane_or")
    for title, plane, offset, place in [
            ("plane 1, offset 1, place 9", 1, 1, 9), ("plane 3, offset 0, place 15", 3, 0, 15), ("plane 4", 4, 1, 9),
            ("plane 256", 256, 1, 9), ("plane 2^63", HUGE, 1, 9), ("offset n", 1, 2, 9), ("offset 2^63", 1, HUGE, 9),
            ("place 8n", 1, 1, 16), ("place 2^63", 1, 1, HUGE), ("plane 4, offset n, place 8n", 4, 2, 16)]:
        fill([0, 1], *FILL)
        row(title, plane, offset, place)


def lengths():
    fill([0, 1, 2], *FILL)
    for which in range(4):
        for words, length in ("short", 1), ("long", 3):
            lend(*(length if plane == which else 2 for plane in range(4)), 16)
            row(f"plane {which} {words}", 1, 0, 0)
    for words, pixels in ("short", 15), ("long", 17):
        lend(2, 2, 2, 2, pixels)
        row(f"picture one {words}", 1, 0, 0)
    case("a wrong length comes before a plane and an offset out of reach")
    calls((1, 4, 2), (6, 4, 2, 0), (4, 16), (5, 2))
    lend_all(0)
    row("n 0", 1, 0, 0)
    lend_all(1)
    row("n 1", 1, 0, 7)
    lend_all(65536)
    fill([65535], *FILL)
    row("n 65,536, at its end", 1, 65535, 524287)
    row("n 65,536, one past its end", 1, 65536, 524288)
    lend_all(65537)
    row("n 65,537", 1, 0, 0)


PARTS = story, arguments, lengths
