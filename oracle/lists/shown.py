"""`show_pixels` (K3): the eight pixels of an offset in every shift mode. Where a comment has eight digits, the shows after it answer them.
It comes last of the whole list, so that every older line stays."""
from .graphics import ABOVE, NAMES, bad_record, data, every_count
from .sequencer import AT_BOUND, NAMES as SEQ_NAMES, masked
from .words import BYTE, DIGEST, GC_FIELD, HUGE, SEQ_FIELD, call, calls, case, fill, lend, lend_all

# the new show, and the older one, which has its 9
SHOW, OLDER = 46, 41
STANDARD, CGA, CHAIN4, UNUSED = 0x00, 0x20, 0x40, 0x60
MODES = {STANDARD: "Standard", CGA: "CGACompatible", CHAIN4: "Chain4", UNUSED: "Unused"}
# fields of the records
MODE, LATCHES, MAP_MASK, MEMORY_MODE = 7, 11, 4, 6
LAST = 2 ** 64 - 1
# past any planes; 8 times 2^61 wraps to 0, and the next offset after the last does
FAR = [2 ** 32, 2 ** 61, HUGE, LAST - 1, LAST]


def plane_bytes(at):
    """Bytes of planes 0 to 3: no two are alike, of any offsets that are shown here, nor the two halves of one."""
    return [byte ^ 45 * at % 256 for byte in (0x1B, 0xE4, 0x72, 0x8D)]


def pixel(place):
    """A byte of a picture that matches no planes, another eight at each offset; every third is above 15."""
    return (5 * place + 3 * (place // 8)) % 16 + 0xA0 * (place % 3 == 0)


def stir(offsets):
    """Other planes and other pixels at each offset."""
    for at in offsets:
        calls(*((BYTE, plane, at, byte) for plane, byte in enumerate(plane_bytes(at))))
        calls(*((BYTE, 4, 8 * at + i, pixel(8 * at + i)) for i in range(8)))


def digits(mode, at):
    """What a show of stirred memory has: the picture, two bytes in base four, or four bytes in hexadecimal."""
    if mode == CGA:
        return "".join(str(byte >> low & 3) for byte in (plane_bytes(at)[0], plane_bytes(at + 1)[1]) for low in (6, 4, 2, 0))
    if mode == CHAIN4:
        return "".join(f"{byte:02X}" for byte in plane_bytes(at))
    return "".join(f"{pixel(8 * at + i):02X}"[1] for i in range(8))


def answers(mode, offsets, n):
    """The same of several offsets, with the refusals."""
    return ", ".join("5" if at + (mode == CGA) >= n else digits(mode, at) for at in offsets)


def start(memory_mode=4):
    """Fresh records; latches and counters that a show might move."""
    masked(15, memory_mode)
    call(27)
    every_count()


def both(at):
    calls((SHOW, at), (OLDER, at))


def worked():
    lend_all(8)
    fill(range(8), [0] * 4, 0)
    calls(*((BYTE, plane, 0, byte) for plane, byte in enumerate((0x12, 0x34, 0x56, 0x78))), (BYTE, 1, 1, 0x1B), (10, 0), (10, 1))
    shows = {STANDARD: "0CAF8650", CGA: "01020123", CHAIN4: "12345678", UNUSED: "0CAF8650"}
    for memory_mode in 4, 12, 8, 0:
        start(memory_mode)
        call(DIGEST)
        for mode, pixels in shows.items():
            older = "9" if mode in (CGA, CHAIN4) else pixels
            case(f"planes 12 34 56 78 at 0, plane 1 has 1B at 1, Memory Mode {memory_mode}, {MODES[mode]}: {pixels}; the older show: {older}")
            data((5, mode))
            both(0)
        case("CGACompatible at n - 1: 5; the other three there: 00000000, 00000000, 00000000")
        for mode in CGA, STANDARD, CHAIN4, UNUSED:
            calls((36, mode), (SHOW, 7))
        call(DIGEST)


def ends():
    start()
    for n in 1, 2, 8, 65536:
        lend_all(n)
        stir(at for at in sorted({0, 1, n - 2, n - 1}) if 0 <= at < n)
        call(DIGEST)
        for mode, name in MODES.items():
            offsets = [at for at in sorted({0, n - 2, n - 1, n, n + 1}) if at >= 0]
            case(f"n {n}, {name}, offsets {' '.join(map(str, offsets))}: {answers(mode, offsets, n)}; 2^32, 2^61, 2^63, 2^64 - 2, 2^64 - 1: 5; the older show at 0 and n")
            calls((GC_FIELD, MODE, mode), *((SHOW, at) for at in offsets + FAR), (OLDER, 0), (OLDER, n))
        call(DIGEST)


def bits():
    lend_all(4)
    start()
    for mode in CHAIN4, CGA:
        call(GC_FIELD, MODE, mode)
        for byte in 0x00, 0xFF:
            fill(range(4), [byte] * 4, 9)
            for plane in range(4):
                case(f"{MODES[mode]} at 1, every plane {byte:02X}: each bit of plane {plane} turned over at 1, then at 2")
                for at in 1, 2:
                    for i in range(8):
                        calls((BYTE, plane, at, byte ^ 1 << i), (SHOW, 1))
                    call(BYTE, plane, at, byte)


def chained():
    """Every low pair of bits, and planes that end among them: the offset is never cleared, nor judged by its cleared one."""
    stir(range(10))
    for memory_mode in 12, 8, 4, 0:
        start(memory_mode)
        for n in (10, 8, 7, 6, 5) if memory_mode & 8 else (10,):
            lend_all(n)
            offsets = range(3, 9) if n == 10 else range(n - 2, n + 1)
            for mode in MODES:
                case(f"Memory Mode {memory_mode}, n {n}, {MODES[mode]}, offsets {offsets[0]} to {offsets[-1]}: {answers(mode, offsets, n)}")
                calls((GC_FIELD, MODE, mode), *((SHOW, at) for at in offsets))
            call(DIGEST)


def varied(operation, field, values, kept):
    """A field of a record with each of these values, each shown; then as it was."""
    for value in values:
        calls((operation, field, value), (SHOW, 5))
    call(operation, field, kept)


def registers():
    lend_all(8)
    for mode, name in MODES.items():
        start()
        call(GC_FIELD, MODE, mode)
        pixels = digits(mode, 5)
        case(f"{name} at 5, and always {pixels}: Memory Mode 0 to 63")
        varied(SEQ_FIELD, MEMORY_MODE, range(64), 4)
        case(f"Map Mask 0 to 15, then the sequencer's other fields: {pixels}")
        varied(SEQ_FIELD, MAP_MASK, range(16), 15)
        for field, value, kept in (0, 255, 4), (1, 5, 4), (2, 3, 0), (3, 63, 0), (5, 63, 0), (7, 1, 0), (8, 2, 1), (9, 18, 9):
            varied(SEQ_FIELD, field, [value], kept)
        case(f"map select 0 to 3, Miscellaneous 0 to 15, write modes, test, read mode, odd/even and bit 7 of Mode: {pixels}")
        varied(GC_FIELD, 6, range(4), 0)
        varied(GC_FIELD, 8, range(16), 0)
        varied(GC_FIELD, MODE, [mode | other for other in (1, 2, 3, 4, 8, 16, 128, 0x9F)], mode)
        case(f"the controller's other fields at their bounds, latches 255, and GC odd/even, map select 3 and Map Mask 0 under chain-four: {pixels}")
        for field, value in (0, 15), (1, 8), (2, 15), (3, 15), (4, 15), (5, 255), (9, 15), (10, 255), *((LATCHES + plane, 255) for plane in range(4)):
            varied(GC_FIELD, field, [value], 0)
        calls((GC_FIELD, MODE, mode | 16), (GC_FIELD, 6, 3), (SEQ_FIELD, MAP_MASK, 0), (SEQ_FIELD, MEMORY_MODE, 12), (SHOW, 5), (SEQ_FIELD, MEMORY_MODE, 8), (SHOW, 5), (DIGEST,))


# above 15 and not, so that whole bytes, high halves and low halves are told apart
PIXELS = [0x00, 0x0F, 0x10, 0x1E, 0xA5, 0xF0, 0xFE, 0xFF]


def pictures():
    lend_all(2)
    start()
    case("a picture that does not match planes 12 34 56 78: the standard modes have it as it stands, 0F0E50EF; Chain4 and CGACompatible have the planes, 12345678 and 5")
    fill([0, 1], [0x12, 0x34, 0x56, 0x78], 0)
    calls(*((BYTE, 4, 8 + i, byte) for i, byte in enumerate(PIXELS)))
    for mode in STANDARD, UNUSED, CHAIN4, CGA:
        call(GC_FIELD, MODE, mode)
        both(1)
    case("no show remade it: its bytes, whole")
    calls(*((4, 8 + i) for i in range(8)), (DIGEST,))
    for planes, pixels in ([0] * 4, "0F0E50EF"), ([0xFF] * 4, "0F0E50EF"):
        case(f"planes {planes[0]:02X}: {pixels} in the standard modes; Chain4 at 1 and CGACompatible at 0 have the planes")
        calls(*((BYTE, plane, at, byte) for at in (0, 1) for plane, byte in enumerate(planes)))
        for mode in MODES:
            calls((GC_FIELD, MODE, mode), (SHOW, 1), (SHOW, 0))
    case("remade, it is FFFFFFFF in the standard modes, and in Chain4 as before")
    call(10, 1)
    for mode in STANDARD, UNUSED, CHAIN4:
        calls((GC_FIELD, MODE, mode), (SHOW, 1))
    call(DIGEST)


def in_every_mode(*offsets):
    """Shows in every shift mode, the older one last in each; then the whole state."""
    for mode in MODES:
        calls((GC_FIELD, MODE, mode), *((SHOW, at) for at in offsets), (OLDER, offsets[0]))
    call(DIGEST)


def bad_records():
    lend_all(2)
    stir([0, 1])
    masked()
    for name, (field, value) in zip(NAMES, ABOVE):
        case(f"{name} {value}, then 255: 6 in every shift mode, at 0, n - 1, n and 2^64 - 1; {value - 1}: answered")
        bad_record(field, value)
        in_every_mode(0, 1, 2, LAST)
        call(GC_FIELD, field, 255)
        in_every_mode(0, 2)
        call(GC_FIELD, field, value - 1)
        in_every_mode(0, 1, 2)
    start()
    for name, register, most in zip(SEQ_NAMES, range(2, 7), AT_BOUND):
        case(f"sequencer {name} {most + 1}, then 255: 6 in every shift mode, at 0, n - 1, n and 2^64 - 1; {most}: answered")
        masked()
        call(SEQ_FIELD, register, most + 1)
        in_every_mode(0, 1, 2, LAST)
        call(SEQ_FIELD, register, 255)
        in_every_mode(0, 2)
        call(SEQ_FIELD, register, most)
        in_every_mode(0, 1, 2)
    case("every register of both records at its bound: answered")
    calls(*((GC_FIELD, field, value - 1) for field, value in ABOVE), *((SEQ_FIELD, 2 + register, most) for register, most in enumerate(AT_BOUND)))
    in_every_mode(0, 1, 2)


def bad_lengths():
    start()
    for lent in [(0, 0, 0, 0, 0), *(tuple(2 + more * (which == plane) for plane in range(4)) + (16,) for which in range(4) for more in (-1, 1)),
                 (2, 2, 2, 2, 15), (2, 2, 2, 2, 17), (2, 2, 2, 2, 0), (65537, 65537, 65537, 65537, 524296)]:
        case(f"lengths {' '.join(map(str, lent))}: 1 in every shift mode, at 0 and past the planes")
        lend(*lent)
        in_every_mode(0, 65537, LAST)
    case("more than one at once: 6 before 1, by either record; 1 before 5")
    lend(2, 1, 2, 2, 16)
    call(GC_FIELD, 2, 16)
    in_every_mode(0, 2)
    calls((GC_FIELD, 2, 15), (SEQ_FIELD, MAP_MASK, 16))
    in_every_mode(0, 2)
    call(SEQ_FIELD, MAP_MASK, 15)
    in_every_mode(0, 2)
    lend_all(2)


def unmoved():
    lend_all(4)
    stir(range(4))
    start()
    for memory_mode in 4, 12:
        calls((SEQ_FIELD, MEMORY_MODE, memory_mode), (SEQ_FIELD, 7, 1))
        every_count(LAST)
        for mode, name in MODES.items():
            case(f"{name}, Memory Mode {memory_mode}, latches and counters not 0, the seventh at its end, the mark set: the whole state after each show, accepted or refused")
            calls((GC_FIELD, MODE, mode), (DIGEST,))
            for at in 0, 2, 3, 4, LAST:
                calls((SHOW, at), (DIGEST,))


def among_accesses():
    case("a read, a show in each shift mode, a write of the latches: what was read is written, and each is counted once")
    lend_all(4)
    stir(range(4))
    start()
    data((6, 4), (5, 1))
    for mode in MODES:
        calls((36, mode | 1), (38, 0xA0001, 0), (SHOW, 2), (40, 0xA0003, 0, 0), (SHOW, 3), (DIGEST,))
        stir([3])
    case("a show of what a write under chain-four stored, at 0 and not at 2; a read of it; the show of the neighbour")
    masked(15, 12)
    data((8, 0xFF), (5, CHAIN4))
    calls((40, 0xA0002, 0, 0xC9), (SHOW, 0), (SHOW, 2), (38, 0xA0002, 0), (SHOW, 1), (DIGEST,))


def numbers():
    case("46 without an argument is offset 0; arguments that it has no use for; six numbers; 47 and 48, which there are not. The whole state before and after")
    lend_all(2)
    stir([0, 1])
    start()
    call(DIGEST)
    for mode in MODES:
        calls((GC_FIELD, MODE, mode), (SHOW,), (SHOW, 0, 9, 9, 9), (SHOW, 0, 0, 0, 0, 0), (47,), (47, 0), (47, 0, 0, 0, 0, 0), (48, 0), (DIGEST,))


PARTS = worked, ends, bits, chained, registers, pictures, bad_records, bad_lengths, unmoved, among_accesses, numbers
