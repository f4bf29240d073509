"""What stores answer (K6): how many of the eight bits of each plane changed. Where a comment has numbers by fours, the stores after it answer them in turn.
It comes last, so that older lines keep their numbers, and at offsets from 2 on: what comes after it looks at 0 and 1."""
from .graphics import ABOVE, NAMES, bad_record, data, of_mode
from .sequencer import AT_BOUND, NAMES as SEQ_NAMES, masked
from .words import BYTE, DIGEST, GC_FIELD, HUGE, SEQ_FIELD, call, calls, case, fill, lend, lend_all

# bytes with 0 to 8 ones
ONES = [0x00, 0x10, 0x81, 0x54, 0xA5, 0x9D, 0x7E, 0xFB, 0xFF]
# planes 0 to 3 in which FF changes 4, 3, 2 and 1 bits
STEPS = [0x0F, 0x1F, 0x3F, 0x7F]
# 3F over F1: the bits that each operation changes. The byte handed in, the one put down and what differs have each another count of ones
OLD, NEW = 0xF1, 0x3F
VRAM_STORES = {6: 5, 7: 5, 8: 2, 9: 3}
SEQ_STORES = {24: 5, 25: 2, 26: 3}
NONE = "0 0 0 0"


def put(at, planes):
    """A byte of each plane; the pixels stay."""
    calls(*((BYTE, plane, at, byte) for plane, byte in enumerate(planes)))


def twice(*store):
    """The second changes nothing."""
    calls(store, store)


def left(at):
    """The planes and the pixels at an offset."""
    calls(*((1, plane, at) for plane in range(4)), (5, at))


def alone(plane, number):
    """The four numbers of a store into one plane."""
    return " ".join(str(number if p == plane else 0) for p in range(4))


def documented():
    lend_all(16)
    fill([2, 4, 5], [0] * 4, 0)
    case("document 01's case 11, at offset 2: 8 0 8 0, and the same write again: 0 0 0 0")
    masked(7)
    of_mode(2, (8, 0xFF))
    twice(40, 0xA0002, 0, 5)
    left(2)
    case("its case 10 with byte FF: 0 8 0 0, again: 0 0 0 0; then with byte 77: 0 2 0 0, again: 0 0 0 0")
    masked(0, 12)
    of_mode(0, (8, 0xFF))
    twice(40, 0xA0005, 0, 0xFF)
    twice(40, 0xA0005, 0, 0x77)
    left(4)
    left(5)
    call(DIGEST)


def every_number():
    masked()
    of_mode(0, (8, 0xFF))
    for first in range(9):
        numbers = [(first + 2 * plane) % 9 for plane in range(4)]
        case(f"a write of 96 over bytes that differ from it in so many bits: {' '.join(map(str, numbers))}, again: {NONE}")
        put(3, [0x96 ^ ONES[number] for number in numbers])
        twice(40, 0xA0003, 0, 0x96)
    for operation, a0 in (7, ()), (24, (0,)):
        for plane in range(4):
            case(f"operation {operation}, plane {plane}: {', '.join(alone(plane, number) for number in range(9))}")
            for ones in ONES:
                calls((BYTE, plane, 3, 0x69 ^ ones), (operation, plane, 3, *a0, 0x69))
    calls(*((GC_FIELD, 11 + plane, 0xFF * (plane % 2)) for plane in range(4)))
    data((1, 15), (0, 5))
    for i in range(8):
        case(f"bit {i} alone, set in planes 0 and 2 and cleared in 1 and 3 by Bit Mask: 1 1 1 1, again: {NONE}")
        data((8, 1 << i))
        put(3, [0x00, 0xFF, 0x00, 0xFF])
        twice(40, 0xA0003, 0, 0)
    call(DIGEST)


def every_mode():
    for map_mask, bit_mask in (15, 0xFF), (15, 0x3C), (6, 0x7E):
        masked(map_mask)
        for mode in range(4):
            of_mode(mode, (8, bit_mask), (1, 9), (0, 5))
            calls(*((GC_FIELD, 11 + plane, byte) for plane, byte in enumerate((0x5A, 0x3C, 0xC3, 0xA5))))
            for function in range(4):
                case(f"write mode {mode}, function {function}, Map Mask {map_mask}, Bit Mask {bit_mask:02X}, rotate 3, Enable 9, Set/Reset 5: 8E, then again")
                data((3, function << 3 | 3))
                put(5, [0x55, 0x0F, 0x33, 0x00])
                twice(40, 0xA0005, 0, 0x8E)
                call(DIGEST)


def latched():
    masked()
    for words, byte, mode, *pairs in [("mode 1", 0xFF, 1), ("mode 3, byte 00", 0x00, 3, (0, 15), (8, 0xFF)), ("mode 3, Bit Mask 00", 0xFF, 3, (0, 15)),
                                      ("mode 0, Bit Mask 00", 0xFF, 0), ("mode 2, Bit Mask 00", 0x0F, 2)]:
        case(f"{words}: the latches of offset 6 back to it: {NONE}; to 7: 4 8 2 1, again: {NONE}")
        put(6, [0x12, 0x34, 0x56, 0x78])
        put(7, [0x12 ^ ONES[4], 0x34 ^ ONES[8], 0x56 ^ ONES[2], 0x78 ^ ONES[1]])
        of_mode(mode, *pairs)
        calls((38, 0xA0006, 0), (40, 0xA0006, 0, byte))
        twice(40, 0xA0007, 0, byte)
        left(7)
    call(DIGEST)


def chained():
    """At 9, 10 and 11 the planes have 00: a number from there would be 8."""
    for at in 9, 10, 11:
        put(at, [0] * 4)
    for memory_mode, a0 in (12, 0), (8, 1):
        masked(0, memory_mode)
        of_mode(0, (8, 0xFF))
        for low in range(4):
            case(f"Memory Mode {memory_mode}, offset {8 + low}, a write of FF over 0F 1F 3F 7F at 8: {alone(low, 4 - low)}, again: {NONE}")
            put(8, STEPS)
            twice(40, 0xA0008 + low, 0, 0xFF)
            left(8)
        for operation, number in SEQ_STORES.items():
            for low in range(4):
                answers = ", ".join(alone(plane, number if plane == low else 0) for plane in range(4))
                case(f"Memory Mode {memory_mode}, operation {operation} at {8 + low}, each plane named in turn: {answers}")
                put(8, [OLD] * 4)
                calls(*((operation, plane, 8 + low, a0, NEW) for plane in range(4)), (DIGEST,))
        case(f"Memory Mode {memory_mode}: vram's own stores take offset 9 as it stands: 0 6 0 0, 0 2 0 0, 0 4 0 0, 0 8 0 0")
        calls((6, 1, 9, 0x3F), (7, 1, 9, 0x3C), (8, 1, 9, 0xC3), (9, 1, 9, 0xFF))
        left(9)
        put(9, [0] * 4)
        call(DIGEST)
    unvisited()
    near_the_end()


def unvisited():
    masked(15, 12)
    of_mode(0x10, (6, 6), (8, 0xFF))
    for address in range(8, 12):
        for page in 0, 1:
            plane = (address - address % 2 + page) % 4
            number = 8 if page == address % 2 else 0
            case(f"chain-four, GC odd/even and chain odd/even, address {address}, page {page}: plane {plane}, visited where page and a0 agree: {alone(plane, number)}")
            put(8, [0] * 4)
            call(40, 0xA0000 + address, page, 0xFF)
            call(5, 8)
    call(DIGEST)


def near_the_end():
    case("chain-four, n 15: offset 14 stores at 12: 0 0 8 0, 0 0 2 0; offset 15 is refused: 0 0 0 0, 0 0 0 0")
    lend_all(15)
    put(12, [0] * 4)
    of_mode(0, (8, 0xFF))
    calls((40, 0xA000E, 0, 0xFF), (25, 2, 14, 0, 0xE7), (40, 0xA000F, 0, 0x5A), (24, 3, 15, 0, 0x5A))
    left(12)
    lend_all(16)


# Miscellaneous, an address and a page; the offsets less 8 that this address and the next three lead to
EACH, EVEN, ODD = (0, 1, 2, 3), (0, 0, 2, 2), (1, 1, 3, 3)
WINDOWS = [(4, 0xA0008, 0, EACH), (6, 0xA0008, 0, EVEN), (6, 0xA0008, 1, ODD), (0, 0xA0008, 0, EACH), (0, 0xB0008, 0, EACH), (2, 0xA0008, 0, EVEN), (2, 0xB0008, 0, ODD),
           (12, 0xB8008, 0, EACH), (14, 0xB8008, 0, EACH)]


def windows():
    for miscellaneous, address, page, leads in WINDOWS:
        where = f"Miscellaneous {miscellaneous}, {address:05X} and the next three, page {page}"
        of_mode(0, (6, miscellaneous), (8, 0xFF))
        masked(1)
        # an offset that was written before has FF already
        numbers = [4 - low if low not in leads[:i] else 0 for i, low in enumerate(leads)]
        case(f"{where}: plane 0 at each offset: {', '.join(alone(0, number) for number in numbers)}")
        calls(*((BYTE, 0, 8 + i, byte) for i, byte in enumerate(STEPS)), *((40, address + i, page, 0xFF) for i in range(4)))
        masked(1, 12)
        case(f"{where}, chain-four: {', '.join(map(alone, leads, numbers))}")
        put(8, STEPS)
        calls(*((40, address + i, page, 0xFF) for i in range(4)), (DIGEST,))


def odd_even():
    for mode, memory_mode in (0x00, 4), (0x00, 0), (0x10, 4), (0x10, 0):
        of_mode(mode, (8, 0xFF))
        for map_mask in 15, 6, 9:
            masked(map_mask, memory_mode)
            for at in 12, 13:
                # either odd/even leaves planes a0 and 2 + a0
                planes = range(4) if (mode, memory_mode) == (0, 4) else (at % 2, 2 + at % 2)
                numbers = " ".join(str(4 - plane) if plane in planes and map_mask >> plane & 1 else "0" for plane in range(4))
                case(f"Mode {mode}, Memory Mode {memory_mode}, Map Mask {map_mask}, a0 {at % 2}, FF over 0F 1F 3F 7F: {numbers}, again: {NONE}")
                put(at, STEPS)
                twice(40, 0xA0000 + at, 0, 0xFF)
                call(DIGEST)


def stopped():
    masked()
    of_mode(0, (8, 0xFF))
    for map_mask in range(16):
        numbers = " ".join(str((4 - plane) * (map_mask >> plane & 1)) for plane in range(4))
        case(f"Map Mask {map_mask}, a write of FF over 0F 1F 3F 7F: {numbers}")
        put(6, STEPS)
        calls((17, 2), (18, map_mask), (40, 0xA0006, 0, 0xFF))
    for operation, number in SEQ_STORES.items():
        for plane in range(4):
            case(f"operation {operation}, plane {plane}, stopped, then let through by Map Mask: {NONE}, {alone(plane, number)}")
            calls((BYTE, plane, 6, OLD), (18, 15 - (1 << plane)), (operation, plane, 6, 0, NEW), (18, 1 << plane), (operation, plane, 6, 0, NEW))
        left(6)
        masked()
        call(17, 2)
    call(DIGEST)


def direct():
    masked()
    for operation, number in {**VRAM_STORES, **SEQ_STORES}.items():
        a0 = (1,) if operation in SEQ_STORES else ()
        for plane in range(4):
            case(f"operation {operation}, plane {plane}, 3F over F1: {alone(plane, number)}, again: {NONE}")
            call(BYTE, plane, 9, OLD)
            twice(operation, plane, 9, *a0, NEW)
        left(9)
    for plane_and, plane_or, a0 in (8, 9, ()), (25, 26, (0,)):
        for plane in range(4):
            case(f"operations {plane_and} and {plane_or}, plane {plane}, which has F1: and FF, or 00: {NONE}, {NONE}; and 00, or FF: {alone(plane, 5)}, {alone(plane, 8)}")
            calls((BYTE, plane, 9, OLD), (plane_and, plane, 9, *a0, 0xFF), (plane_or, plane, 9, *a0, 0x00), (plane_and, plane, 9, *a0, 0x00), (plane_or, plane, 9, *a0, 0xFF))
    masked(15, 0)
    for operation, number in SEQ_STORES.items():
        for plane in range(4):
            through = [alone(plane, number * (plane % 2 == a0)) for a0 in (0, 1)]
            case(f"sequencer odd/even, operation {operation}, plane {plane}, a0 0, then 1: {', '.join(through)}")
            for a0 in 0, 1:
                calls((BYTE, plane, 9, OLD), (operation, plane, 9, a0, NEW))
        left(9)
    call(DIGEST)


def stores(plane, at):
    """Every direct store."""
    calls(*((operation, plane, at, 0xA5) for operation in VRAM_STORES), *((operation, plane, at, 0, 0xA5) for operation in SEQ_STORES))


def refused():
    lend_all(16)
    masked()
    of_mode(0, (8, 0xFF))
    case("every store would change planes of 5A at 2, and each refused one answers 0 0 0 0. Plane 4, 256 and 2^63: 4")
    put(2, [0x5A] * 4)
    for plane in 4, 256, HUGE:
        stores(plane, 2)
    case("offset n and 2^63: 3; plane 4 there: 4")
    for plane, at in (1, 16), (1, HUGE), (4, 16):
        stores(plane, at)
    case("a write in each mode outside the window, with Map Mask 0 too: 2; at n: 3; the map without a window: 2")
    for mode in range(4):
        data((5, mode))
        calls(*((40, address, 0, 0xA5) for address in (0x9FFFF, 0xB0002, HUGE + 0xA0002, 0xA0010)))
    masked(0)
    calls((40, 0x9FFFF, 0, 0xA5), (40, 0xA0010, 0, 0xA5), (24, 0, 16, 0, 0xA5))
    data((6, 8))
    calls((40, 0xB0002, 0, 0xA5), (40, 0xA0002, 0, 0xA5), (DIGEST,))
    masked()
    of_mode(0, (8, 0xFF))
    for lent in (0, 0, 0, 0, 0), (15, 16, 16, 16, 128), (16, 17, 16, 16, 128), (16, 16, 16, 16, 127), (16, 16, 16, 16, 129), (65537, 65537, 65537, 65537, 524296):
        case(f"lengths {' '.join(map(str, lent))}: 1")
        lend(*lent)
        stores(1, 2)
        call(40, 0xA0002, 0, 0xA5)
    lend_all(16)
    left(2)
    bad_records()


def bad_records():
    for name, (field, value) in zip(NAMES, ABOVE):
        case(f"{name} {value}: a write is refused with 6; vram's and the sequencer's stores know nothing of it: 0 0 8 0, 0 8 0 0")
        bad_record(field, value)
        calls((40, 0xA0002, 0, 0xA5), (6, 2, 2, 0xA5), (24, 1, 2, 0, 0xA5), (DIGEST,))
        put(2, [0x5A] * 4)
    of_mode(0, (8, 0xFF))
    for name, register, most in zip(SEQ_NAMES, range(2, 7), AT_BOUND):
        case(f"sequencer {name} {most + 1}: 6, by a write and by each direct store of the sequencer; then vram's own: 0 0 0 8")
        masked()
        calls((SEQ_FIELD, register, most + 1), (40, 0xA0002, 0, 0xA5), *((operation, 3, 2, 0, 0xA5) for operation in SEQ_STORES), (7, 3, 2, 0xA5), (DIGEST,))
        put(2, [0x5A] * 4)
    masked()


COLOURS = [0x12, 0x34, 0x56, 0x78]


def pictured(words, *store, at=10):
    """A store that changes no bit, over pixels FE that do not match; then the pixels there, and at the next offset."""
    case(f"{words}: {NONE}")
    fill([at], COLOURS, 0xFE)
    calls(store, (5, at), (4, 8 * at), (4, 8 * at + 7), (5, at + 1))


def pictures():
    case("a picture that does not match: stores that change no bit remake the eight pixels, 0CAF8650, and no other")
    fill([11], COLOURS, 0xFE)
    masked()
    for operation in 6, 7:
        pictured(f"operation {operation}", operation, 2, 10, COLOURS[2])
    for operation, byte in (8, 0xFF), (9, 0x00):
        pictured(f"operation {operation}", operation, 1, 10, byte)
    for operation, byte in (24, COLOURS[3]), (25, 0xFF), (26, 0x00):
        pictured(f"operation {operation}", operation, 3, 10, 0, byte)
    for mode in range(4):
        of_mode(mode)
        calls(*((GC_FIELD, 11 + plane, byte) for plane, byte in enumerate(COLOURS)))
        pictured(f"a write of the latches in mode {mode}", 40, 0xA000A, 0, 0xFF)
    call(DIGEST)
    unremade()
    case("planes 00, and pixels that the write would make: the planes' bits are counted, 8 0 8 0, and no pixel moves")
    masked(7)
    of_mode(2, (8, 0xFF))
    fill([10], [0] * 4, 5)
    calls((40, 0xA000A, 0, 5), (5, 10), (DIGEST,))


def unremade():
    case("where the mask stops every plane no pixel is remade: they stay FE")
    masked(0)
    for operation in SEQ_STORES:
        pictured(f"operation {operation}, Map Mask 0", operation, 0, 10, 0, 0xA5)
    for mode in range(4):
        of_mode(mode, (8, 0xFF))
        pictured(f"a write in mode {mode}, Map Mask 0", 40, 0xA000A, 0, 0xA5)
    masked(15, 12)
    for operation in SEQ_STORES:
        pictured(f"operation {operation}, chain-four at 10, plane 1", operation, 1, 10, 0, 0xA5, at=8)
    of_mode(0x10, (6, 6), (8, 0xFF))
    pictured("a write, chain-four, GC odd/even, whose plane is not visited", 40, 0xA000A, 1, 0xA5, at=8)
    masked(15, 0)
    for operation in SEQ_STORES:
        pictured(f"operation {operation}, sequencer odd/even, a0 1, plane 2", operation, 2, 10, 1, 0xA5)
    masked(5, 4)
    of_mode(0x10, (8, 0xFF))
    pictured("a write at 11, GC odd/even, which visits planes 1 and 3, Map Mask 5", 40, 0xA000B, 0, 0xA5, at=11)
    call(DIGEST)


def ends():
    case("n 65,536: FF over 0F 1F 3F 7F at its end, by vram, by the sequencer, by a write, and under chain-four: 4 0 0 0, 0 3 0 0, 0 0 2 1, 0 0 0 1")
    lend_all(65536)
    masked()
    of_mode(0, (8, 0xFF))
    put(65535, STEPS)
    put(65532, STEPS)
    calls((7, 0, 65535, 0xFF), (24, 1, 65535, 0, 0xFF), (40, 0xAFFFF, 0, 0xFF))
    masked(15, 12)
    call(40, 0xAFFFF, 0, 0xFF)
    left(65535)
    left(65532)
    case("n 3, at its end: 4 3 2 1")
    lend_all(3)
    masked()
    put(2, STEPS)
    calls((40, 0xA0002, 0, 0xFF), (DIGEST,))


PARTS = documented, every_number, every_mode, latched, chained, windows, odd_even, stopped, direct, refused, pictures, ends
