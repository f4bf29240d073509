"""Every call of graphics_controller: ports, addresses, accesses in every mode, shows, records and lengths that are refused."""
from .sequencer import AT_BOUND, NAMES as SEQ_NAMES, masked
from .words import BYTE, DIGEST, GC_FIELD, HUGE, SEQ_FIELD, call, calls, case, fill, lend, lend_all, seen

NAMES = ["GC address", "Set/Reset", "Enable", "Compare", "Don't Care", "map select"]
ABOVE = [(0, 16), (2, 16), (3, 16), (4, 16), (9, 16), (6, 4)]


def data(*pairs):
    for register, byte in pairs:
        calls((35, register), (36, byte))


def of_mode(mode, *pairs):
    """A fresh record with the window A0000..AFFFF, a mode and more."""
    call(27)
    data((6, 4), (5, mode), *pairs)


def write(address, byte, n, at):
    call(40, address, 0, byte)
    seen(n, at)


def read(address):
    calls((38, address, 0), (39, address, 0), (DIGEST,))


def ports():
    lend_all(2)
    case("FF written to each register: address and data read back; from 9 on the selection stays")
    for address in [*range(16), 0x13]:
        data((address, 0xFF))
        calls((33,), (34,))
    case("5A to Data Rotate by address 3, A5 to it by address 11")
    for address, byte in (3, 0x5A), (11, 0xA5):
        data((address, byte))
        calls((33,), (34,))
    call(DIGEST)
    case("chain, chain4, memory_map, odd_even, shift_mode")
    for mode, miscellaneous in (0, 0), (0x30, 6), (0x40, 9), (0x6F, 0x0C), (0xFF, 0xFF):
        of_mode(mode, (6, miscellaneous))
        calls((28,), (29,), (30,), (31,), (32,))
    case("reset: of that record, of one with full counters, of one that no port can set")
    for fields in (), range(15, 21), (2,):
        calls(*((GC_FIELD, field, 2 ** 32 - 1) for field in fields), (27,), (DIGEST,))


def addresses():
    case("map_address: the windows' ends, chain odd/even, the page bit, the map without a window")
    for miscellaneous, address, page in [
            (0, 0x9FFFF, 0), (0, 0xA0000, 0), (0, 0xBFFFF, 0), (0, 0xC0000, 0), (2, 0xA0001, 0), (2, 0xA0001, 1), (2, 0xB0001, 0),
            (2, 0xB0000, 0), (2, 0xA4000, 0), (4, 0x9FFFF, 0), (4, 0xA0000, 1), (4, 0xAFFFF, 0), (4, 0xB0000, 0), (6, 0xA0001, 0),
            (6, 0xA0001, 1), (6, 0xA0000, 1), (8, 0xB0000, 0), (8, 0xA0000, 0), (12, 0xB7FFF, 0), (12, 0xB8000, 0), (12, 0xBFFFF, 1),
            (12, 0xC0000, 0), (14, 0xB8001, 1), (0, 0, 0), (0, HUGE, 0), (4, HUGE + 0xA0000, 0)]:
        call(27)
        data((6, miscellaneous))
        call(37, address, page)


def modes():
    case("mode 2, Bit Mask FF, Map Mask 7: document 01's case 11; then a read")
    fill([0, 1], [0] * 4, 0)
    masked(7)
    of_mode(2, (8, 0xFF))
    write(0xA0000, 5, 2, 0)
    masked()
    read(0xA0000)
    case("mode 0, rotate 1, Xor, Bit Mask 3C, Enable 2, Set/Reset 2")
    data((5, 0), (3, 0b11001), (8, 0x3C), (1, 2), (0, 2))
    write(0xA0001, 0x2D, 2, 1)
    for mode, address, byte in (1, 0xA0001, 0x81), (3, 0xA0000, 0xEE):
        case(f"mode {mode}")
        data((5, mode))
        write(address, byte, 2, address - 0xA0000)
    case("every mode with every function, latches AA, Bit Mask 3C, Set/Reset 1 on planes 0 and 3")
    for mode in range(4):
        for function in range(4):
            fill([0], [0x55, 0x0F, 0x33, 0x00], 0x0E)
            of_mode(mode, (3, function << 3 | 7), (8, 0x3C), (1, 9), (0, 1))
            calls(*((GC_FIELD, 11 + plane, 0xAA) for plane in range(4)))
            write(0xA0000, 0x86, 2, 0)
    case("every rotation of 81: document 01's case 7 has 0, 1 and 7")
    for count in range(8):
        of_mode(0, (3, count), (8, 0xFF))
        write(0xA0000, 0x81, 2, 0)


def reads():
    case("document 01's case 9: planes F0, CC, AA, 00, compare 3; Don't Care F, 3, 0")
    fill([0], [0xF0, 0xCC, 0xAA, 0x00], 0)
    fill([1], [1, 2, 3, 4], 0)
    for care in 0x0F, 0x03, 0x00:
        of_mode(8, (2, 3), (7, care))
        read(0xA0000)
    case("each map select, then each with GC odd/even: it has a0 for its low bit")
    for mode in 0x00, 0x10:
        for select in 2, 1, 0, 3:
            of_mode(mode, (4, select))
            read(0xA0000)
            read(0xA0001)
    case("a compare read with GC odd/even, and a read and a peek with chain-four: plane 1 at offset 0")
    of_mode(0x18, (2, 3), (7, 15))
    read(0xA0001)
    masked(15, 12)
    of_mode(0, (4, 1))
    read(0xA0001)


def one_plane():
    """It comes last, so that older lines keep their numbers, and at offset 2, which nothing after it looks at."""
    case("case 9 a plane at a time: planes F0, CC, AA, 00 at offset 2, compare 3")
    fill([2], [0xF0, 0xCC, 0xAA, 0x00], 0)
    for plane, byte in enumerate(("F0", "CC", "55", "FF")):
        case(f"Don't Care {1 << plane}: plane {plane} alone is compared, and agrees at {byte}")
        of_mode(8, (2, 3), (7, 1 << plane))
        read(0xA0002)
    case("compare B, Don't Care 8: plane 3 is to have 1, and agrees nowhere. Under compare 3 it agrees everywhere, as a plane does that is not looked at")
    of_mode(8, (2, 0xB), (7, 8))
    read(0xA0002)


def masks():
    lend_all(8)
    case("Mode, Memory Mode, Map Mask: a write of 5A, Bit Mask FF, over a picture that does not match")
    fill(range(8), [0] * 4, 0x0E)
    every = [(gc, seq, 15, at) for gc in (0, 0x10) for seq in (0, 4, 8, 12) for at in (4, 5, 6, 7)]
    for mode, memory_mode, map_mask, at in [(0, 12, 0, 5), (0, 0, 15, 1), (0, 0, 15, 2), (0x10, 4, 15, 3), (0x10, 4, 3, 0), (0, 4, 0, 0),
                                            (0x10, 4, 10, 0), (0x10, 12, 15, 5), (0x10, 12, 15, 6), *every]:
        case(f"Mode {mode}, Memory Mode {memory_mode}, Map Mask {map_mask}, offset {at}")
        masked(map_mask, memory_mode)
        of_mode(mode, (8, 0xFF))
        stored = at - at % 4 if memory_mode & 8 else at
        write(0xA0000 + at, 0x5A, 8, stored)
        fill([stored], [0] * 4, 0x0E)


def counters():
    case("counters at 4,294,967,295: writes of modes 0 to 3, reads of modes 0 and 1")
    lend_all(1)
    masked()
    for mode, writes in (0, True), (1, True), (2, True), (3, True), (0, False), (8, False):
        of_mode(mode)
        calls(*((GC_FIELD, counter, 2 ** 32 - 1) for counter in range(15, 21)))
        call(*((40, 0xA0000, 0, 0) if writes else (38, 0xA0000, 0)))
        calls((39, 0xA0000, 0), (DIGEST,))


def outside():
    case("outside the window and at an offset of n or more, whatever the mode and the mask: nothing moves but the count of accesses turned away")
    lend_all(2)
    fill([0, 1], [0x12, 0x34, 0x56, 0x78], 0x0E)
    for mode, map_mask, address in [(0, 15, 0x9FFFF), (0, 15, 0xB0000), (0, 15, 0xA0002), (3, 15, 0xA0002), (0, 0, 0xAFFFF), (8, 15, HUGE)]:
        masked(map_mask)
        of_mode(mode)
        calls((38, address, 0), (39, address, 0), (DIGEST,), (40, address, 0, 0x5A), (DIGEST,))
    case("map B0000 has no window")
    of_mode(0, (6, 8))
    calls((38, 0xB0000, 0), (39, 0xB0000, 0), (40, 0xB0000, 0, 0x5A), (DIGEST,))
    case("chain-four: the offset is judged before its low bits are cleared")
    masked(15, 12)
    of_mode(0)
    calls((38, 0xA0002, 0), (39, 0xA0002, 0), (40, 0xA0002, 0, 0x5A), (DIGEST,))


def shows():
    case("shows in each shift mode: offsets 0, 1, n, 2^63")
    masked()
    calls(*((BYTE, 4, place, place) for place in range(16)))
    for mode in 0x00, 0x20, 0x40, 0x60:
        of_mode(mode)
        calls((41, 0), (41, 1), (41, 2), (41, HUGE))
    call(DIGEST)


def on_memory():
    """Read, peek, write, show."""
    calls((38, 0xA0000, 0), (39, 0xA0000, 0), (40, 0xA0000, 0, 0xFF), (41, 0), (DIGEST,))


def bad_record(field, value):
    """The window A0000..AFFFF, a field as no port need have set it, latches 11, 22, 33, 44."""
    call(27)
    data((6, 4))
    calls((GC_FIELD, field, value), *((GC_FIELD, 11 + plane, 0x11 * (plane + 1)) for plane in range(4)))


def refusals():
    lend_all(1)
    fill([0], [0x12, 0x34, 0x56, 0x78], 0x0E)
    for name, (field, value) in zip(NAMES, ABOVE):
        case(f"{name} {value}: the five fields, the four ports, map_address; read, peek, write, show")
        bad_record(field, value)
        calls((28,), (29,), (30,), (31,), (32,), (33,), (34,), (35, 3), (36, 3), (37, 0xA0000, 0), (DIGEST,))
        on_memory()
        case(f"{name} {value - 1}")
        bad_record(field, value - 1)
        calls((28,), (33,), (34,), (37, 0xA0000, 0))
        on_memory()
        fill([0], [0x12, 0x34, 0x56, 0x78], 0x0E)
    for name, register, most in zip(SEQ_NAMES, range(2, 7), AT_BOUND):
        case(f"sequencer {name} {most + 1}: read, peek, write, show")
        call(27)
        data((6, 4))
        masked()
        call(SEQ_FIELD, register, most + 1)
        on_memory()


def lengths():
    masked()
    for lent in [(1, 1, 1, 1, 8), (2, 2, 2, 2, 16), (0, 0, 0, 0, 0), (2, 1, 1, 1, 8), (1, 2, 1, 1, 8), (1, 1, 2, 1, 8), (1, 1, 1, 2, 8),
                 (1, 1, 1, 1, 7), (1, 1, 1, 1, 9), (65537, 65537, 65537, 65537, 524296), (65536, 65536, 65536, 65536, 524288)]:
        case(f"lengths {' '.join(map(str, lent))}: read, peek, write, show")
        lend(*lent)
        fill([0, 1], [0x12, 0x34, 0x56, 0x78], 0x0E)
        call(27)
        data((6, 4))
        on_memory()
    case("n 65,536, at its end")
    calls((40, 0xAFFFF, 0, 0xFF), (38, 0xAFFFF, 0), (39, 0xAFFFF, 0), (41, 65535), (41, 65536), (DIGEST,))


def orders():
    case("more than one at once: 6 before 1, 1 before 9, 9 before 5, 1 before 2, 2 before 3")
    lend(2, 2, 1, 2, 16)
    bad_record(2, 16)
    calls((38, 0, 0), (40, 0, 0, 0), (41, 2))
    of_mode(0x20)
    calls((38, 0, 0), (39, 0, 0), (40, 0, 0, 0), (41, 2))
    lend_all(2)
    calls((41, 2), (38, 0xB0002, 0), (40, 0xB0002, 0, 0), (39, 0xB0002, 0), (DIGEST,))


# addresses of the 128K window, and the offset that each leads to under chain odd/even: its bit 16 goes to bit 0, whatever its bit 14
CHAINED = [(0xA0000, 0), (0xA4000, 0x4000), (0xA4001, 0x4000), (0xAC001, 0xC000), (0xB0000, 1), (0xB0001, 1), (0xB4000, 0x4001),
           (0xBC001, 0xC001), (0xBFFFF, 0xFFFF)]
# addresses with bit 14 set that no window has: up to FFFF, and past 32 bits
UNMAPPED = [0x4000, 0x7FFF, 0xFFFF, 0x1000A4000, HUGE + 0xA4000, 2 ** 64 - 1]


def bit_14():
    for miscellaneous in 2, 3:
        case(f"128K, chain odd/even, Miscellaneous {miscellaneous}: bits 14 and 16 set and clear, the window's ends, addresses outside it; both pages")
        call(27)
        data((6, miscellaneous))
        for address in [*(address for address, _ in CHAINED), 0x9FFFF, 0xC0000, 0x1000A0000, *UNMAPPED]:
            calls((37, address, 0), (37, address, 1))
    lend_all(65536)
    masked()
    for miscellaneous in 2, 3:
        case(f"Miscellaneous {miscellaneous}: each address written, read and peeked in both pages; planes 0 and 3 at its offset, plane 0 at the neighbour")
        call(27)
        data((6, miscellaneous), (8, 0xFF))
        for byte, (address, offset) in enumerate(CHAINED, 16 * miscellaneous):
            for page in 0, 1:
                calls((40, address, page, byte + 128 * page), (38, address, page), (39, address, page))
                calls((1, 0, offset), (1, 3, offset), (1, 0, offset ^ 1))
        call(DIGEST)
        for address in UNMAPPED:
            calls((38, address, 0), (39, address, 1), (40, address, 0, 0x5A))
        call(DIGEST)
    case("offsets 0 and 1 as they were before")
    fill([0, 1], [0x12, 0x34, 0x56, 0x78], 0x0E)
    call(10, 0)


# planes 0 to 3 of K1's worked example
BARS = [0x11, 0x22, 0x44, 0x88]


def shade(mode, byte, at, stored, *pairs):
    """A bar in write mode 3, over BARS and pixels that do not match them, which are in the latches."""
    fill(sorted({at, stored}), BARS, 0x0E)
    of_mode(mode, *pairs)
    call(38, 0xA0000 + at, 0)
    write(0xA0000 + at, byte, 8, stored)


def mode_3():
    """It comes last, so that older lines keep their numbers. Nothing after it looks at offsets from 2 on."""
    lend_all(8)
    masked()
    for enable in 0, 15:
        for function, planes in enumerate(("1D 22 4C 80", "11 22 44 80", "1D 22 4C 88", "1D 22 48 88")):
            case(f"write mode 3, function {function}, Enable {enable}, Set/Reset 5, rotate 4, Bit Mask 3C, byte F0 over 11 22 44 88: {planes}")
            shade(3, 0xF0, 2, 2, (0, 5), (1, enable), (3, function << 3 | 4), (8, 0x3C))
    case("rotate 3, Bit Mask FF, byte 1D over the same: turned right it is A3, and the planes become B3 00 E7 08")
    shade(3, 0x1D, 2, 2, (0, 5), (3, 3), (8, 0xFF))
    every_function()
    same_bytes()
    shaded_masks()
    refused_bars()


def every_function():
    case("every function with every rotation, Set/Reset 5, then A: latches 5A 3C C3 A5, Bit Mask 7E, byte 1D")
    fill([2], [0x5A, 0x3C, 0xC3, 0xA5], 0x0E)
    of_mode(3, (8, 0x7E))
    call(38, 0xA0002, 0)
    for set_reset in 5, 10:
        data((0, set_reset))
        for data_rotate in range(32):
            data((1, data_rotate % 16), (3, data_rotate))
            calls((40, 0xA0003, 0, 0x1D), *((1, plane, 3) for plane in range(4)), (DIGEST,))


def same_bytes():
    case("byte 00 stores the latches: over the same bytes, where the pixels are remade too, then over other bytes")
    fill([3], [1, 2, 4, 8], 0x0E)
    shade(3, 0, 2, 2, (0, 15), (8, 0xFF))
    write(0xA0003, 0, 8, 3)
    case("Map Mask 0: nothing is stored, no pixel remade, and the write is counted")
    masked(0)
    shade(3, 0xFF, 2, 2, (0, 15), (8, 0xFF))


def shaded_masks():
    for mode in 0x03, 0x13:
        for memory_mode, map_mask in (0, 15), (4, 15), (8, 15), (12, 15), (4, 6), (0, 6):
            for at in 5, 6:
                case(f"Mode {mode}, Memory Mode {memory_mode}, Map Mask {map_mask}, offset {at}: Set/Reset 6, Xor, rotate 2, Bit Mask 7E, byte C9")
                masked(map_mask, memory_mode)
                shade(mode, 0xC9, at, at - at % 4 if memory_mode & 8 else at, (0, 6), (3, 0x1A), (8, 0x7E))


def refused_bars():
    case("write mode 3 is refused as the others are: 2, 3 (with a mask of 00 and with Map Mask 0 too), 6, 1. Nothing moves")
    masked()
    of_mode(3, (0, 15), (8, 0xFF))
    calls((40, 0x9FFFF, 0, 0xFF), (40, 0xB0000, 0, 0xFF), (40, 0xA0008, 0, 0xFF), (40, 0xA0008, 0, 0))
    masked(0)
    calls((40, 0xA0008, 0, 0xFF), (DIGEST,))
    masked()
    calls((GC_FIELD, 2, 16), (40, 0xA0002, 0, 0xFF), (GC_FIELD, 2, 15), (DIGEST,))
    lend(8, 8, 8, 7, 64)
    call(40, 0xA0002, 0, 0xFF)
    lend_all(8)
    call(DIGEST)


# planes 0 to 3 of K4's worked example at 4 and 5, and others at 6 and 7
COLOURS = {4: [0x10, 0x11, 0x12, 0x13], 5: [0xF0, 0xCC, 0xAA, 0x00], 6: [0x21, 0x22, 0x24, 0x28], 7: [0x0F, 0x33, 0x55, 0xFF]}
# Miscellaneous, the addresses that lead to offset 0: each window, those at A0000 with chain odd/even and without
WINDOWS = [(4, [0xA0000]), (6, [0xA0000]), (0, [0xA0000, 0xB0000]), (2, [0xA0000, 0xB0000]), (14, [0xB8000])]
# Mode and more: a selected-plane read of map select 2, with GC odd/even too; a compare read of colour 3 over all planes, with GC odd/even
READS = [(0, (4, 2)), (0x10, (4, 2)), (0x18, (2, 3), (7, 15))]


def coloured():
    for at, planes in COLOURS.items():
        fill([at], planes, 0x0E)


def look(address, page=0):
    calls((38, address, page), (39, address, page), (DIGEST,))


def chain_four():
    """It comes last, so that older lines keep their numbers. Nothing after it looks at offsets from 2 on."""
    lend_all(8)
    coloured()
    case("10 11 12 13 at 4, F0 CC AA 00 at 5, map select 2, A0005. Memory Mode 12, then 8: a read and a peek of 11, latches 10 11 12 13; then 4 and 0: AA, F0, latches F0 CC AA 00")
    for memory_mode in 12, 8, 4, 0:
        masked(15, memory_mode)
        of_mode(0, (4, 2))
        look(0xA0005)
    case("with chain-four clear, GC odd/even and chain odd/even: a0 leads map select 2 to plane 2 or 3, at the offset whose bit 0 is the page bit, or bit 16 of the address")
    masked()
    for miscellaneous, firsts in (6, [0xA0000]), (2, [0xA0000, 0xB0000]):
        of_mode(0x10, (6, miscellaneous), (4, 2))
        for first in firsts:
            each_low_bits(first)
    for memory_mode in 12, 8:
        masked(15, memory_mode)
        every_window(memory_mode)
        every_select(memory_mode)
        copied(memory_mode)
        at_the_end(memory_mode)
    direct_reads()


def every_window(memory_mode):
    for mode, *pairs in READS:
        registers = ", ".join(f"{byte} in register {register}" for register, byte in pairs)
        for miscellaneous, firsts in WINDOWS:
            case(f"Memory Mode {memory_mode}, Mode {mode}, {registers}, Miscellaneous {miscellaneous}: each pair of low bits, both pages")
            of_mode(mode, (6, miscellaneous), *pairs)
            for first in firsts:
                each_low_bits(first)
    for plane in range(4):
        case(f"Memory Mode {memory_mode}, a compare read of colour 3 over plane {plane} alone: each pair of low bits, both pages")
        of_mode(8, (2, 3), (7, 1 << plane))
        each_low_bits(0xA0000)


def each_low_bits(first):
    for at in range(4, 8):
        look(first + at)
        look(first + at, 1)


def every_select(memory_mode):
    case(f"Memory Mode {memory_mode}, each map select, with GC odd/even and without: A0005 and A0006 are planes 1 and 2 at 4")
    for mode in 0x00, 0x10:
        for select in range(4):
            of_mode(mode, (4, select))
            look(0xA0005)
            look(0xA0006)


def copied(memory_mode):
    case(f"Memory Mode {memory_mode}, write mode 1: A0007 is read, which loads 10 11 12 13, and each of A0008 to A000B written; then A0005 is read back, after FF was written there")
    lend_all(12)
    of_mode(1)
    call(38, 0xA0007, 0)
    for at in range(8, 12):
        write(0xA0000 + at, 0xFF, 12, 8)
    of_mode(0, (8, 0xFF))
    write(0xA0005, 0xFF, 12, 4)
    look(0xA0005)
    coloured()


def at_the_end(memory_mode):
    for n in 5, 6, 7:
        case(f"Memory Mode {memory_mode}, n {n}: offset {n - 1} is read at 4; offset {n} is refused, though 4 is within")
        lend_all(n)
        of_mode(0)
        look(0xA0000 + n - 1)
        look(0xA0000 + n)
        call(40, 0xA0000 + n, 0, 0x5A)
        of_mode(8, (7, 15))
        look(0xA0000 + n - 1)
        look(0xA0000 + n)
    lend_all(8)


def direct_reads():
    case("Memory Mode 12, then 8: direct plane reads of plane 2 at 5 and shows keep plane and offset; gc_read_u8 as the Rust's text")
    of_mode(0)
    call(10, 5)
    for memory_mode in 12, 8:
        masked(15, memory_mode)
        calls((1, 2, 5), (2, 2, 5), (3, 5), (4, 40), (5, 5), (19, 2, 5, 1), (20, 2, 5, 1), (21, 2, 5, 1), (22, 40), (23, 5), (41, 5), (DIGEST,))


def every_count(turned=7):
    """Latches 11, 22, 33, 44, counters 1 to 6, and so many accesses turned away."""
    calls(*((GC_FIELD, 11 + plane, 0x11 * (plane + 1)) for plane in range(4)), *((GC_FIELD, 15 + i, i + 1) for i in range(6)), (GC_FIELD, 21, turned))


def astray(*places):
    """A read and a write at each address and page, the whole state after each."""
    for address, page in places:
        calls((38, address, page), (DIGEST,), (40, address, page, 0x5A), (DIGEST,))


def turned_away():
    """It comes last, so that older lines keep their numbers. It stores nothing."""
    lend_all(8)
    masked()
    for mode in 0, 1, 2, 3, 8, 9, 10, 11:
        case(f"Mode {mode}: a read and a write refused with 2, then with 3, are counted, and nothing else moves")
        of_mode(mode)
        every_count()
        astray((0x9FFFF, 0), (0xA0008, 0))
    case("the map without a window, a page bit that leads past n, chain-four, an address past 32 bits")
    of_mode(0, (6, 8))
    every_count()
    astray((0xB0000, 0), (0xB8000, 1))
    lend_all(1)
    of_mode(0, (6, 6))
    every_count()
    astray((0xA0000, 1))
    lend_all(6)
    masked(15, 12)
    of_mode(0)
    every_count()
    astray((0xA0006, 0), (HUGE + 0xA0000, 0))
    lend_all(8)
    masked(0)
    case("Map Mask 0: a write at n is refused and counted, below n it is accepted, and counted in its mode")
    of_mode(0)
    every_count()
    calls((40, 0xA0008, 0, 0x5A), (DIGEST,), (40, 0xA0007, 0, 0x5A), (DIGEST,), (38, 0xA0007, 0), (DIGEST,))
    uncounted()
    for which, address in (38, 0x9FFFF), (38, 0xA0008), (40, 0x9FFFF), (40, 0xA0008):
        case(f"4,294,967,295 turned away and one more, by operation {which}; then another")
        of_mode(0)
        every_count(2 ** 32 - 1)
        calls(*[(which, address, 0) + (0x5A,) * (which == 40), (DIGEST,)] * 2)
    case("the sequencer's reset leaves the count, the controller's clears it; then one is turned away")
    every_count()
    calls((11,), (DIGEST,), (27,), (DIGEST,), (38, 0, 0), (DIGEST,))
    masked()


def uncounted():
    case("no peek is counted, no map_address, no show, no direct call, no port")
    of_mode(0)
    every_count()
    calls((39, 0x9FFFF, 0), (39, 0xA0008, 0), (37, 0x9FFFF, 0), (41, 8), (DIGEST,))
    calls((1, 0, 8), (1, 4, 0), (6, 0, 8, 0x5A), (10, 8), (4, 64), (19, 0, 8, 0), (21, 4, 0, 0), (24, 0, 8, 0, 0x5A), (22, 64), (DIGEST,))
    data((5, 0x20))
    calls((41, 0), (33,), (34,), (15,), (16,), (DIGEST,))
    for name, (field, value) in zip(NAMES, ABOVE):
        case(f"{name} {value}: 6 is not counted, within the window, outside it and past n")
        bad_record(field, value)
        every_count()
        calls(*((38, address, 0) for address in (0xA0000, 0x9FFFF, 0xA0008)), *((40, address, 0, 0x5A) for address in (0xA0000, 0x9FFFF, 0xA0008)), (DIGEST,))
    of_mode(0)
    every_count()
    for name, register, most in zip(SEQ_NAMES, range(2, 7), AT_BOUND):
        case(f"sequencer {name} {most + 1}: 6 is not counted")
        masked()
        call(SEQ_FIELD, register, most + 1)
        calls((38, 0xA0000, 0), (38, 0x9FFFF, 0), (40, 0x9FFFF, 0, 0x5A), (40, 0xA0008, 0, 0x5A), (DIGEST,))
    masked()
    case("lengths that are refused: 1 is not counted")
    for lent in (0, 0, 0, 0, 0), (8, 7, 8, 8, 64), (8, 8, 8, 7, 64), (8, 8, 8, 8, 63), (65537, 65537, 65537, 65537, 524296):
        lend(*lent)
        calls((38, 0xA0000, 0), (38, 0x9FFFF, 0), (40, 0x9FFFF, 0, 0x5A), (40, 0xA0008, 0, 0x5A), (DIGEST,))
    lend_all(8)


PARTS = ports, addresses, modes, reads, masks, counters, outside, shows, refusals, lengths, orders, bit_14, one_plane, mode_3, chain_four, turned_away
