"""Every call of the sequencer: ports, reads, stores through the mask, records and lengths that are refused."""
from .words import BYTE, DIGEST, HUGE, SEQ_FIELD, call, calls, case, fill, lend, lend_all, seen

AT_BOUND = [3, 63, 15, 63, 63]
NAMES = ["Reset", "Clocking Mode", "Map Mask", "Character Map Select", "Memory Mode"]


def data(address, byte):
    calls((17, address), (18, byte))


def masked(map_mask=15, memory_mode=4):
    """A fresh record with a Map Mask and a Memory Mode: all planes and sequential, where none is named."""
    call(11)
    data(2, map_mask)
    data(4, memory_mode)


def record(registers, more=()):
    """A record that no port need have made."""
    calls((11,), *((SEQ_FIELD, 2 + register, value) for register, value in enumerate(registers)), *more)


def ports():
    case("the start")
    lend_all(6)
    call(DIGEST)
    for address in 0, 1, 2, 3, 4, 5, 0x12, 0xFF:
        case(f"FF written at address {address}: address and data read back")
        call(11)
        data(address, 0xFF)
        calls((15,), (16,), (DIGEST,))
    for byte in 0x00, 0x01, 0x08, 0x09, 0xC1:
        case(f"Clocking Mode {byte}: the clock")
        call(11)
        data(1, byte)
        calls((12,), (DIGEST,))
    case("the mark: set by a Clocking Mode write, polled twice, set by hand, polled; then a reset")
    data(1, 0)
    calls((14,), (14,), (13,), (14,), (DIGEST,), (18, 0xFF), (11,), (DIGEST,))


def reads():
    case("plane p has 16 p + offset at each offset; cpu_read_u8, peek_u8, gc_read_u8 twice: a0 plays no part")
    calls(*((BYTE, plane, at, 16 * plane + at) for plane in range(4) for at in range(6)))
    for title, map_mask, memory_mode, plane, at in [
            ("sequential", 15, 4, 2, 5), ("odd/even", 15, 0, 2, 5), ("sequential, chain-four", 15, 12, 2, 5),
            ("odd/even, chain-four", 15, 8, 2, 5), ("plane 3, offset 3, chain-four, Map Mask 0", 0, 12, 3, 3),
            ("plane 4", 15, 4, 4, 5), ("offset n, chain-four", 15, 12, 0, 6), ("plane 4, offset n", 15, 4, 4, 6),
            ("plane 256", 15, 4, 256, 5), ("plane 2^63", 15, 4, HUGE, 5), ("offset 2^63", 15, 4, 0, HUGE)]:
        case(title)
        masked(map_mask, memory_mode)
        calls((19, plane, at, 0), (20, plane, at, 1), (21, plane, at, 0), (21, plane, at, 1))
    case("pixel 0 is 1, pixel 40 is 2, pixel 47 is 3, the others 7: read_linear, serialize_linear")
    calls(*((BYTE, 4, place, {0: 1, 40: 2, 47: 3}.get(place, 7)) for place in range(48)))
    for map_mask, memory_mode, place, at in [(15, 4, 47, 5), (0, 12, 0, 0), (15, 12, 48, 6), (15, 4, HUGE, HUGE)]:
        masked(map_mask, memory_mode)
        calls((22, place), (23, at))
    call(DIGEST)


def stores():
    case("every byte of a plane is 0F and every pixel 9 before each store of A5; then the whole memory")
    fill(range(6), [0x0F] * 4, 9)
    for title, operation, map_mask, memory_mode, plane, at, a0 in [
            ("sequential, Map Mask F, plane 1", 24, 15, 4, 1, 5, 0), ("the same with a0", 24, 15, 4, 1, 5, 1),
            ("and", 25, 15, 4, 1, 5, 0), ("or", 26, 15, 4, 1, 5, 0), ("Map Mask D: stopped", 24, 13, 4, 1, 5, 0),
            ("and, stopped", 25, 13, 4, 1, 5, 0), ("or, stopped", 26, 13, 4, 1, 5, 0), ("odd/even, plane 0", 24, 15, 0, 0, 1, 0),
            ("odd/even, plane 1: stopped", 24, 15, 0, 1, 1, 0), ("odd/even with a0, plane 2: stopped", 24, 15, 0, 2, 1, 1),
            ("odd/even with a0, plane 3", 24, 15, 0, 3, 1, 1), ("Map Mask 7, plane 3: stopped", 24, 7, 0, 3, 1, 1),
            *((f"chain-four, Map Mask 0, at 5, plane {plane}", 24, 0, 12, plane, 5, 0) for plane in range(4)),
            ("chain-four, and, at 2", 25, 0, 12, 2, 2, 0), ("chain-four, odd/even, a0, or, at 3", 26, 0, 8, 3, 3, 1),
            ("plane 4", 24, 15, 4, 4, 5, 0), ("offset n", 24, 15, 4, 1, 6, 0), ("offset n, stopped", 24, 0, 4, 1, 6, 0),
            ("offset n, chain-four", 25, 15, 12, 2, 6, 0), ("plane 4, offset n", 26, 15, 4, 4, 6, 0),
            ("plane 256", 24, 15, 4, 256, 5, 0), ("plane 2^63", 25, 15, 4, HUGE, 5, 0), ("offset 2^63", 26, 15, 4, 1, HUGE, 0)]:
        case(title)
        masked(map_mask, memory_mode)
        call(operation, plane, at, a0, 0xA5)
        stored = at - at % 4 if memory_mode & 8 else at
        seen(6, min(stored, 5))
        fill([min(stored, 5)], [0x0F] * 4, 9)


def on_memory():
    """Every call on memory, at plane 0, offset 1, place 1; the stores in turn."""
    calls((19, 0, 1, 0), (20, 0, 1, 0), (21, 0, 1, 0), (22, 1), (23, 1))
    calls((24, 0, 1, 0, 0x3C), (25, 0, 1, 0, 0x0F), (26, 0, 1, 0, 0x80), (DIGEST,))


def every(title, registers, more=()):
    """Every call on one record: those that change it each on the record as made."""
    case(title)
    record(registers, more)
    calls((DIGEST,), (12,), (15,), (16,))
    for change in (13,), (14,), (17, 4), (18, 2):
        record(registers, more)
        calls(change, (DIGEST,))
    record(registers, more)
    fill([1], [0xF0] * 4, 9)
    on_memory()
    calls((11,), (DIGEST,))


def refusals():
    case("from here each case: clock, read_address, read_data; set, poll, write_address, write_data with the state; the calls on memory; reset")
    fill(range(6), [0xF0] * 4, 9)
    every("each register at its bound", AT_BOUND)
    for which, name in enumerate(NAMES):
        above = [most + (which == register) for register, most in enumerate(AT_BOUND)]
        every(f"{name} {above[which]}", above)
    every("all five 255", [255] * 5)
    odd = (SEQ_FIELD, 0, 255), (SEQ_FIELD, 7, 1), (SEQ_FIELD, 8, 0), (SEQ_FIELD, 9, 2 ** 32 - 1)
    every("any address, mark, divisor and clock", [0, 0, 15, 0, 4], odd)
    every("an address that did not make the selection", [0, 0, 15, 0, 4], ((SEQ_FIELD, 0, 2), (SEQ_FIELD, 1, 5)))


def lengths():
    case("from here lengths that are refused: the calls on memory")
    for title, map_mask, lent in [
            *((f"plane {which} short", 15, [6 - (which == plane) for plane in range(4)] + [48]) for which in range(4)),
            *((f"plane {which} long", 15, [6 + (which == plane) for plane in range(4)] + [48]) for which in range(4)),
            ("picture short", 15, [6] * 4 + [47]), ("picture long", 15, [6] * 4 + [49]), ("n 0", 15, [0] * 5),
            ("n 65,537", 15, [65537] * 4 + [524296]), ("plane 1 short, the mask stops all", 0, [6, 5, 6, 6, 48]),
            ("plane 1 short, Map Mask 16", 16, [6, 5, 6, 6, 48])]:
        case(title)
        lend(*lent)
        record([0, 0, map_mask, 0, 4])
        on_memory()
    case("plane 1 short, plane 4 and offset n: the length comes first")
    lend(6, 5, 6, 6, 48)
    masked()
    calls((19, 4, 6, 0), (24, 4, 6, 0, 0), (22, 48), (23, 6))
    for words, at in ("at its end", 65535), ("one past its end", 65536):
        case("n 65,536, " + words)
        lend_all(65536)
        calls((24, 3, at, 0, 0x81), (19, 3, at, 0), (20, 3, at, 0), (21, 3, at, 0), (22, 8 * at + 7), (23, at), (DIGEST,))


PARTS = ports, reads, stores, refusals, lengths
