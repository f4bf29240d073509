"""Lines of a list that are no calls: an operation that there is not, more numbers than a call has. Nothing changes, and the list goes on."""
from .words import BYTE, DIGEST, GC_FIELD, HUGE, SEQ_FIELD, call, calls, case, lend_all


def unknown():
    lend_all(2)
    case("Set/Reset 5 and Map Mask 15, so that a reset would show, and A5 in plane 0")
    calls((GC_FIELD, 2, 5), (SEQ_FIELD, 4, 15), (BYTE, 0, 0, 0xA5))
    case("operation 46, which is a show, and 47, 99 and 2^63, which there are not, the last with arguments of map_address; the whole state before and after")
    calls((DIGEST,), (46,), (47, 0, 0), (99, 1), (HUGE, 0xA0000, 0), (DIGEST,))
    case("45 is the last that sets something up")
    calls((45, 0, 2), (DIGEST,))


def overlong():
    case("six numbers: a store, a reset, a setting, the digest, a show; nothing of them is done")
    calls((6, 0, 0, 0xFF, 0, 0), (24, 0, 0, 0, 0xFF, 0), (27, 0, 0, 0, 0, 0), (44, 0, 0, 0xFF, 0, 0), (0, 0, 0, 0, 0, 0), (46, 0, 0, 0, 0, 0), (DIGEST,))
    case("five numbers are a call, whatever its arguments")
    calls((24, 0, 0, 0, 0x0F), (6, 0, 0, 0xF0, 9), (1, 0, 0))
    call(DIGEST)


PARTS = unknown, overlong
