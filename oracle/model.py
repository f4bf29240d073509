#!/usr/bin/env python3
"""Document 01 once more, bit by bit, with write mode 3 as K1 has it, the show of every shift mode that K3 asks for, reads under chain-four as K4 has them, stores that
tell how many bits changed as K6 asks and accesses turned away counted as K8 asks: reads a list of calls on standard input and prints a line for each, as oracle/README.md
says. It shares no text with the port; oracle/make-cases makes the expected lines of the lists of cases with it.

    oracle/model.py < LIST      takes no argument"""
import re
import sys
from functools import partial
from itertools import accumulate

# the controller's record, in the order of the digest: 0 address, 1 selected register, 2 to 10 registers, 11 to 14 latches, 15 to 21 counters
ADDRESS, SELECTED, SET_RESET, ENABLE, COMPARE, ROTATE, MAP_SELECT, MODE, MISCELLANEOUS, DONT_CARE, BIT_MASK, LATCHES = range(12)
COUNTERS = 15
TURNED_AWAY = 6
# the sequencer's record: its address and selected register have the same places
_, CLOCKING, MAP_MASK, _, MEMORY_MODE, MARK, DIVISOR, CLOCK = range(2, 10)
INVALID = 5
# the greatest value that each register can hold
GC_MOST = [15, 15, 15, 255, 3, 255, 255, 15, 255]
SEQ_MOST = [3, 63, 15, 63, 63]
CGA, CHAIN4 = 1, 2
# set, and, or
STORES = [lambda old, byte: byte, lambda old, byte: old & byte, lambda old, byte: old | byte]
GC_START, SEQ_START = [0] * 22, [0] * 8 + [1, 9]
# what a refused call hands back where that is more than one 0: map_address, the stores, K3's show
REFUSED_VALUES = {37: "0 0", **dict.fromkeys((6, 7, 8, 9, 24, 25, 26, 40), "0 0 0 0"), 46: "00000000"}


class Refused(Exception):
    """A refusal, with its number."""


def refuse_if(condition, number):
    if condition:
        raise Refused(number)


def bit(number, i):
    return number >> i & 1


def digits(pixels):
    return "".join(f"{pixel % 16:X}" for pixel in pixels)


class Model:
    def __init__(self):
        self.gc, self.seq = list(GC_START), list(SEQ_START)
        # planes 0 to 3 and the picture: one byte a plane more than is accepted, and one pixel more than goes with that
        self.memory = [bytearray(65537) for _ in range(4)] + [bytearray(8 * 65537 + 1)]
        self.lent = [65536] * 4 + [8 * 65536]

    # refusals
    def judge_gc(self):
        refuse_if(self.gc[ADDRESS] > 15 or any(value > most for value, most in zip(self.gc[2:11], GC_MOST)), 6)

    def judge_seq(self):
        refuse_if(any(value > most for value, most in zip(self.seq[2:7], SEQ_MOST)), 6)

    def judge_memory(self):
        n = self.lent[0]
        refuse_if(self.lent != [n] * 4 + [8 * n] or not 1 <= n <= 65536, 1)

    def judge_offset(self, offset):
        refuse_if(offset >= self.lent[0], 3)

    def judge_plane(self, plane, offset):
        self.judge_memory()
        refuse_if(plane > 3, 4)
        self.judge_offset(offset)

    # memory by plane and by pixel
    def read_u8(self, plane, offset):
        self.judge_plane(plane, offset)
        return self.memory[plane][offset]

    def read_linear(self, place):
        self.judge_memory()
        refuse_if(place >= 8 * self.lent[0], 5)
        return self.memory[4][place]

    def serialize_linear(self, offset):
        self.judge_memory()
        refuse_if(offset >= self.lent[0], 5)
        return digits(self.memory[4][8 * offset:8 * offset + 8])

    def remake(self, offset):
        for i in range(8):
            self.memory[4][8 * offset + i] = sum(bit(self.memory[p][offset], 7 - i) << p for p in range(4))

    def store(self, offset, new):
        """Bytes for some planes; how many of the eight bits of each plane are not what they were, 0 where it gets no byte."""
        changed = [0] * 4
        for plane, byte in new.items():
            old, self.memory[plane][offset] = self.memory[plane][offset], byte
            changed[plane] = sum(bit(old, i) != bit(self.memory[plane][offset], i) for i in range(8))
            self.remake(offset)
        return changed

    def vram_store(self, how, plane, offset, byte):
        self.judge_plane(plane, offset)
        return self.store(offset, {plane: STORES[how](self.memory[plane][offset], byte % 256)})

    def deplane(self, offset):
        self.judge_memory()
        self.judge_offset(offset)
        self.remake(offset)

    # the sequencer's ports
    def seq_field(self, field):
        self.judge_seq()
        return self.seq[field]

    def set_mark(self):
        self.judge_seq()
        self.seq[MARK] = 1

    def poll(self):
        mark, self.seq[MARK] = self.seq_field(MARK), 0
        return mark

    def seq_data(self):
        selected = self.seq_field(SELECTED)
        return 255 if selected == INVALID else self.seq[2 + selected]

    def write_seq_address(self, byte):
        self.judge_seq()
        self.seq[ADDRESS] = byte % 256
        self.seq[SELECTED] = min(byte % 256, INVALID)

    def write_seq_data(self, byte):
        selected = self.seq_field(SELECTED)
        if selected != INVALID:
            self.seq[2 + selected] = byte % 64 & SEQ_MOST[selected]
        if 2 + selected == CLOCKING:
            self.seq[MARK], self.seq[DIVISOR] = 1, 2 if bit(byte, 3) else 1
            self.seq[CLOCK] = self.seq[DIVISOR] * (8 if bit(byte, 0) else 9)

    # the sequencer's direct calls
    def chain_four(self):
        return bit(self.seq[MEMORY_MODE], 3) == 1

    def gc_read(self, plane, offset):
        # as the Rust's text: document 01 says nothing of it
        self.judge_seq()
        self.judge_plane(plane, offset)
        return self.memory[plane][offset - offset % 4 if bit(self.seq[MEMORY_MODE], 2) and self.chain_four() else offset]

    def masked(self, plane, offset, a0):
        """Whether a visited plane is stored."""
        if self.chain_four():
            return plane == offset % 4
        return bit(self.seq[MAP_MASK] & (15 if bit(self.seq[MEMORY_MODE], 2) else 5 << a0), plane) == 1

    def seq_store(self, how, plane, offset, a0, byte):
        self.judge_seq()
        self.judge_plane(plane, offset)
        at = offset - offset % 4 if self.chain_four() else offset
        new = STORES[how](self.memory[plane][at], byte % 256)
        return self.store(at, {plane: new} if self.masked(plane, offset, int(a0 == 1)) else {})

    # the controller's ports
    def gc_field(self, field):
        self.judge_gc()
        return self.gc[field]

    def map_number(self):
        return self.gc_field(MISCELLANEOUS) >> 2 & 3

    def shift_mode(self):
        return self.gc_field(MODE) >> 5 & 3

    def write_gc_address(self, byte):
        self.judge_gc()
        self.gc[ADDRESS] = byte & 15
        if byte & 15 <= 8:
            self.gc[SELECTED] = byte & 15

    def write_gc_data(self, byte):
        selected = self.gc_field(SELECTED)
        self.gc[2 + selected] = byte % 256 & GC_MOST[selected]

    # the processor's accesses
    def map_address(self, address, page):
        self.judge_gc()
        first, last = [(0xA0000, 0xBFFFF), (0xA0000, 0xAFFFF), (1, 0), (0xB8000, 0xBFFFF)][self.map_number()]
        refuse_if(not first <= address <= last, 2)
        offset = address if self.map_number() == 0 else address - first
        if bit(self.gc[MISCELLANEOUS], 1) and self.map_number() < 2:
            low = int(page == 1) if self.map_number() == 1 else bit(address, 16)
            offset = offset - offset % 2 + low
        return offset % 65536, address % 2

    def accepted(self, address, page):
        self.judge_gc()
        self.judge_seq()
        self.judge_memory()
        offset, a0 = self.map_address(address, page)
        self.judge_offset(offset)
        return offset, a0

    def accessed(self, address, page):
        """Where a read or a write leads: unlike a peek it counts the refusals 2 and 3."""
        try:
            return self.accepted(address, page)
        except Refused as refused:
            if refused.args[0] in (2, 3):
                self.count(TURNED_AWAY)
            raise

    def count(self, which):
        self.gc[COUNTERS + which] = (self.gc[COUNTERS + which] + 1) % 2 ** 32

    def looked_at(self, offset, plane):
        """The plane that a read or a peek answers from, of the one that it names, and the offset there."""
        return (offset % 4, offset - offset % 4) if self.chain_four() else (plane, offset)

    def cpu_read(self, address, page):
        offset, a0 = self.accessed(address, page)
        select = self.gc[MAP_SELECT]
        plane, at = self.looked_at(offset, select - select % 2 + a0 if bit(self.gc[MODE], 4) else select)
        latches = self.gc[LATCHES:COUNTERS] = [self.memory[p][at] for p in range(4)]
        compares = bit(self.gc[MODE], 3)
        self.count(4 + compares)
        if compares:
            cared = [p for p in range(4) if bit(self.gc[DONT_CARE], p)]
            return sum(all(bit(latches[p], i) == bit(self.gc[COMPARE], p) for p in cared) << i for i in range(8))
        return latches[plane]

    def cpu_peek(self, address, page):
        plane, at = self.looked_at(self.accepted(address, page)[0], 0)
        return self.memory[plane][at]

    def cpu_write(self, address, page, byte):
        offset, a0 = self.accessed(address, page)
        mode = self.gc[MODE] % 4
        self.count(mode)
        visited = [a0, 2 + a0] if bit(self.gc[MODE], 4) else range(4)
        at = offset - offset % 4 if self.chain_four() else offset
        return self.store(at, {plane: self.written(mode, plane, byte % 256) for plane in visited if self.masked(plane, offset, a0)})

    def written(self, mode, plane, byte):
        """The byte that a plane gets."""
        latch = self.gc[LATCHES + plane]
        if mode == 1:
            return latch
        turned = sum(bit(byte, (i + self.gc[ROTATE] % 8) % 8) << i for i in range(8))
        by_set_reset = mode == 3 or mode == 0 and bit(self.gc[ENABLE], plane)
        data = 255 * bit(self.gc[SET_RESET], plane) if by_set_reset else 255 * bit(byte, plane) if mode == 2 else turned
        joined = [data, data & latch, data | latch, data ^ latch][self.gc[ROTATE] >> 3 & 3]
        # in mode 3 the byte itself is a mask, beside Bit Mask
        masks = [self.gc[BIT_MASK], turned if mode == 3 else 255]
        return sum(bit(joined if all(bit(mask, i) for mask in masks) else latch, i) << i for i in range(8))

    def serialize(self, offset):
        self.judge_gc()
        self.judge_seq()
        self.judge_memory()
        refuse_if(self.shift_mode() in (CGA, CHAIN4), 9)
        return self.serialize_linear(offset)

    def show_pixels(self, offset):
        """Every shift mode: from the picture, or from planes at the offset as it stands, whatever Memory Mode says."""
        self.judge_gc()
        self.judge_seq()
        self.judge_memory()
        needed = [offset, offset + 1] if self.shift_mode() == CGA else [offset]
        refuse_if(any(place >= self.lent[0] for place in needed), 5)
        if self.shift_mode() == CHAIN4:
            return digits(half for plane in range(4) for half in divmod(self.read_u8(plane, offset), 16))
        if self.shift_mode() == CGA:
            return digits(2 * bit(byte, left) + bit(byte, left - 1) for byte in map(self.read_u8, (0, 1), needed) for left in (7, 5, 3, 1))
        return self.serialize_linear(offset)

    # what no port and no call does
    def put_gc_field(self, field, value):
        if field < 22 and (field != SELECTED or value % 256 <= 8):
            self.gc[field] = value % (256 if field < COUNTERS else 2 ** 32)

    def put_seq_field(self, field, value):
        if field == MARK:
            self.seq[MARK] = int(value % 256 == 1)
        elif field < 10 and (field != SELECTED or value % 256 <= INVALID):
            self.seq[field] = value % (256 if field < MARK else 2 ** 32)

    def put_byte(self, which, place, byte):
        if which < 5 and place < len(self.memory[which]):
            self.memory[which][place] = byte % 256

    def put_length(self, which, length):
        if which < 5:
            self.lent[which] = min(length, len(self.memory[which]))

    # the digest
    def digest(self):
        sums = [list(accumulate(self.memory[which][:self.lent[which]], initial=1)) for which in range(5)]
        checksums = sum(([first[-1] % 2 ** 32, sum(first[1:]) % 2 ** 32] for first in sums), [])
        return self.gc[:11] + self.seq + self.gc[11:] + checksums


def reset(record, start):
    record[:] = start


def operations(m):
    """The calls by number, each with how many arguments it takes."""
    def of_seq(call):
        return lambda *arguments: m.judge_seq() or call(*arguments)
    return [
        (m.digest, 0), (m.read_u8, 2), (m.read_u8, 2), (partial(m.read_u8, 2), 1), (m.read_linear, 1), (m.serialize_linear, 1),
        *((partial(m.vram_store, how), 3) for how in (0, 0, 1, 2)), (m.deplane, 1),
        (partial(reset, m.seq, SEQ_START), 0), (partial(m.seq_field, CLOCK), 0), (m.set_mark, 0), (m.poll, 0), (partial(m.seq_field, ADDRESS), 0),
        (m.seq_data, 0), (m.write_seq_address, 1), (m.write_seq_data, 1), (of_seq(m.read_u8), 2), (of_seq(m.read_u8), 2), (m.gc_read, 2),
        (of_seq(m.read_linear), 1), (of_seq(m.serialize_linear), 1), *((partial(m.seq_store, how), 4) for how in (0, 1, 2)),
        (partial(reset, m.gc, GC_START), 0), (lambda: bit(m.gc_field(MISCELLANEOUS), 1), 0), (lambda: int(m.shift_mode() == CHAIN4), 0),
        (m.map_number, 0), (lambda: bit(m.gc_field(MODE), 4), 0), (m.shift_mode, 0), (partial(m.gc_field, ADDRESS), 0),
        (lambda: m.gc[2 + m.gc_field(SELECTED)], 0), (m.write_gc_address, 1), (m.write_gc_data, 1), (m.map_address, 2), (m.cpu_read, 2),
        (m.cpu_peek, 2), (m.cpu_write, 3), (m.serialize, 1),
        (m.put_gc_field, 2), (m.put_seq_field, 2), (m.put_byte, 3), (m.put_length, 2), (m.show_pixels, 1),
    ]


def line(call, arguments, operation):
    """The answer and the value of a call, as text."""
    try:
        value = call(*arguments) or 0
    except Refused as refused:
        return f"{refused.args[0]} {REFUSED_VALUES.get(operation, '0')}"
    return "0 " + (" ".join(map(str, value)) if isinstance(value, (list, tuple)) else str(value))


def no_call(operation, arguments, known):
    """The word for a line that is no call: too many numbers, or an operation that there is not."""
    if len(arguments) > 4:
        return "overlong"
    return None if operation < known else "unknown"


def main():
    if sys.argv[1:] == ["--help"]:
        sys.exit(print(__doc__))
    if sys.argv[1:]:
        print(f'oracle/model.py: it takes no argument, and here is "{sys.argv[1]}"', __doc__, sep="\n", file=sys.stderr)
        sys.exit(2)
    calls = operations(Model())
    rows = ([int(digits) % 2 ** 64 for digits in re.findall("[0-9]+", text.split("#")[0])] for text in sys.stdin)
    for number, (operation, *arguments) in enumerate(filter(None, rows), 1):
        if word := no_call(operation, arguments, len(calls)):
            print(number, operation, word)
            continue
        call, count = calls[operation]
        print(number, operation, line(call, (arguments + [0] * 4)[:count], operation))


main()
