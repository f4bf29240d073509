/* A host in C: runs the list of calls on standard input as `replay` does, and prints the same lines. `test layout` tries the records' layout instead.
 * What each store says that it changed is held to a count made here, from the lent planes before and after it, and what `show_pixels` shows to pixels unpacked here.
 * The kit's compiler has no C headers, so what is used of the C library is declared here. */
#include "iddesmar.h"

int getchar(void);
int printf(const char *format, ...);
int putchar(int byte);
int fflush(void *stream);

enum { N = 65536, MOST = 4 };

typedef unsigned long long u64;

static uint8_t planes[4][N];
static uint8_t picture[8 * N];
static iddesmar_memory memory = {{planes[0], planes[1], planes[2], planes[3]}, picture, N};
static iddesmar_gc gc;
static iddesmar_seq seq;

static int wrong; /* how often; the first 20 are told */

static void expect(const char *what, u64 is, u64 should) {
    if (is == should) return;
    if (wrong < 20) printf("test-c: %s is %llu, not %llu\n", what, is, should);
    wrong++;
}

static void same(const char *what, const void *is, const void *was, size_t size) {
    const uint8_t *left = is, *given = was;
    for (size_t i = 0; i < size; i++) expect(what, left[i], given[i]);
}

/* ---- lines */

static void value(unsigned number, u64 given) {
    printf(" %u %llu\n", number, given);
}

static void answered(iddesmar_answer a) {
    value(a.number, a.value);
}

/* What the sequencer's record becomes. */
static void moved(iddesmar_seq_answer a) {
    seq = a.seq;
    answered(a.answer);
}

/* Eight digits, refused or not, as they came back. */
static void pixels_shown(iddesmar_shown s) {
    printf(" %u ", s.number);
    for (int i = 0; i < 8; i++) putchar("0123456789ABCDEF"[s.pixels[i] % 16]);
    putchar('\n');
}

/* Of the older shows a refused one has one 0. */
static void shown(iddesmar_shown s) {
    if (s.number != IDDESMAR_DONE) value(s.number, 0);
    else pixels_shown(s);
}

static void stored(iddesmar_stored s) {
    printf(" %u %u %u %u %u\n", s.number, s.changed[0], s.changed[1], s.changed[2], s.changed[3]);
}

static void mapped(iddesmar_mapped m) {
    printf(" %u %llu %u\n", m.number, (u64)m.offset, m.a0);
}

static void sum(const uint8_t *bytes, size_t n) {
    uint32_t first = 1, second = 0;
    for (size_t i = 0; i < n; i++) {
        first += bytes[i];
        second += first;
    }
    printf(" %u %u", first, second);
}

static void digest(void) {
    const uint8_t *registers = &gc.register_select_byte;
    const uint8_t *kept = &seq.address_byte;
    const uint32_t *counters = &gc.stats.mode_0_writes;
    printf(" 0");
    for (int i = 0; i < 11; i++) printf(" %u", registers[i]);
    for (int i = 0; i < 7; i++) printf(" %u", kept[i]);
    printf(" %u %u %u", seq.clock_change_pending, seq.clock_divisor, seq.char_clock);
    for (int i = 0; i < 4; i++) printf(" %u", gc.latches[i]);
    for (int i = 0; i < 7; i++) printf(" %u", counters[i]);
    for (int i = 0; i < 4; i++) sum(planes[i], N);
    sum(picture, 8 * N);
    putchar('\n');
}

/* ---- calls, by the numbers of oracle/README.md */

#define ALL IDDESMAR_ALL(&memory)

/* The four planes' bytes at an offset; past the planes, where every store is refused, there are none. */
typedef struct column {
    size_t offset;
    uint8_t bytes[4];
} column;

static column column_at(size_t offset) {
    column c = {offset, {0, 0, 0, 0}};
    for (int p = 0; p < 4 && offset < N; p++) c.bytes[p] = planes[p][offset];
    return c;
}

/* Where the sequencer's stores store: under chain-four the low two bits of the offset are clear. */
static size_t stored_at(iddesmar_seq s, size_t offset) {
    return s.memory_mode & 8 ? offset / 4 * 4 : offset;
}

static unsigned differing_bits(uint8_t a, uint8_t b) {
    unsigned count = 0;
    for (int i = 0; i < 8; i++) count += (a >> i & 1) != (b >> i & 1);
    return count;
}

/* A store's numbers, beside the bytes before it and those that are there now; a refused one has four zeros, and its bytes stay. */
static iddesmar_stored counted(iddesmar_stored s, column before) {
    column now = column_at(before.offset);
    for (int p = 0; p < 4; p++) {
        if (s.number != IDDESMAR_DONE) expect("a byte after a refused store", now.bytes[p], before.bytes[p]);
        expect("changed", s.changed[p], differing_bits(before.bytes[p], now.bytes[p]));
    }
    return s;
}

static iddesmar_stored vram_store(u64 operation, size_t plane, size_t offset, uint8_t byte) {
    column before = column_at(offset);
    switch (operation) {
    case 6: return counted(iddesmar_vram_write_u8(ALL, plane, offset, byte), before);
    case 7: return counted(iddesmar_vram_plane_set(ALL, plane, offset, byte), before);
    case 8: return counted(iddesmar_vram_plane_and(ALL, plane, offset, byte), before);
    default: return counted(iddesmar_vram_plane_or(ALL, plane, offset, byte), before);
    }
}

static iddesmar_stored seq_store(u64 operation, iddesmar_seq s, size_t plane, size_t offset, uint8_t a0, uint8_t byte) {
    column before = column_at(stored_at(s, offset));
    switch (operation) {
    case 24: return counted(iddesmar_seq_plane_set(s, ALL, plane, offset, a0, byte), before);
    case 25: return counted(iddesmar_seq_plane_and(s, ALL, plane, offset, a0, byte), before);
    default: return counted(iddesmar_seq_plane_or(s, ALL, plane, offset, a0, byte), before);
    }
}

static iddesmar_stored cpu_write(iddesmar_gc *g, iddesmar_seq s, size_t address, uint8_t page, uint8_t byte) {
    iddesmar_mapped m = iddesmar_gc_map_address(*g, address, page);
    column before = column_at(m.number == IDDESMAR_DONE ? stored_at(s, m.offset) : N);
    return counted(iddesmar_gc_cpu_write_u8(g, &s, ALL, address, page, byte), before);
}

/* The shift mode, bits 5 and 6 of Mode. */
enum { STANDARD, CGA, CHAIN4, UNUSED };

static unsigned shift_mode(iddesmar_gc g) {
    return g.mode / 32 % 4;
}

static unsigned bit(uint8_t byte, int i) {
    return byte >> i & 1;
}

/* A pixel of an offset by the shift mode: half a plane's byte, two bits of one, or a byte of the picture. */
static unsigned unpacked(const iddesmar_memory *m, unsigned mode, size_t offset, int i) {
    if (mode == CHAIN4) {
        uint8_t byte = m->planes[i / 2][offset];
        return i % 2 ? byte % 16 : byte / 16;
    }
    if (mode == CGA) {
        int left = 7 - 2 * (i % 4);
        uint8_t byte = i < 4 ? m->planes[0][offset] : m->planes[1][offset + 1];
        return 2 * bit(byte, left) + bit(byte, left - 1);
    }
    return m->picture[8 * offset + (size_t)i];
}

/* show_pixels on records and memory that are as they should be: 5 past the planes, in CGACompatible also at their last offset, and eight zeros then; else what is unpacked here. */
static iddesmar_shown show(iddesmar_gc g, iddesmar_seq s, const iddesmar_memory *m, size_t offset) {
    unsigned mode = shift_mode(g);
    int past = offset >= (mode == CGA ? m->n - 1 : m->n);
    iddesmar_shown is = iddesmar_gc_show_pixels(&g, &s, IDDESMAR_ALL(m), offset);
    expect("a show's number", is.number, past ? IDDESMAR_PLACE : IDDESMAR_DONE);
    for (int i = 0; i < 8; i++) expect("a pixel shown", is.pixels[i], past ? 0 : unpacked(m, mode, offset, i));
    return is;
}

static void vram_call(u64 operation, const u64 *x) {
    switch (operation) {
    case 1: answered(iddesmar_vram_read_u8(ALL, x[0], x[1])); break;
    case 2: answered(iddesmar_vram_peek_u8(ALL, x[0], x[1])); break;
    case 3: answered(iddesmar_vram_read_glyph(ALL, x[0])); break;
    case 4: answered(iddesmar_vram_read_linear(ALL, x[0])); break;
    case 5: shown(iddesmar_vram_serialize_linear(ALL, x[0])); break;
    case 10: answered(iddesmar_vram_deplane(ALL, x[0])); break;
    default: stored(vram_store(operation, x[0], x[1], (uint8_t)x[2])); break; /* 6 to 9 */
    }
}

static void clocked(iddesmar_clock c) {
    value(c.number, c.clock);
}

static void sequencer_call(u64 operation, const u64 *x) {
    switch (operation) {
    case 11: moved(iddesmar_seq_reset(seq)); break;
    case 12: clocked(iddesmar_seq_clock(seq)); break;
    case 13: moved(iddesmar_seq_set_clock_change_pending(seq)); break;
    case 14: moved(iddesmar_seq_poll_clock_change(seq)); break;
    case 15: answered(iddesmar_seq_read_address(seq)); break;
    case 16: answered(iddesmar_seq_read_data(seq)); break;
    case 17: answered(iddesmar_seq_write_address(&seq, (uint8_t)x[0])); break;
    case 18: answered(iddesmar_seq_write_data(&seq, (uint8_t)x[0])); break;
    case 19: answered(iddesmar_seq_cpu_read_u8(seq, ALL, x[0], x[1], x[2] != 0)); break;
    case 20: answered(iddesmar_seq_peek_u8(seq, ALL, x[0], x[1], x[2] != 0)); break;
    case 21: answered(iddesmar_seq_gc_read_u8(seq, ALL, x[0], x[1], x[2] != 0)); break;
    case 22: answered(iddesmar_seq_read_linear(seq, ALL, x[0])); break;
    case 23: shown(iddesmar_seq_serialize_linear(seq, ALL, x[0])); break;
    default: stored(seq_store(operation, seq, x[0], x[1], x[2] != 0, (uint8_t)x[3])); break; /* 24 to 26 */
    }
}

static void controller_call(u64 operation, const u64 *x) {
    switch (operation) {
    case 27: answered(iddesmar_gc_reset(&gc)); break;
    case 28: answered(iddesmar_gc_chain(gc)); break;
    case 29: answered(iddesmar_gc_chain4(gc)); break;
    case 30: answered(iddesmar_gc_memory_map(gc)); break;
    case 31: answered(iddesmar_gc_odd_even(gc)); break;
    case 32: answered(iddesmar_gc_shift_mode(gc)); break;
    case 33: answered(iddesmar_gc_read_address(gc)); break;
    case 34: answered(iddesmar_gc_read_data(gc)); break;
    case 35: answered(iddesmar_gc_write_address(&gc, (uint8_t)x[0])); break;
    case 36: answered(iddesmar_gc_write_data(&gc, (uint8_t)x[0])); break;
    case 37: mapped(iddesmar_gc_map_address(gc, x[0], x[1] != 0)); break;
    case 38: answered(iddesmar_gc_cpu_read_u8(&gc, &seq, ALL, x[0], x[1] != 0)); break;
    case 39: answered(iddesmar_gc_cpu_peek_u8(&gc, &seq, ALL, x[0], x[1] != 0)); break;
    case 40: stored(cpu_write(&gc, seq, x[0], x[1] != 0, (uint8_t)x[2])); break;
    case 41: shown(iddesmar_gc_serialize(&gc, &seq, ALL, x[0])); break;
    case 46: pixels_shown(show(gc, seq, &memory, x[0])); break;
    default: printf(" unknown\n"); break; /* 42 to 45 set up what no port reaches, and no host has them */
    }
}

static void call(u64 operation, const u64 *x) {
    if (operation == 0) digest();
    else if (operation <= 10) vram_call(operation, x);
    else if (operation <= 26) sequencer_call(operation, x);
    else controller_call(operation, x);
}

/* ---- lists */

/* Reads a line's numbers; how many there are, or -1 at the end of the input. */
static int numbers(u64 *x) {
    int count = 0, inside = 0, comment = 0, c = getchar();
    if (c < 0) return -1;
    for (; c >= 0 && c != '\n'; c = getchar()) {
        if (c == '#') comment = 1;
        if (comment || c < '0' || c > '9') {
            inside = 0;
            continue;
        }
        if (!inside && count <= MOST) x[count++] = 0;
        inside = 1;
        x[count - 1] = 10 * x[count - 1] + (u64)(c - '0');
    }
    return count;
}

static void list(void) {
    u64 line = 0;
    for (;;) {
        u64 x[MOST + 1] = {0, 0, 0, 0, 0};
        int count = numbers(x);
        if (count < 0) return;
        if (count == 0) continue;
        printf("%llu %llu", ++line, x[0]);
        call(x[0], x + 1);
    }
}

/* ---- the layout: the library finds each field where C has it, and touches nothing beside a record */

typedef struct guarded {
    uint8_t before[32];
    iddesmar_gc gc;
    uint8_t after[32];
} guarded;

static void controller_registers(guarded *g) {
    static const uint8_t kept[9] = {9, 10, 11, 0x5B, 2, 0x07, 0x0D, 12, 0xC3};
    uint8_t *registers = &g->gc.set_reset;
    for (int i = 0; i < 9; i++) {
        iddesmar_gc_write_address(&g->gc, (uint8_t)i);
        expect("register_selected", g->gc.register_selected, (u64)i);
        expect("register_select_byte", g->gc.register_select_byte, (u64)i);
        iddesmar_gc_write_data(&g->gc, kept[i]);
    }
    for (int i = 0; i < 9; i++) {
        expect("a register of the controller", registers[i], kept[i]);
        g->gc.register_selected = (uint8_t)i;
        expect("read_data of the controller", iddesmar_gc_read_data(g->gc).value, kept[i]);
    }
}

static void controller_accesses(guarded *g) {
    g->gc = iddesmar_gc_new();
    seq = iddesmar_seq_new();
    for (int i = 0; i < 4; i++) planes[i][0] = (uint8_t)(17 * (i + 1));
    for (int i = 0; i < 2; i++) {
        g->gc.mode = (uint8_t)(8 * i);
        for (int k = 0; k < 5 + i; k++) iddesmar_gc_cpu_read_u8(&g->gc, &seq, ALL, 0xA0000, 0);
    }
    for (int i = 0; i < 4; i++) {
        expect("a latch", g->gc.latches[i], (u64)(17 * (i + 1)));
        g->gc.mode = (uint8_t)i;
        for (int k = 0; k < 1 + i; k++) cpu_write(&g->gc, seq, 0xA0000, 0, 0);
    }
    for (int k = 0; k < 3; k++) iddesmar_gc_cpu_read_u8(&g->gc, &seq, ALL, 0x9FFFF, 0);
    for (int k = 0; k < 4; k++) cpu_write(&g->gc, seq, 0xC0000, 0, 0);
    const uint32_t *counters = &g->gc.stats.mode_0_writes;
    for (int i = 0; i < 7; i++) expect("a counter", counters[i], (u64)(1 + i));
}

static void sequencer_fields(void) {
    static const uint8_t kept[5] = {2, 0x09, 13, 0x2A, 0x0E};
    const uint8_t *registers = &seq.reset;
    for (int i = 0; i < 5; i++) {
        iddesmar_seq_write_address(&seq, (uint8_t)i);
        iddesmar_seq_write_data(&seq, kept[i]);
        expect("address_byte", seq.address_byte, (u64)i);
    }
    for (int i = 0; i < 5; i++) {
        expect("a register of the sequencer", registers[i], kept[i]);
        seq.register_selected = (uint8_t)i;
        expect("read_data of the sequencer", iddesmar_seq_read_data(seq).value, kept[i]);
    }
    expect("clock_change_pending", seq.clock_change_pending, 1);
    expect("clock_divisor", seq.clock_divisor, 2);
    expect("char_clock", seq.char_clock, 16);
    expect("poll_clock_change", iddesmar_seq_poll_clock_change(seq).answer.value, 1);
    expect("clock", iddesmar_seq_clock(seq).clock, 16);
}

/* ---- what a store answers comes back by value: five bytes, plane 0's number to plane 3's, then the answer's */

static const uint8_t nothing[4] = {0, 0, 0, 0};

static void store_answers(const char *what, iddesmar_stored s, unsigned number, const uint8_t *changed) {
    same(what, &s, changed, 4);
    expect(what, ((const uint8_t *)&s)[4], number);
}

/* A store that is done and has changed so many bits, all of one plane. */
static void one_plane(const char *what, iddesmar_stored s, size_t plane, unsigned bits) {
    uint8_t changed[4] = {0, 0, 0, 0};
    changed[plane] = (uint8_t)bits;
    store_answers(what, s, IDDESMAR_DONE, changed);
}

/* A direct store by its number in lists, through a mask that has every plane. */
static iddesmar_stored direct_store(u64 operation, size_t plane, uint8_t byte) {
    iddesmar_seq s = iddesmar_seq_new();
    s.map_mask = 15;
    s.memory_mode = 4;
    return operation < 24 ? vram_store(operation, plane, 9, byte) : seq_store(operation, s, plane, 9, 0, byte);
}

/* It tells k for its plane and, made once more, nothing. */
static void direct_tells(u64 operation, size_t plane, uint8_t byte, unsigned k) {
    one_plane("a direct store", direct_store(operation, plane, byte), plane, k);
    one_plane("a direct store made again", direct_store(operation, plane, byte), plane, 0);
}

/* Each lays k bits where none is, and one of the two `and` takes them away. */
static void direct_numbers(size_t plane, unsigned k) {
    static const u64 lays[5] = {6, 7, 9, 24, 26};
    planes[plane][9] = 0;
    for (int i = 0; i < 5; i++) {
        direct_tells(lays[i], plane, (uint8_t)((1 << k) - 1), k);
        direct_tells(i % 2 ? 25 : 8, plane, 0, k);
    }
}

/* Under chain-four offset 11 is plane 3's byte at 8, and the mask stops the others. */
static void chained_numbers(void) {
    iddesmar_seq s = iddesmar_seq_new();
    s.memory_mode = 8;
    for (size_t p = 0; p < 4; p++) {
        planes[p][8] = 0x10;
        planes[p][11] = 0xFF;
        one_plane("plane_or under chain-four", seq_store(26, s, p, 11, 0, 0x1F), p, p == 3 ? 4 : 0);
        expect("a byte at the offset handed in", planes[p][11], 0xFF);
    }
}

/* A row of a write's rules: registers, address and byte, and the four numbers, on bytes that have 1, 2, 4 and 7 bits set. */
typedef struct write_row {
    uint8_t gc_mode, memory_mode, map_mask;
    size_t address;
    uint8_t byte, number, changed[4];
} write_row;

static void cpu_numbers(void) {
    static const uint8_t bytes[4] = {0x10, 0x81, 0x6C, 0xFE};
    static const write_row rows[] = {
        {0x00, 4, 15, 0xA0008, 0x00, IDDESMAR_DONE, {1, 2, 4, 7}},
        {0x00, 4, 15, 0xA0008, 0xFF, IDDESMAR_DONE, {7, 6, 4, 1}},
        {0x00, 4, 5, 0xA0008, 0x00, IDDESMAR_DONE, {1, 0, 4, 0}},     /* Map Mask stops planes 1 and 3 */
        {0x10, 4, 15, 0xA0008, 0x00, IDDESMAR_DONE, {1, 0, 4, 0}},    /* odd/even of the controller visits planes 0 and 2 */
        {0x00, 0, 15, 0xA0008, 0x00, IDDESMAR_DONE, {1, 0, 4, 0}},    /* that of the sequencer stops 1 and 3 */
        {0x00, 12, 15, 0xA000B, 0x00, IDDESMAR_DONE, {0, 0, 0, 7}},   /* chain-four: plane 3, at 8 */
        {0x00, 4, 15, 0xA0008, 0x10, IDDESMAR_DONE, {0, 3, 5, 6}},    /* plane 0 has that byte */
        {0x00, 4, 0, 0xA0008, 0x00, IDDESMAR_DONE, {0, 0, 0, 0}},
        {0x00, 4, 15, 0x9FFFF, 0x00, IDDESMAR_WINDOW, {0, 0, 0, 0}},
    };
    for (size_t i = 0; i < sizeof rows / sizeof *rows; i++) {
        iddesmar_gc g = iddesmar_gc_new();
        iddesmar_seq s = iddesmar_seq_new();
        g.mode = rows[i].gc_mode;
        g.bitmask = 0xFF;
        s.memory_mode = rows[i].memory_mode;
        s.map_mask = rows[i].map_mask;
        for (int p = 0; p < 4; p++) planes[p][8] = bytes[p];
        store_answers("a write", cpu_write(&g, s, rows[i].address, 0, rows[i].byte), rows[i].number, rows[i].changed);
    }
}

/* ---- what show_pixels answers comes back by value: eight pixels, then the answer's number */

static const uint8_t no_pixels[8] = {0, 0, 0, 0, 0, 0, 0, 0};

static void show_answers(const char *what, iddesmar_shown s, unsigned number, const uint8_t *pixels) {
    same(what, &s, pixels, 8);
    expect(what, ((const uint8_t *)&s)[8], number);
}

static iddesmar_gc in_mode(iddesmar_gc g, unsigned mode) {
    g.mode = (uint8_t)((g.mode & 0x9F) + 32 * mode);
    return g;
}

/* Planes 12 34 56 78 at offset 0, 1B in plane 1 at 1; the picture is made by the stores. */
static void worked_planes(void) {
    for (size_t p = 0; p < 4; p++) vram_store(7, p, 0, (uint8_t)(0x12 + 0x22 * p));
    vram_store(7, 1, 1, 0x1B);
}

/* Their shows by shift mode, which hang on no other bit of either record; the older show has the standard ones. */
static void worked_shows(iddesmar_gc g, iddesmar_seq s) {
    static const uint8_t pixels[4][8] = {
        {0, 12, 10, 15, 8, 6, 5, 0}, /* Standard */
        {0, 1, 0, 2, 0, 1, 2, 3},    /* CGACompatible */
        {1, 2, 3, 4, 5, 6, 7, 8},    /* Chain4 */
        {0, 12, 10, 15, 8, 6, 5, 0}, /* Unused */
    };
    for (unsigned mode = STANDARD; mode <= UNUSED; mode++) {
        int standard = mode == STANDARD || mode == UNUSED;
        g = in_mode(g, mode);
        show_answers("the worked example", show(g, s, &memory, 0), IDDESMAR_DONE, pixels[mode]);
        show_answers("its older show", iddesmar_gc_serialize(&g, &s, ALL, 0), standard ? IDDESMAR_DONE : IDDESMAR_SHIFT, standard ? pixels[mode] : no_pixels);
        expect("a show of the last offset but one", show(g, s, &memory, N - 2).number, IDDESMAR_DONE);
        expect("a show of the last offset", show(g, s, &memory, N - 1).number, mode == CGA ? IDDESMAR_PLACE : IDDESMAR_DONE);
        show_answers("a show past the planes", show(g, s, &memory, N), IDDESMAR_PLACE, no_pixels);
    }
}

/* .. not on Memory Mode: sequential, with chain-four, odd/even, both. */
static void worked_example(void) {
    static const uint8_t memory_modes[4] = {0x04, 0x0C, 0x00, 0x08};
    iddesmar_seq s = iddesmar_seq_new();
    worked_planes();
    for (int i = 0; i < 4; i++) {
        s.memory_mode = memory_modes[i];
        worked_shows(iddesmar_gc_new(), s);
    }
}

/* Memory of its own, small enough to be looked at whole. The picture matches no plane, and has bytes above 15. */
typedef struct card {
    uint8_t planes[4][16], picture[8 * 16];
} card;

static iddesmar_memory lent_by(card *c, size_t n) {
    iddesmar_memory m = {{c->planes[0], c->planes[1], c->planes[2], c->planes[3]}, c->picture, n};
    return m;
}

/* Every offset of the planes, and some past them: nothing wraps, also where 8 times the offset does. How many were shown. */
static unsigned shows_of(const iddesmar_memory *m, iddesmar_gc g, iddesmar_seq s) {
    static const size_t past[] = {65536, (size_t)1 << 32, (size_t)1 << 61, ((size_t)1 << 61) + 1, (size_t)1 << 63, (size_t)-16, (size_t)-2, (size_t)-1};
    unsigned count = 0;
    for (size_t offset = 0; offset <= m->n; offset++) count += show(g, s, m, offset).number == IDDESMAR_DONE;
    for (size_t i = 0; i < sizeof past / sizeof *past; i++) show_answers("a show far past the planes", show(g, s, m, past[i]), IDDESMAR_PLACE, no_pixels);
    return count;
}

/* Each offset is shown, in CGACompatible each but the last: with a plane of one byte none. Neither the records nor the memory moves. */
static void shows_of_lengths(iddesmar_gc g, iddesmar_seq s, card c) {
    static const size_t lengths[] = {1, 2, 8, 16};
    const iddesmar_gc given = g;
    const iddesmar_seq given_seq = s;
    card lent = c;
    for (size_t i = 0; i < sizeof lengths / sizeof *lengths; i++) {
        iddesmar_memory m = lent_by(&lent, lengths[i]);
        expect("the offsets shown", shows_of(&m, g, s), lengths[i] - (shift_mode(g) == CGA));
    }
    same("the controller's record after shows", &g, &given, sizeof g);
    same("the sequencer's record after shows", &s, &given_seq, sizeof s);
    same("memory after shows", &lent, &c, sizeof c);
}

/* A byte of the picture above 15 comes back whole, though a line has its low four bits alone. */
static void whole_bytes(void) {
    static const uint8_t bytes[8] = {0x10, 0x2F, 0x80, 0xFF, 0x7E, 0xA5, 0x0F, 0xC3};
    iddesmar_gc g = iddesmar_gc_new();
    iddesmar_seq s = iddesmar_seq_new();
    card c = {{{0}}, {0}};
    iddesmar_memory m = lent_by(&c, 16);
    for (int i = 0; i < 8; i++) c.picture[8 * 7 + i] = bytes[i];
    show_answers("a show of bytes above 15", show(in_mode(g, STANDARD), s, &m, 7), IDDESMAR_DONE, bytes);
    show_answers("a show of bytes above 15", show(in_mode(g, UNUSED), s, &m, 7), IDDESMAR_DONE, bytes);
    show_answers("a show of planes beside them", show(in_mode(g, CHAIN4), s, &m, 7), IDDESMAR_DONE, no_pixels);
    show_answers("a show of planes beside them", show(in_mode(g, CGA), s, &m, 7), IDDESMAR_DONE, no_pixels);
}

/* A number that selects no register is refusal 6 and changes nothing; a reset takes it. */
static void unknown_registers(void) {
    gc = iddesmar_gc_new();
    seq = iddesmar_seq_new();
    gc.register_selected = 9;
    expect("write_data of register 9", iddesmar_gc_write_data(&gc, 5).number, IDDESMAR_STATE);
    store_answers("a write with register 9", cpu_write(&gc, seq, 0xA0000, 0, 5), IDDESMAR_STATE, nothing);
    store_answers("a write outside the window with register 9", cpu_write(&gc, seq, 0x9FFFF, 0, 5), IDDESMAR_STATE, nothing);
    expect("a read outside the window with register 9", iddesmar_gc_cpu_read_u8(&gc, &seq, ALL, 0x9FFFF, 0).number, IDDESMAR_STATE);
    expect("refused_accesses with register 9", gc.stats.refused_accesses, 0);
    expect("an older show with register 9", iddesmar_gc_serialize(&gc, &seq, ALL, 0).number, IDDESMAR_STATE);
    show_answers("a show with register 9", iddesmar_gc_show_pixels(&gc, &seq, ALL, 0), IDDESMAR_STATE, no_pixels);
    expect("register_selected", gc.register_selected, 9);
    expect("reset of register 9", iddesmar_gc_reset(&gc).number, IDDESMAR_DONE);
    expect("register_selected after reset", gc.register_selected, 0);
    seq.register_selected = 6;
    expect("clock with register 6", iddesmar_seq_clock(seq).number, IDDESMAR_STATE);
    expect("a read with register 6", iddesmar_gc_cpu_read_u8(&gc, &seq, ALL, 0xA0000, 0).number, IDDESMAR_STATE);
    store_answers("a write with register 6", cpu_write(&gc, seq, 0xA0000, 0, 5), IDDESMAR_STATE, nothing);
    show_answers("a show with register 6", iddesmar_gc_show_pixels(&gc, &seq, ALL, 0), IDDESMAR_STATE, no_pixels);
    expect("reset of register 6", iddesmar_seq_reset(seq).answer.number, IDDESMAR_DONE);
}

/* ---- refusals: every byte of a record stays, whatever it holds, but for the counter of accesses turned away */

/* A record of bytes that are told apart from one another, and the other for each seed; the spare byte and the mark take every number. */
static void fill(void *record, size_t size, int seed) {
    uint8_t *bytes = record;
    for (size_t i = 0; i < size; i++) bytes[i] = (uint8_t)(seed + 37 * i);
}

static iddesmar_gc filled_gc(int seed) {
    iddesmar_gc g;
    fill(&g, sizeof g, seed);
    return g;
}

static iddesmar_seq filled_seq(int seed) {
    iddesmar_seq s;
    fill(&s, sizeof s, seed);
    s.clock_change_pending = (uint8_t)seed;
    return s;
}

/* The same with no more in a register than it keeps; the window is A0000 for 64K, and an offset is the address less A0000. */
static iddesmar_gc fitting_gc(int seed) {
    iddesmar_gc g = filled_gc(seed);
    g.register_select_byte %= 16;
    g.register_selected %= 9;
    g.set_reset %= 16;
    g.enable_set_reset %= 16;
    g.color_compare %= 16;
    g.read_map_select %= 4;
    g.color_dont_care %= 16;
    g.miscellaneous = (uint8_t)(g.miscellaneous / 16 * 16 + 5);
    return g;
}

static iddesmar_seq fitting_seq(int seed) {
    iddesmar_seq s = filled_seq(seed);
    s.register_selected %= 6;
    s.reset %= 4;
    s.clocking_mode %= 64;
    s.map_mask %= 16;
    s.character_map_select %= 64;
    s.memory_mode %= 64;
    return s;
}

static void gc_refused(const char *what, iddesmar_answer a, unsigned number, const iddesmar_gc *left, iddesmar_gc given) {
    expect(what, a.number, number);
    expect(what, a.value, 0);
    same(what, left, &given, sizeof given);
}

/* The sequencer's port writes on a copy of a record, which comes back beside the answer. */
static iddesmar_seq_answer seq_address(iddesmar_seq s, uint8_t byte) {
    iddesmar_answer a = iddesmar_seq_write_address(&s, byte);
    return (iddesmar_seq_answer){a, s};
}

static iddesmar_seq_answer seq_data(iddesmar_seq s, uint8_t byte) {
    iddesmar_answer a = iddesmar_seq_write_data(&s, byte);
    return (iddesmar_seq_answer){a, s};
}

static void seq_refused(const char *what, iddesmar_seq_answer a, iddesmar_seq given) {
    expect(what, a.answer.number, IDDESMAR_STATE);
    expect(what, a.answer.value, 0);
    same(what, &a.seq, &given, sizeof given);
}

/* A memory with plane 3 lent by so many bytes shorter. */
#define LENT(m, shorter) (m).planes[0], (m).n, (m).planes[1], (m).n, (m).planes[2], (m).n, (m).planes[3], (m).n - (shorter), (m).picture, 8 * (m).n

/* An access of the processor that is refused with this number, as a read and as a write: each is counted where the number is 2 or 3. */
static void accesses_refused(unsigned number, iddesmar_gc given, iddesmar_seq s, iddesmar_memory m, size_t shorter, size_t address) {
    iddesmar_gc left = given;
    uint32_t raised = number == IDDESMAR_WINDOW || number == IDDESMAR_OFFSET;
    given.stats.refused_accesses += raised;
    gc_refused("a refused read", iddesmar_gc_cpu_read_u8(&left, &s, LENT(m, shorter), address, 1), number, &left, given);
    given.stats.refused_accesses += raised;
    store_answers("a refused write", iddesmar_gc_cpu_write_u8(&left, &s, LENT(m, shorter), address, 1, 0x3C), number, nothing);
    same("a record after a refused write", &left, &given, sizeof given);
}

static void seq_stores_refused(unsigned number, iddesmar_seq s, iddesmar_memory m, size_t shorter, size_t plane, size_t offset) {
    column before = column_at(offset);
    store_answers("a refused plane_set of the sequencer", counted(iddesmar_seq_plane_set(s, LENT(m, shorter), plane, offset, 1, 0x3C), before), number, nothing);
    store_answers("a refused plane_and of the sequencer", counted(iddesmar_seq_plane_and(s, LENT(m, shorter), plane, offset, 1, 0x3C), before), number, nothing);
    store_answers("a refused plane_or of the sequencer", counted(iddesmar_seq_plane_or(s, LENT(m, shorter), plane, offset, 1, 0x3C), before), number, nothing);
}

/* The seven direct stores. */
static void stores_refused(unsigned number, iddesmar_seq s, iddesmar_memory m, size_t shorter, size_t plane, size_t offset) {
    column before = column_at(offset);
    store_answers("a refused write_u8", counted(iddesmar_vram_write_u8(LENT(m, shorter), plane, offset, 0x3C), before), number, nothing);
    store_answers("a refused plane_set", counted(iddesmar_vram_plane_set(LENT(m, shorter), plane, offset, 0x3C), before), number, nothing);
    store_answers("a refused plane_and", counted(iddesmar_vram_plane_and(LENT(m, shorter), plane, offset, 0x3C), before), number, nothing);
    store_answers("a refused plane_or", counted(iddesmar_vram_plane_or(LENT(m, shorter), plane, offset, 0x3C), before), number, nothing);
    seq_stores_refused(number, s, m, shorter, plane, offset);
}

/* Both shows in each shift mode; the older one has 9 before 5. */
static void shows_refused(unsigned number, iddesmar_gc g, iddesmar_seq s, iddesmar_memory m, size_t shorter, size_t offset) {
    for (unsigned mode = STANDARD; mode <= UNUSED; mode++) {
        unsigned older = number == IDDESMAR_PLACE && (mode == CGA || mode == CHAIN4) ? IDDESMAR_SHIFT : number;
        g = in_mode(g, mode);
        show_answers("a refused show", iddesmar_gc_show_pixels(&g, &s, LENT(m, shorter), offset), number, no_pixels);
        show_answers("a refused older show", iddesmar_gc_serialize(&g, &s, LENT(m, shorter), offset), older, no_pixels);
    }
}

/* A field that keeps less than a byte, and the most that it may hold. */
typedef struct kept {
    size_t place;
    uint8_t most;
} kept;

/* 6 looks at both records whole: with one more in any of these fields no show is made, with the most that it may hold each is. */
static void shows_judge_records(iddesmar_gc g, iddesmar_seq s) {
    static const kept of_gc[] = {
        {offsetof(iddesmar_gc, register_select_byte), 15}, {offsetof(iddesmar_gc, register_selected), 8}, {offsetof(iddesmar_gc, set_reset), 15},
        {offsetof(iddesmar_gc, enable_set_reset), 15}, {offsetof(iddesmar_gc, color_compare), 15}, {offsetof(iddesmar_gc, read_map_select), 3},
        {offsetof(iddesmar_gc, color_dont_care), 15},
    };
    static const kept of_seq[] = {
        {offsetof(iddesmar_seq, register_selected), 5}, {offsetof(iddesmar_seq, reset), 3}, {offsetof(iddesmar_seq, clocking_mode), 63},
        {offsetof(iddesmar_seq, map_mask), 15}, {offsetof(iddesmar_seq, character_map_select), 63}, {offsetof(iddesmar_seq, memory_mode), 63},
    };
    for (size_t i = 0; i < sizeof of_gc / sizeof *of_gc; i++) {
        iddesmar_gc bad = g;
        uint8_t *field = (uint8_t *)&bad + of_gc[i].place;
        *field = of_gc[i].most;
        expect("a show with a full field of the controller", show(bad, s, &memory, 0).number, IDDESMAR_DONE);
        *field += 1;
        shows_refused(IDDESMAR_STATE, bad, s, memory, 0, 0);
    }
    for (size_t i = 0; i < sizeof of_seq / sizeof *of_seq; i++) {
        iddesmar_seq bad = s;
        uint8_t *field = (uint8_t *)&bad + of_seq[i].place;
        *field = of_seq[i].most;
        expect("a show with a full field of the sequencer", show(g, bad, &memory, 0).number, IDDESMAR_DONE);
        *field += 1;
        shows_refused(IDDESMAR_STATE, g, bad, memory, 0, 0);
    }
}

static void gc_unfit(iddesmar_gc given, iddesmar_seq s) {
    iddesmar_gc left = given;
    gc_refused("a refused write_address", iddesmar_gc_write_address(&left, 7), IDDESMAR_STATE, &left, given);
    gc_refused("a refused write_data", iddesmar_gc_write_data(&left, 7), IDDESMAR_STATE, &left, given);
    accesses_refused(IDDESMAR_STATE, given, s, memory, 0, 0xA0000);
    accesses_refused(IDDESMAR_STATE, given, s, memory, 0, 0x9FFFF);
    shows_refused(IDDESMAR_STATE, given, s, memory, 1, N); /* before 1 and 5 */
}

static void seq_unfit(iddesmar_seq given) {
    seq_refused("a refused write_address", seq_address(given, 7), given);
    seq_refused("a refused write_data", seq_data(given, 7), given);
    seq_refused("a refused set_clock_change_pending", iddesmar_seq_set_clock_change_pending(given), given);
    seq_refused("a refused poll_clock_change", iddesmar_seq_poll_clock_change(given), given);
    accesses_refused(IDDESMAR_STATE, fitting_gc(given.clock_change_pending), given, memory, 0, 0xA0000);
    accesses_refused(IDDESMAR_STATE, fitting_gc(given.clock_change_pending), given, memory, 0, 0x9FFFF);
    seq_stores_refused(IDDESMAR_STATE, given, memory, 0, 0, 0);
    shows_refused(IDDESMAR_STATE, fitting_gc(given.clock_change_pending), given, memory, 1, N);
}

static void refusals(int seed) {
    iddesmar_memory small = memory;
    iddesmar_gc g = fitting_gc(seed);
    iddesmar_seq s = fitting_seq(seed);
    small.n = 16;
    g.register_selected = (uint8_t)(9 + seed % 247); /* no register's number */
    gc_unfit(g, s);
    g = fitting_gc(seed);
    g.set_reset += 16; /* more than the register keeps */
    gc_unfit(g, s);
    s.register_selected = (uint8_t)(6 + seed % 250);
    seq_unfit(s);
    s = fitting_seq(seed);
    s.map_mask += 16;
    seq_unfit(s);
    g = fitting_gc(seed);
    s = fitting_seq(seed);
    accesses_refused(IDDESMAR_MEMORY, g, s, memory, 1, 0xA0000);
    accesses_refused(IDDESMAR_MEMORY, g, s, memory, 1, 0x9FFFF);
    accesses_refused(IDDESMAR_WINDOW, g, s, memory, 0, 0x9FFFF);
    accesses_refused(IDDESMAR_OFFSET, g, s, small, 0, 0xA0010);
    stores_refused(IDDESMAR_MEMORY, s, memory, 1, 4, N);
    stores_refused(IDDESMAR_PLANE, s, memory, 0, 4 + (size_t)seed, N);
    stores_refused(IDDESMAR_OFFSET, s, small, 0, (size_t)seed % 4, 16);
    g.stats.refused_accesses = 0xFFFFFFFFu;
    accesses_refused(IDDESMAR_WINDOW, g, s, memory, 0, 0xB0000);
}

/* 1 looks at all five parts: one byte too few in any of them, and no show is made. */
static void shows_of_short_parts(iddesmar_gc g, iddesmar_seq s) {
    for (int part = 0; part < 5; part++) {
        size_t n[5] = {N, N, N, N, 8 * N};
        n[part]--;
        iddesmar_shown is = iddesmar_gc_show_pixels(&g, &s, planes[0], n[0], planes[1], n[1], planes[2], n[2], planes[3], n[3], picture, n[4], 0);
        show_answers("a show of a part that is too short", is, IDDESMAR_MEMORY, no_pixels);
    }
}

static void refused_shows(int seed) {
    iddesmar_memory small = memory, empty = memory;
    iddesmar_gc g = fitting_gc(seed);
    iddesmar_seq s = fitting_seq(seed);
    small.n = 16;
    empty.n = 0;
    shows_judge_records(g, s);
    shows_of_short_parts(g, s);
    shows_refused(IDDESMAR_MEMORY, g, s, empty, 0, 0);
    shows_refused(IDDESMAR_MEMORY, g, s, memory, 1, 0);
    shows_refused(IDDESMAR_MEMORY, g, s, memory, 1, N); /* before 5 */
    shows_refused(IDDESMAR_PLACE, g, s, small, 0, 16);
}

/* ---- accepted calls: the spare byte stays, and the mark is 0 or 1 */

static void spare_kept(const char *what, unsigned number, const iddesmar_gc *left, int seed) {
    expect(what, number, IDDESMAR_DONE);
    expect(what, left->spare, (uint8_t)(seed + 37 * offsetof(iddesmar_gc, spare)));
}

static void marked(const char *what, iddesmar_seq_answer a, unsigned value, unsigned mark) {
    expect(what, a.answer.number, IDDESMAR_DONE);
    expect(what, a.answer.value, value);
    expect(what, a.seq.clock_change_pending, mark);
}

static void acceptances(int seed) {
    unsigned set = seed != 0;
    iddesmar_gc g = fitting_gc(seed);
    iddesmar_seq s = fitting_seq(seed);
    spare_kept("spare after a read", iddesmar_gc_cpu_read_u8(&g, &s, ALL, 0xA0000, 0).number, &g, seed);
    spare_kept("spare after a write", cpu_write(&g, s, 0xA0000, 0, 0x3C).number, &g, seed);
    spare_kept("spare after write_address", iddesmar_gc_write_address(&g, 8).number, &g, seed);
    spare_kept("spare after write_data", iddesmar_gc_write_data(&g, 0x3C).number, &g, seed);
    expect("bitmask", g.bitmask, 0x3C);
    spare_kept("spare after reset", iddesmar_gc_reset(&g).number, &g, seed);
    expect("bitmask after reset", g.bitmask, 0);
    marked("the mark after write_address", seq_address(s, 2), 0, set);
    iddesmar_seq_write_address(&s, 2);
    s.clock_change_pending = (uint8_t)seed;
    marked("the mark after data for Map Mask", seq_data(s, 15), 0, set);
    marked("the mark, set", iddesmar_seq_set_clock_change_pending(s), 0, 1);
    marked("the mark, polled", iddesmar_seq_poll_clock_change(s), set, 0);
    marked("the mark after reset", iddesmar_seq_reset(s), 0, 0);
}

/* What a write stores hangs on registers, latches and byte, and not on what is there: made again, it changes nothing. How many bits the first ones changed. */
static unsigned writes_again(int seed) {
    unsigned bits = 0;
    iddesmar_gc g = fitting_gc(seed);
    iddesmar_seq s = fitting_seq(seed);
    for (int k = 0; k < 8; k++) {
        size_t address = 0xA0000 + (size_t)(5 * seed + k);
        uint8_t byte = (uint8_t)(7 * seed + 41 * k);
        iddesmar_stored first = cpu_write(&g, s, address, 1, byte);
        expect("a write", first.number, IDDESMAR_DONE);
        for (int p = 0; p < 4; p++) bits += first.changed[p];
        store_answers("a write made again", cpu_write(&g, s, address, 1, byte), IDDESMAR_DONE, nothing);
    }
    return bits;
}

/* The worked example over records of every kind, and memory of every kind in each shift mode. */
static void shows(int seed) {
    iddesmar_gc g = fitting_gc(seed);
    iddesmar_seq s = fitting_seq(seed);
    card c;
    fill(&c, sizeof c, seed);
    worked_planes();
    worked_shows(g, s);
    for (unsigned mode = STANDARD; mode <= UNUSED; mode++) shows_of_lengths(in_mode(g, mode), s, c);
}

/* ---- flags: 0 is clear, any other number set */

/* Under odd/even a0 chooses between planes 0 and 2 and planes 1 and 3. */
static void store_flag(int flag) {
    iddesmar_seq s = iddesmar_seq_new();
    unsigned set = flag != 0;
    s.map_mask = 15;
    for (int i = 0; i < 4; i++) planes[i][5] = 0;
    one_plane("plane_set by a0", seq_store(24, s, 1, 5, (uint8_t)flag, 0x81), 1, set ? 2 : 0);
    expect("plane 1 by a0", planes[1][5], set ? 0x81 : 0);
    one_plane("plane_or by a0", seq_store(26, s, 0, 5, (uint8_t)flag, 0x42), 0, set ? 0 : 2);
    expect("plane 0 by a0", planes[0][5], set ? 0 : 0x42);
    planes[3][5] = 0xFF;
    one_plane("plane_and by a0", seq_store(25, s, 3, 5, (uint8_t)flag, 0x24), 3, set ? 6 : 0);
    expect("plane 3 by a0", planes[3][5], set ? 0x24 : 0xFF);
    planes[0][5] = planes[1][5] = planes[3][5] = 0;
    iddesmar_vram_deplane(ALL, 5);
}

/* A0000 for 64K with the chain bit set: bit 0 of the offset becomes the page bit. */
static void page_flag(int flag) {
    iddesmar_gc g = iddesmar_gc_new();
    iddesmar_seq s = iddesmar_seq_new();
    uint8_t page = (uint8_t)flag;
    unsigned set = flag != 0;
    g.miscellaneous = 7;
    g.bitmask = 0xFF;
    s.map_mask = 15;
    s.memory_mode = 4;
    iddesmar_mapped low = iddesmar_gc_map_address(g, 0xA0008, 0), here = iddesmar_gc_map_address(g, 0xA0008, page);
    expect("map_address", here.number, IDDESMAR_DONE);
    expect("offset by page", here.offset, low.offset + set);
    planes[0][low.offset] = 0x11;
    planes[0][low.offset + 1] = 0x22;
    expect("a read by page", iddesmar_gc_cpu_read_u8(&g, &s, ALL, 0xA0008, page).value, set ? 0x22 : 0x11);
    expect("a peek by page", iddesmar_gc_cpu_peek_u8(&g, &s, ALL, 0xA0008, page).value, set ? 0x22 : 0x11);
    expect("a write by page", cpu_write(&g, s, 0xA0008, page, 0x33).number, IDDESMAR_DONE);
    expect("a byte of the low page", planes[0][low.offset], set ? 0x11 : 0x33);
    expect("a byte of the high page", planes[0][low.offset + 1], set ? 0x33 : 0x22);
}

static int layout(void) {
    static guarded g;
    unsigned bits = 0;
    for (int i = 0; i < 32; i++) g.before[i] = g.after[i] = 0xEE;
    g.gc = iddesmar_gc_new();
    controller_registers(&g);
    controller_accesses(&g);
    for (int i = 0; i < 32; i++) expect("a byte beside the record", g.before[i] + g.after[i], 2 * 0xEE);
    sequencer_fields();
    unknown_registers();
    for (unsigned k = 0; k <= 8; k++) {
        for (size_t plane = 0; plane < 4; plane++) direct_numbers(plane, k);
    }
    chained_numbers();
    cpu_numbers();
    worked_example();
    whole_bytes();
    for (int seed = 0; seed < 256; seed++) {
        refusals(seed);
        refused_shows(seed);
        acceptances(seed);
        bits += writes_again(seed);
        shows(seed);
        store_flag(seed);
        page_flag(seed);
    }
    expect("whether any write changed a bit", bits != 0, 1);
    if (!wrong) {
        printf("layout: the library has each field where C has it, a refused call leaves every byte but the count of accesses turned away, ");
        printf("a store tells the bits it changed, and a show has the pixels unpacked here\n");
    }
    return wrong != 0;
}

int main(int argc, char **argv) {
    (void)argv;
    int status = 0;
    if (argc > 1) {
        status = layout();
    } else {
        gc = iddesmar_gc_new();
        seq = iddesmar_seq_new();
        list();
        status = wrong != 0;
    }
    fflush(0);
    return status;
}
