/* Iddesmar for C11 and C++11: MartyPC's VGA video memory, proved. Link target/staticlib/libhost.a (x86-64 Linux); host/README.md has the rest.
 *
 * Every call takes any input and says what became of it by a number: 0 is done, anything else is a refusal, and then nothing has changed, with one
 * exception: a read or a write of the processor that is refused with 2 or 3 has raised `stats.refused_accesses` by one, and that alone.
 * Memory is lent for the length of a call: four planes of n bytes each, 1 to 65,536, and a picture of 8n bytes, one for each pixel. Each pointer
 * must be good for as many bytes as are said beside it, and the five must overlap neither one another nor a record; the library reads and writes
 * nothing else and keeps nothing. No pointer may be null, one with a length of 0 included, and that to a record must be aligned as C aligns the
 * record (4 bytes). A flag that is handed in (the pending mark, a0, page) is a number: 0 is clear, any other is set. */
#ifndef IDDESMAR_H
#define IDDESMAR_H

#define IDDESMAR_VERSION "0.8.2"

#if defined(__has_include)
#if __has_include(<stdint.h>) && __has_include(<stddef.h>)
#define IDDESMAR_HAS_HEADERS
#endif
#else
#define IDDESMAR_HAS_HEADERS
#endif
#ifdef IDDESMAR_HAS_HEADERS
#include <stddef.h>
#include <stdint.h>
#else
typedef __UINT8_TYPE__ uint8_t;
typedef __UINT32_TYPE__ uint32_t;
typedef __SIZE_TYPE__ size_t;
#define offsetof(type, field) __builtin_offsetof(type, field)
#endif

#ifdef __cplusplus
extern "C" {
#define IDDESMAR_ASSERT(fact) static_assert(fact, #fact)
#else
#define IDDESMAR_ASSERT(fact) _Static_assert(fact, #fact)
#endif

/* An answer's number. A refusal's value is 0 (a store's four numbers, too), and it leaves records and memory as they were handed in; the exception is named above. */
enum {
    IDDESMAR_DONE = 0,
    IDDESMAR_MEMORY = 1, /* plane lengths differ, n is 0 or above 65,536, or the picture isn't 8n long */
    IDDESMAR_WINDOW = 2, /* the address is outside the current window, or the map is B0000 */
    IDDESMAR_OFFSET = 3, /* a plane offset is n or more */
    IDDESMAR_PLANE = 4,  /* a plane number is above 3 */
    IDDESMAR_PLACE = 5,  /* a shown offset, in CGACompatible the one after it too, is n or more, or a pixel place is 8n or more */
    IDDESMAR_STATE = 6,  /* a record holds a value that its registers cannot, or a selected register that there isn't */
    IDDESMAR_SHIFT = 9   /* the older show, iddesmar_gc_serialize, while the shift mode is Chain4 or CGACompatible */
};

/* The processor's reads and writes: the accepted ones by mode, and those refused with 2 or 3. Each goes back to 0 after 4,294,967,295. */
typedef struct iddesmar_stats {
    uint32_t mode_0_writes;
    uint32_t mode_1_writes;
    uint32_t mode_2_writes;
    uint32_t mode_3_writes;
    uint32_t mode_0_reads;
    uint32_t mode_1_reads;
    uint32_t refused_accesses;
} iddesmar_stats;

/* The graphics controller: counters, the address, the selected register's number (0 to 8), nine registers, four latches, and a byte of the host's own.
 * Each of the 44 bytes is a field's: a refused call leaves all of them but that one counter, and every call leaves `spare`, whatever it holds; `iddesmar_gc_new`
 * gives 0 there. */
typedef struct iddesmar_gc {
    iddesmar_stats stats;
    uint8_t register_select_byte;
    uint8_t register_selected;
    uint8_t set_reset;
    uint8_t enable_set_reset;
    uint8_t color_compare;
    uint8_t data_rotate;
    uint8_t read_map_select;
    uint8_t mode;
    uint8_t miscellaneous;
    uint8_t color_dont_care;
    uint8_t bitmask;
    uint8_t latches[4];
    uint8_t spare;
} iddesmar_gc;

/* The sequencer: the address, the selected register's number (0 to 5, 5 being none), five registers, the pending mark and the clock. Each of the 16 bytes is a
 * field's. A refused call hands the record back as it came, the mark's number included; an accepted one leaves a mark of 0 or 1. */
typedef struct iddesmar_seq {
    uint8_t address_byte;
    uint8_t register_selected;
    uint8_t reset;
    uint8_t clocking_mode;
    uint8_t map_mask;
    uint8_t character_map_select;
    uint8_t memory_mode;
    uint8_t clock_change_pending;
    uint32_t clock_divisor;
    uint32_t char_clock;
} iddesmar_seq;

/* Answers. What lies between or behind the fields of one (bytes 5 to 7 of iddesmar_clock, 10 to 15 of iddesmar_mapped, 2 and 3 of iddesmar_seq_answer) says nothing. */

/* A byte, a pixel, a mark (0 or 1), an enum's place in its order; 0 where a call hands nothing back. */
typedef struct iddesmar_answer {
    uint8_t number;
    uint8_t value;
} iddesmar_answer;

typedef struct iddesmar_clock {
    uint32_t clock;
    uint8_t number;
} iddesmar_clock;

typedef struct iddesmar_mapped {
    size_t offset;
    uint8_t number;
    uint8_t a0; /* 0 or 1 */
} iddesmar_mapped;

/* The eight pixels of an offset, a byte each, the leftmost first; eight zeros where refused. Pixels of the picture come as they stand there: stores leave 0 to 15. */
typedef struct iddesmar_shown {
    uint8_t pixels[8];
    uint8_t number;
} iddesmar_shown;

/* What a store changed, for a painter. changed[p] is how many of the eight bits of plane p's byte differ between before the call and after it, 0 to 8, at the offset
 * that is stored at: the one handed in, for a write of the processor the one that its address leads to, under chain-four with its low two bits clear. It is 0 for a
 * plane that was not visited, that the mask stopped, or that got the byte it had. All four are 0 where refused.
 *
 * All four 0: the call changed no plane, and if the picture matched the planes before, no pixel either. There is nothing to draw for it.
 * Not so after the host itself wrote into planes or picture: a store that stores any plane remakes the offset's eight pixels whatever its numbers are, and that may
 * change pixels of a picture that did not match. Call iddesmar_vram_deplane for what was written by hand, and draw it, before going by these numbers again.
 * They count bits of planes and not pixels: two planes may change in one pixel, and their sum does not say how many pixels look different. And they say nothing of
 * other offsets: in CGACompatible plane 1's byte is shown with the offset before its own, which is to be drawn too.
 * A plane that a reader must not see (plane 3, where it holds price strokes) has a number that the reader must not see either: leave changed[3] out. */
typedef struct iddesmar_stored {
    uint8_t changed[4];
    uint8_t number;
} iddesmar_stored;

/* An answer, and the sequencer's record as it is left. */
typedef struct iddesmar_seq_answer {
    iddesmar_answer answer;
    iddesmar_seq seq;
} iddesmar_seq_answer;

IDDESMAR_ASSERT(sizeof(iddesmar_stats) == 28);
IDDESMAR_ASSERT(offsetof(iddesmar_stats, refused_accesses) == 24);
IDDESMAR_ASSERT(sizeof(iddesmar_gc) == 44);
IDDESMAR_ASSERT(offsetof(iddesmar_gc, register_select_byte) == 28);
IDDESMAR_ASSERT(offsetof(iddesmar_gc, bitmask) == 38);
IDDESMAR_ASSERT(offsetof(iddesmar_gc, latches) == 39);
IDDESMAR_ASSERT(offsetof(iddesmar_gc, spare) == 43);
IDDESMAR_ASSERT(sizeof(iddesmar_seq) == 16);
IDDESMAR_ASSERT(offsetof(iddesmar_seq, clock_change_pending) == 7);
IDDESMAR_ASSERT(offsetof(iddesmar_seq, clock_divisor) == 8);
IDDESMAR_ASSERT(offsetof(iddesmar_seq, char_clock) == 12);
IDDESMAR_ASSERT(sizeof(iddesmar_answer) == 2);
IDDESMAR_ASSERT(sizeof(iddesmar_clock) == 8 && offsetof(iddesmar_clock, number) == 4);
IDDESMAR_ASSERT(sizeof(iddesmar_mapped) == 16 && offsetof(iddesmar_mapped, number) == 8 && offsetof(iddesmar_mapped, a0) == 9);
IDDESMAR_ASSERT(sizeof(iddesmar_shown) == 9 && offsetof(iddesmar_shown, number) == 8);
IDDESMAR_ASSERT(sizeof(iddesmar_stored) == 5 && offsetof(iddesmar_stored, changed) == 0 && offsetof(iddesmar_stored, number) == 4);
IDDESMAR_ASSERT(sizeof(iddesmar_seq_answer) == 20 && offsetof(iddesmar_seq_answer, seq) == 4);

/* The five lent parts of a call, each with its length: to be read, and to be written. */
#define IDDESMAR_SEEN \
    const uint8_t *p0, size_t n0, const uint8_t *p1, size_t n1, const uint8_t *p2, size_t n2, const uint8_t *p3, size_t n3, const uint8_t *picture, size_t pixels
#define IDDESMAR_LENT uint8_t *p0, size_t n0, uint8_t *p1, size_t n1, uint8_t *p2, size_t n2, uint8_t *p3, size_t n3, uint8_t *picture, size_t pixels

/* For a host that keeps its memory in one place: the ten arguments of a call from a pointer to it. The macro evaluates its argument ten times:
 * hand it a pointer or the address of a variable, and nothing that does something. */
typedef struct iddesmar_memory {
    uint8_t *planes[4];
    uint8_t *picture;
    size_t n; /* bytes of a plane */
} iddesmar_memory;
#define IDDESMAR_ALL(m) (m)->planes[0], (m)->n, (m)->planes[1], (m)->n, (m)->planes[2], (m)->n, (m)->planes[3], (m)->n, (m)->picture, 8 * (m)->n

/* In the archive these seven go by another name. Up to 0.7.0 they took a record by value that they now take behind a pointer: a program compiled against such a header asks for a name that is
 * not there, and is refused when it is linked, instead of handing over a record where a pointer is expected. */
#define iddesmar_gc_cpu_read_u8 iddesmar_gc_cpu_read_u8_2
#define iddesmar_gc_cpu_write_u8 iddesmar_gc_cpu_write_u8_2
#define iddesmar_gc_cpu_peek_u8 iddesmar_gc_cpu_peek_u8_2
#define iddesmar_gc_show_pixels iddesmar_gc_show_pixels_2
#define iddesmar_gc_serialize iddesmar_gc_serialize_2
#define iddesmar_seq_write_address iddesmar_seq_write_address_2
#define iddesmar_seq_write_data iddesmar_seq_write_data_2

/* ---- the graphics controller; a record behind a pointer is updated where it stands, one behind a pointer to const is only read */

iddesmar_gc iddesmar_gc_new(void);
iddesmar_answer iddesmar_gc_reset(iddesmar_gc *gc);
iddesmar_answer iddesmar_gc_write_address(iddesmar_gc *gc, uint8_t byte);
iddesmar_answer iddesmar_gc_write_data(iddesmar_gc *gc, uint8_t byte);
iddesmar_answer iddesmar_gc_cpu_read_u8(iddesmar_gc *gc, const iddesmar_seq *seq, IDDESMAR_SEEN, size_t address, uint8_t page);
iddesmar_stored iddesmar_gc_cpu_write_u8(iddesmar_gc *gc, const iddesmar_seq *seq, IDDESMAR_LENT, size_t address, uint8_t page, uint8_t byte);
iddesmar_answer iddesmar_gc_cpu_peek_u8(const iddesmar_gc *gc, const iddesmar_seq *seq, IDDESMAR_SEEN, size_t address, uint8_t page);

/* The eight pixels of an offset, by the shift mode; it serves all four, and is never refused with 9.
 *   Standard, Unused  the eight bytes of the picture from 8 * offset on, as they stand
 *   CGACompatible     pixels[i], i from 0 to 3, is bits 7 - 2 * i and 6 - 2 * i of plane 0's byte at the offset, pixels[4 + i] the same of plane 1's byte at the next
 *                     offset: 0 to 3. At the last offset, which has no next one, it is refused with 5
 *   Chain4            pixels[2 * i] and pixels[2 * i + 1] are the high and the low four bits of plane i's byte at the offset: 0 to 15
 * CGACompatible and Chain4 read planes, never the picture, at the offset as it stands: Memory Mode (chain-four, odd/even), map select, masks and the controller's
 * odd/even change nothing. No record, counter or memory moves. */
iddesmar_shown iddesmar_gc_show_pixels(const iddesmar_gc *gc, const iddesmar_seq *seq, IDDESMAR_SEEN, size_t offset);
/* The older show: the same in Standard and Unused; in CGACompatible and Chain4 it is refused with 9. */
iddesmar_shown iddesmar_gc_serialize(const iddesmar_gc *gc, const iddesmar_seq *seq, IDDESMAR_SEEN, size_t offset);

iddesmar_mapped iddesmar_gc_map_address(iddesmar_gc gc, size_t address, uint8_t page);
iddesmar_answer iddesmar_gc_read_address(iddesmar_gc gc);
iddesmar_answer iddesmar_gc_read_data(iddesmar_gc gc);
iddesmar_answer iddesmar_gc_chain(iddesmar_gc gc);
iddesmar_answer iddesmar_gc_chain4(iddesmar_gc gc);
iddesmar_answer iddesmar_gc_memory_map(iddesmar_gc gc); /* A0000_128k, A0000_64K, B0000_32K, B8000_32K */
iddesmar_answer iddesmar_gc_odd_even(iddesmar_gc gc);   /* Sequential, OddEven */
iddesmar_answer iddesmar_gc_shift_mode(iddesmar_gc gc); /* Standard, CGACompatible, Chain4, Unused */

/* ---- the sequencer: its registers and clock, the two port writes where the record stands, then its own calls on memory */

iddesmar_seq iddesmar_seq_new(void);
iddesmar_seq_answer iddesmar_seq_reset(iddesmar_seq seq);
iddesmar_clock iddesmar_seq_clock(iddesmar_seq seq);
iddesmar_seq_answer iddesmar_seq_set_clock_change_pending(iddesmar_seq seq);
iddesmar_seq_answer iddesmar_seq_poll_clock_change(iddesmar_seq seq);
iddesmar_answer iddesmar_seq_read_address(iddesmar_seq seq);
iddesmar_answer iddesmar_seq_read_data(iddesmar_seq seq);
iddesmar_answer iddesmar_seq_write_address(iddesmar_seq *seq, uint8_t byte);
iddesmar_answer iddesmar_seq_write_data(iddesmar_seq *seq, uint8_t byte);
iddesmar_answer iddesmar_seq_cpu_read_u8(iddesmar_seq seq, IDDESMAR_SEEN, size_t plane, size_t offset, uint8_t a0);
iddesmar_answer iddesmar_seq_peek_u8(iddesmar_seq seq, IDDESMAR_SEEN, size_t plane, size_t offset, uint8_t a0);
iddesmar_answer iddesmar_seq_gc_read_u8(iddesmar_seq seq, IDDESMAR_SEEN, size_t plane, size_t offset, uint8_t a0);
iddesmar_answer iddesmar_seq_read_linear(iddesmar_seq seq, IDDESMAR_SEEN, size_t place);
iddesmar_shown iddesmar_seq_serialize_linear(iddesmar_seq seq, IDDESMAR_SEEN, size_t offset);
iddesmar_stored iddesmar_seq_plane_set(iddesmar_seq seq, IDDESMAR_LENT, size_t plane, size_t offset, uint8_t a0, uint8_t byte);
iddesmar_stored iddesmar_seq_plane_and(iddesmar_seq seq, IDDESMAR_LENT, size_t plane, size_t offset, uint8_t a0, uint8_t byte);
iddesmar_stored iddesmar_seq_plane_or(iddesmar_seq seq, IDDESMAR_LENT, size_t plane, size_t offset, uint8_t a0, uint8_t byte);

/* ---- memory alone */

iddesmar_answer iddesmar_vram_read_u8(IDDESMAR_SEEN, size_t plane, size_t offset);
iddesmar_answer iddesmar_vram_peek_u8(IDDESMAR_SEEN, size_t plane, size_t offset);
iddesmar_answer iddesmar_vram_read_glyph(IDDESMAR_SEEN, size_t offset);
iddesmar_answer iddesmar_vram_read_linear(IDDESMAR_SEEN, size_t place);
iddesmar_shown iddesmar_vram_serialize_linear(IDDESMAR_SEEN, size_t offset);
iddesmar_stored iddesmar_vram_write_u8(IDDESMAR_LENT, size_t plane, size_t offset, uint8_t byte);
iddesmar_stored iddesmar_vram_plane_set(IDDESMAR_LENT, size_t plane, size_t offset, uint8_t byte);
iddesmar_stored iddesmar_vram_plane_and(IDDESMAR_LENT, size_t plane, size_t offset, uint8_t byte);
iddesmar_stored iddesmar_vram_plane_or(IDDESMAR_LENT, size_t plane, size_t offset, uint8_t byte);
iddesmar_answer iddesmar_vram_deplane(const uint8_t *p0, size_t n0, const uint8_t *p1, size_t n1, const uint8_t *p2, size_t n2, const uint8_t *p3, size_t n3,
                                      uint8_t *picture, size_t pixels, size_t offset);

#ifdef __cplusplus
}
#endif
#endif
