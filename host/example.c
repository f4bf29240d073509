/* The example of host/README.md: a pixel pattern written as a program would, drawn where it changed, and shown in three shift modes. host/run compiles it as C and, where it can, as C++,
 * and holds what it prints to the page. */
#include "iddesmar.h"

#ifdef __cplusplus
extern "C"
#endif
int printf(const char *format, ...);

static void print_pixels(const char *what, const uint8_t *pixels) {
    printf(", %s:", what);
    for (int i = 0; i < 8; i++) printf(" %X", pixels[i]);
}

enum { N = 65536 };

static uint8_t planes[4][N], picture[8 * N];
static iddesmar_memory vram = {{planes[0], planes[1], planes[2], planes[3]}, picture, N};
static iddesmar_gc gc;
static iddesmar_seq seq;
static uint8_t screen[8 * N];
static unsigned drawn; /* how often the painter was called */

/* Port 3C4 and 3C5, 3CE and 3CF. */
static void seq_port(uint8_t index, uint8_t data) {
    iddesmar_seq_write_address(&seq, index);
    iddesmar_seq_write_data(&seq, data);
}

static void gc_port(uint8_t index, uint8_t data) {
    iddesmar_gc_write_address(&gc, index);
    iddesmar_gc_write_data(&gc, data);
}

/* The painter: the eight pixels of an offset, in whatever shift mode the program has chosen. */
static void paint(size_t offset) {
    iddesmar_shown s = iddesmar_gc_show_pixels(&gc, &seq, IDDESMAR_ALL(&vram), offset);
    if (s.number != IDDESMAR_DONE) return; /* 5: past the planes, in CGACompatible with the next offset */
    for (int i = 0; i < 8; i++) screen[8 * offset + i] = s.pixels[i];
    drawn++;
}

/* What an address leads to: under chain-four four addresses lead to one offset, and CGACompatible shows plane 1 with the offset before. */
static void paint_address(size_t address) {
    size_t offset = iddesmar_gc_map_address(gc, address, 0).offset;
    if (seq.memory_mode & 8) offset -= offset % 4;
    paint(offset);
    if (iddesmar_gc_shift_mode(gc).value == 1 && offset > 0) paint(offset - 1);
}

/* The processor's bus: what the card does not answer goes elsewhere, and what changes no bit of a plane needs no painter. */
static int bus_write(size_t address, uint8_t byte) {
    iddesmar_stored s = iddesmar_gc_cpu_write_u8(&gc, &seq, IDDESMAR_ALL(&vram), address, 0, byte);
    if (s.changed[0] || s.changed[1] || s.changed[2] || s.changed[3]) paint_address(address);
    return s.number;
}

int main(void) {
    gc = iddesmar_gc_new();
    seq = iddesmar_seq_new();
    seq_port(4, 4);    /* Memory Mode: sequential */
    seq_port(2, 5);    /* Map Mask: planes 0 and 2 */
    gc_port(6, 5);     /* Miscellaneous: graphics, A0000 for 64K */
    gc_port(8, 0xFF);  /* Bit Mask: every bit */
    int here = bus_write(0xA0000, 0xA5);
    int again = bus_write(0xA0000, 0xA5);  /* the same byte: nothing to draw */
    int below = bus_write(0x9FFFF, 0xA5);
    printf("A0000: %d %d, 9FFFF: %d, drawn: %u", here, again, below, drawn);
    print_pixels("pixels", screen);
    iddesmar_answer read = iddesmar_gc_cpu_read_u8(&gc, &seq, IDDESMAR_ALL(&vram), 0xA0000, 0);
    printf(", read: %02X, latches: %02X %02X %02X %02X", read.value, gc.latches[0], gc.latches[1], gc.latches[2], gc.latches[3]);
    printf(", turned away: %u", (unsigned)gc.stats.refused_accesses);
    gc_port(5, 0x20);  /* Mode: shift mode CGACompatible */
    seq_port(2, 2);    /* Map Mask: plane 1 */
    bus_write(0xA0001, 0x1B);
    print_pixels("CGA", screen);
    gc_port(5, 0x40);  /* Mode: shift mode Chain4 */
    paint(0);
    print_pixels("Chain4", screen);
    printf("\n");
    return 0;
}
