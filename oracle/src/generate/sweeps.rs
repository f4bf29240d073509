//! Sweeps: every content of every register, every combination of what a write depends on, and every show at the planes' ends.

use super::places::ENDS;
use super::registers::{DATA_ROTATE, MAP_MASK, MAP_SELECT, MEMORY_MODE, MISCELLANEOUS, MODE};
use super::Generator;
use crate::call::*;
use crate::refusals::PLANE_LENGTH;

/// Fourteen registers of 256 contents.
pub const CONTENTS: usize = 14 * 256;

/// Write mode, function, Map Mask, window, chain odd/even, Memory Mode bits 2 and 3, the controller's odd/even.
pub const COMBINATIONS: usize = 4 * 4 * 16 * 4 * 2 * 4 * 2;

/// Shift mode, Memory Mode bits 2 and 3, the controller's odd/even, and an end of the planes.
pub const SHOWS: usize = 4 * 4 * 2 * ENDS.len();

/// Odd, so that its multiples go through all combinations, and all shows, before one returns.
const STRIDE: usize = 6151;

impl Generator {
    /// The next few contents of registers, each read back and used.
    pub fn contents(&mut self) {
        for _ in 0..16 {
            let turn = self.contents % CONTENTS;
            self.contents += 1;
            let (register, byte) = (turn / 256, turn % 256);
            if register < 9 {
                self.set_gc(register, byte);
                self.call(GC_READ_DATA, &[]);
            } else {
                self.set_seq(register - 9, byte);
                self.call(SEQ_READ_DATA, &[]);
            }
            self.look();
            self.read();
            self.write();
            self.access();
        }
        self.set_all();
    }

    /// The next few combinations, each with a read that loads the latches, a write, and looks at what it left.
    pub fn combinations(&mut self) {
        for _ in 0..16 {
            let turn = self.combinations.wrapping_mul(STRIDE) % COMBINATIONS;
            self.combinations += 1;
            self.combine(turn);
            if self.random.chance(20) {
                self.tweak_data_path();
            }
            let (address, page, byte) = (self.address_inside(), self.bit(), self.byte());
            if self.random.chance(70) {
                self.read();
            }
            self.call(GC_CPU_WRITE_U8, &[address, page, byte]);
            self.call(GC_CPU_READ_U8, &[address, page]);
            self.inspect();
            if self.random.chance(40) {
                self.access();
            }
        }
    }

    /// The next few shows at the planes' ends, of bytes stored just before; then one anywhere, and one by either call.
    pub fn shows(&mut self) {
        for _ in 0..16 {
            let turn = self.shows.wrapping_mul(STRIDE) % SHOWS;
            self.shows += 1;
            let end = self.set_show(turn);
            let (plane, byte, next) = (self.plane(), self.byte(), self.byte());
            self.call(VRAM_PLANE_SET, &[plane, end, byte]);
            self.call(VRAM_PLANE_SET, &[1, (end + 1).min(PLANE_LENGTH - 1), next]);
            self.call(GC_SHOW_PIXELS, &[end]);
            let offset = self.offset();
            self.call(GC_SHOW_PIXELS, &[offset]);
            self.show();
        }
    }

    /// Sets the registers of a show; the fields that it does not speak of are any. Its end of the planes.
    fn set_show(&mut self, turn: usize) -> usize {
        let mut field = fields(turn);
        let (shift_mode, memory_mode, odd_even, end) = (field(4), field(4), field(2), field(ENDS.len()));
        let mode = self.random.below(16) | (odd_even << 4) | (shift_mode << 5) | (self.bit() << 7);
        self.set_gc(MODE, mode);
        self.want_seq(MEMORY_MODE, memory_mode << 2);
        match self.random.below(10) {
            0 => self.set_seq_any(MAP_MASK),
            1 => self.set_gc_any(MAP_SELECT),
            _ => {}
        }
        ENDS[end]
    }

    /// Sets the registers of a combination; the fields that it does not speak of are any.
    fn combine(&mut self, turn: usize) {
        let mut field = fields(turn);
        let (write_mode, function, mask, map) = (field(4), field(4), field(16), field(4));
        let (chain, memory_mode, odd_even) = (field(2), field(4), field(2));
        let mode = write_mode | (odd_even << 4) | (self.random.below(16) & 12) | (self.random.below(8) << 5);
        let rotate = (function << 3) | self.random.below(8) | (self.random.below(8) << 5);
        let miscellaneous = self.bit() | (chain << 1) | (map << 2) | (self.random.below(16) << 4);
        self.set_gc(MODE, mode);
        self.want_gc(DATA_ROTATE, rotate);
        self.want_gc(MISCELLANEOUS, miscellaneous);
        self.want_seq(MAP_MASK, mask);
        self.want_seq(MEMORY_MODE, memory_mode << 2);
    }

    /// Set/Reset, Enable, Compare, map select, Don't Care or Bit Mask anew.
    fn tweak_data_path(&mut self) {
        let register = self.random.pick(&[0, 1, 2, 4, 7, 8]);
        self.set_gc_any(register);
    }
}

/// A turn's fields, one after another, each of so many values.
fn fields(turn: usize) -> impl FnMut(usize) -> usize {
    let mut rest = turn;
    move |size| {
        let value = rest % size;
        rest /= size;
        value
    }
}
