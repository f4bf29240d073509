//! The processor's accesses: scenes with changing registers, and long runs with the same ones.

use super::registers::{BIT_MASK, DATA_ROTATE, MAP_MASK, MISCELLANEOUS, MODE};
use super::Generator;
use crate::call::*;

impl Generator {
    /// All registers anew, then accesses, with a register changed now and then.
    pub fn scene(&mut self) {
        self.set_all();
        for _ in 0..20 + self.random.below(200) {
            if self.random.chance(12) {
                self.tweak();
            }
            self.access();
        }
    }

    /// One access, or a look at what it left.
    pub fn access(&mut self) {
        match self.random.below(100) {
            0..=39 => self.write(),
            40..=69 => self.read(),
            70..=75 => self.at_address(GC_CPU_PEEK_U8),
            76..=81 => self.at_address(GC_MAP_ADDRESS),
            82..=87 => self.show(),
            _ => self.inspect(),
        }
    }

    pub fn write(&mut self) {
        let (address, page, byte) = (self.address(), self.bit(), self.byte());
        self.call(GC_CPU_WRITE_U8, &[address, page, byte]);
    }

    pub fn read(&mut self) {
        self.at_address(GC_CPU_READ_U8);
    }

    pub fn at_address(&mut self, operation: usize) {
        let (address, page) = (self.address(), self.bit());
        self.call(operation, &[address, page]);
    }

    /// A show, the older or the newer; seldom of an offset past the planes.
    pub fn show(&mut self) {
        let offset = if self.random.chance(5) { self.offset_refused() } else { self.offset() };
        let operation = self.random.pick(&[GC_SERIALIZE, GC_SHOW_PIXELS]);
        self.call(operation, &[offset]);
    }

    /// One access, the same registers, one address after another.
    pub fn long_run(&mut self) {
        self.set_all();
        // a window that is mapped
        let miscellaneous = self.random.pick(&[0, 2, 4, 6, 12, 14, 5, 7]);
        self.set_gc(MISCELLANEOUS, miscellaneous);
        let (start, page) = (self.address_inside(), self.bit());
        let length = 100 + self.random.below(1500);
        match self.random.below(3) {
            0 => self.fill(start, page, length),
            1 => self.copy(start, page, length),
            _ => self.draw(start, page, length),
        }
    }

    /// Writes in whatever mode.
    fn fill(&mut self, start: usize, page: usize, length: usize) {
        for i in 0..length {
            let byte = self.byte();
            self.call(GC_CPU_WRITE_U8, &[start + i, page, byte]);
        }
    }

    /// Latches from one place to another: mode 1.
    fn copy(&mut self, start: usize, page: usize, length: usize) {
        let mode = 1 | (self.random.below(64) << 2);
        self.set_gc(MODE, mode);
        let mask = self.random.pick(&[15, 15, 7, 8, 5]);
        self.set_seq(MAP_MASK, mask);
        let target = self.address_inside();
        for i in 0..length / 2 {
            self.call(GC_CPU_READ_U8, &[start + i, page]);
            self.call(GC_CPU_WRITE_U8, &[target + i, page, 0]);
        }
    }

    /// Read, then write over it by a function, in mode 0 or 2.
    fn draw(&mut self, start: usize, page: usize, length: usize) {
        let mode = self.bit() * 2 + (self.random.below(64) << 2);
        self.set_gc(MODE, mode);
        self.set_gc(DATA_ROTATE, self.calls.len() % 32);
        for i in 0..length / 2 {
            if i % 16 == 0 {
                self.set_gc(BIT_MASK, self.calls.len() % 256);
            }
            let byte = self.byte();
            self.call(GC_CPU_READ_U8, &[start + i, page]);
            self.call(GC_CPU_WRITE_U8, &[start + i, page, byte]);
        }
    }
}
