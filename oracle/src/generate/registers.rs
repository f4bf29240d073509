//! What the ports have been told so far, so that a generator can aim at the window and write only what changes.

use super::Generator;
use crate::call::*;

// Registers of the graphics controller, by their address.
pub const DATA_ROTATE: usize = 3;
pub const MAP_SELECT: usize = 4;
pub const MODE: usize = 5;
pub const MISCELLANEOUS: usize = 6;
pub const BIT_MASK: usize = 8;

// Registers of the sequencer, by their address.
pub const MAP_MASK: usize = 2;
pub const MEMORY_MODE: usize = 4;

pub struct Registers {
    gc_selected: usize,
    gc: [usize; 9],
    seq_address: usize,
    seq: [usize; 5],
}

impl Registers {
    pub fn new() -> Registers {
        Registers { gc_selected: 0, gc: [0; 9], seq_address: 0, seq: [0; 5] }
    }

    /// Takes note of a call.
    pub fn follow(&mut self, operation: usize, arguments: &[usize]) {
        match operation {
            GC_RESET => (self.gc_selected, self.gc) = (0, [0; 9]),
            GC_WRITE_ADDRESS if arguments[0] & 15 <= 8 => self.gc_selected = arguments[0] & 15,
            GC_WRITE_DATA => self.gc[self.gc_selected] = arguments[0],
            SEQ_RESET => (self.seq_address, self.seq) = (0, [0; 5]),
            SEQ_WRITE_ADDRESS => self.seq_address = arguments[0],
            SEQ_WRITE_DATA if self.seq_address <= 4 => self.seq[self.seq_address] = arguments[0],
            _ => {}
        }
    }

    /// The Memory Map field of the Miscellaneous register.
    pub fn memory_map(&self) -> usize {
        (self.gc[MISCELLANEOUS] >> 2) & 3
    }
}

impl Generator {
    /// Puts a byte into a register of the graphics controller, by its ports.
    pub fn set_gc(&mut self, register: usize, byte: usize) {
        if self.registers.gc_selected != register || self.random.chance(5) {
            let high = self.random.below(16) << 4;
            self.call(GC_WRITE_ADDRESS, &[register | high]);
        }
        self.call(GC_WRITE_DATA, &[byte]);
    }

    /// Puts a byte into a register of the sequencer, by its ports.
    pub fn set_seq(&mut self, register: usize, byte: usize) {
        if self.registers.seq_address != register || self.random.chance(5) {
            self.call(SEQ_WRITE_ADDRESS, &[register]);
        }
        self.call(SEQ_WRITE_DATA, &[byte]);
    }

    /// As `set_gc`, unless the register has the byte already.
    pub fn want_gc(&mut self, register: usize, byte: usize) {
        if self.registers.gc[register] != byte {
            self.set_gc(register, byte);
        }
    }

    pub fn want_seq(&mut self, register: usize, byte: usize) {
        if self.registers.seq[register] != byte {
            self.set_seq(register, byte);
        }
    }

    /// A byte for a register of the graphics controller.
    pub fn set_gc_any(&mut self, register: usize) {
        let byte = self.register_byte(register == MISCELLANEOUS);
        self.set_gc(register, byte);
    }

    pub fn set_seq_any(&mut self, register: usize) {
        let byte = self.register_byte(false);
        self.set_seq(register, byte);
    }

    /// Any byte; the unmapped window, which leaves nothing to see, only seldom.
    fn register_byte(&mut self, window: bool) -> usize {
        let byte = self.byte();
        match window && (byte >> 2) & 3 == 2 && self.random.chance(80) {
            true => byte ^ 8,
            false => byte,
        }
    }

    /// All registers anew.
    pub fn set_all(&mut self) {
        (0..9).for_each(|register| self.set_gc_any(register));
        (0..5).for_each(|register| self.set_seq_any(register));
        if self.random.chance(50) {
            // chain-four hides Map Mask, so it is left off more often than not
            let byte = self.byte() & !8;
            self.set_seq(MEMORY_MODE, byte);
        }
    }

    /// One register anew, of those that an access depends on.
    pub fn tweak(&mut self) {
        match self.random.below(10) {
            0..=6 => {
                let register = self.random.below(9);
                self.set_gc_any(register);
            }
            7..=8 => self.set_seq_any(MAP_MASK),
            _ => self.set_seq_any(MEMORY_MODE),
        }
    }

    /// Port traffic of every kind: any address byte, any data byte, read-backs, the clock.
    pub fn ports(&mut self) {
        for _ in 0..self.random.below(120) {
            let byte = self.byte();
            let (gc, seq) = (self.random.below(16), self.random.below(6));
            match self.random.below(12) {
                0 => self.call(GC_WRITE_ADDRESS, &[byte]),
                1 => self.call(GC_WRITE_ADDRESS, &[gc]),
                2 => self.call(GC_WRITE_DATA, &[byte]),
                3 => self.call(SEQ_WRITE_ADDRESS, &[byte]),
                4 | 5 => self.call(SEQ_WRITE_ADDRESS, &[seq]),
                6 => self.call(SEQ_WRITE_DATA, &[byte]),
                7 => self.call(SEQ_SET_CLOCK_CHANGE_PENDING, &[]),
                8 => self.call(SEQ_POLL_CLOCK_CHANGE, &[]),
                _ => self.look(),
            }
        }
    }

    /// A call that only tells a register or a field.
    pub fn look(&mut self) {
        let operation = self.random.pick(&[
            SEQ_CLOCK,
            SEQ_READ_ADDRESS,
            SEQ_READ_DATA,
            GC_CHAIN,
            GC_CHAIN4,
            GC_MEMORY_MAP,
            GC_ODD_EVEN,
            GC_SHIFT_MODE,
            GC_READ_ADDRESS,
            GC_READ_DATA,
        ]);
        self.call(operation, &[]);
    }
}
