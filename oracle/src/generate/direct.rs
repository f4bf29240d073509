//! Calls on memory by plane and offset: those of vram.rs and of the sequencer, refused ones among them.

use super::Generator;
use crate::call::*;

const VRAM_READS: [usize; 2] = [VRAM_READ_U8, VRAM_PEEK_U8];
const VRAM_STORES: [usize; 4] = [VRAM_WRITE_U8, VRAM_PLANE_SET, VRAM_PLANE_AND, VRAM_PLANE_OR];
const SEQ_READS: [usize; 3] = [SEQ_CPU_READ_U8, SEQ_PEEK_U8, SEQ_GC_READ_U8];
const SEQ_STORES: [usize; 3] = [SEQ_PLANE_SET, SEQ_PLANE_AND, SEQ_PLANE_OR];
const AT_OFFSET: [usize; 4] = [VRAM_READ_GLYPH, VRAM_SERIALIZE_LINEAR, VRAM_DEPLANE, SEQ_SERIALIZE_LINEAR];
const AT_PLACE: [usize; 2] = [VRAM_READ_LINEAR, SEQ_READ_LINEAR];

impl Generator {
    pub fn direct(&mut self) {
        for _ in 0..20 + self.random.below(200) {
            if self.random.chance(4) {
                self.set_seq_any(super::registers::MEMORY_MODE);
                self.set_seq_any(super::registers::MAP_MASK);
            }
            let refused = self.random.chance(10);
            self.direct_call(refused);
        }
    }

    /// A call with an argument out of range where `refused`, at times with both plane and offset.
    fn direct_call(&mut self, refused: bool) {
        let bad_plane = refused && self.random.chance(50);
        let plane = if bad_plane { self.plane_refused() } else { self.plane() };
        let bad_offset = refused && (!bad_plane || self.random.chance(30));
        let offset = if bad_offset { self.offset_refused() } else { self.offset() };
        let place = if refused { self.place_refused() } else { self.place() };
        let (a0, byte) = (self.bit(), self.byte());
        match self.random.below(12) {
            0..=1 => self.call_one_of(&VRAM_READS, &[plane, offset]),
            2..=4 => self.call_one_of(&VRAM_STORES, &[plane, offset, byte]),
            5..=6 => self.call_one_of(&SEQ_READS, &[plane, offset, a0]),
            7..=9 => self.call_one_of(&SEQ_STORES, &[plane, offset, a0, byte]),
            10 => self.call_one_of(&AT_OFFSET, &[offset]),
            _ => self.call_one_of(&AT_PLACE, &[place]),
        }
    }

    fn call_one_of(&mut self, operations: &[usize], arguments: &[usize]) {
        let operation = self.random.pick(operations);
        self.call(operation, arguments);
    }

    /// Looks at memory: a plane's byte, or eight pixels.
    pub fn inspect(&mut self) {
        let (plane, offset) = (self.plane(), self.offset());
        match self.bit() {
            0 => self.call_one_of(&VRAM_READS, &[plane, offset]),
            _ => self.call_one_of(&[VRAM_SERIALIZE_LINEAR, SEQ_SERIALIZE_LINEAR], &[offset]),
        }
    }
}
