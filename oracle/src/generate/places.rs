//! Arguments: bytes, planes, offsets, pixel places and addresses, with hot spots and edges.

use super::Generator;
use crate::refusals::PLANE_LENGTH;

const BYTES: [usize; 10] = [0x00, 0xFF, 0x01, 0x80, 0x0F, 0xF0, 0xAA, 0x55, 0x3C, 0x81];

/// Edges of planes and of what the address rules cut out of them.
const OFFSETS: [usize; 20] = [
    0, 1, 2, 3, 4, 5, 7, 8, 0x3FFF, 0x4000, 0x4001, 0x7FFE, 0x7FFF, 0x8000, 0x8001, 0xBFFF, 0xFFFC, 0xFFFD, 0xFFFE,
    0xFFFF,
];

/// The planes' ends: four offsets of each, so that three of four are no multiple of four.
pub const ENDS: [usize; 8] = [0, 1, 2, 3, 0xFFFC, 0xFFFD, 0xFFFE, 0xFFFF];

/// Edges of the windows, on both sides.
const EDGES: [usize; 20] = [
    0x9FFFE, 0x9FFFF, 0xA0000, 0xA0001, 0xA3FFF, 0xA4000, 0xAFFFE, 0xAFFFF, 0xB0000, 0xB0001, 0xB4001, 0xB7FFE,
    0xB7FFF, 0xB8000, 0xB8001, 0xBFFFD, 0xBFFFE, 0xBFFFF, 0xC0000, 0xC0001,
];

/// Outside every window, some with the low bits of an address inside.
const FAR: [usize; 10] =
    [0, 1, 0x4000, 0xFFFF, 0x10000, 0x1A0000, 0x1_000A_0000, 0x1_000B_8000, 0x1000_0000_000A_0000, usize::MAX];

const PLANES_REFUSED: [usize; 10] = [4, 4, 4, 5, 6, 7, 8, 256, 1 << 32, usize::MAX];

const OFFSETS_REFUSED: [usize; 10] = [
    PLANE_LENGTH,
    PLANE_LENGTH,
    PLANE_LENGTH + 1,
    PLANE_LENGTH + 1,
    PLANE_LENGTH + 3,
    8 * PLANE_LENGTH,
    1 << 32,
    1 << 61,
    usize::MAX - 1,
    usize::MAX,
];

const PLACES_REFUSED: [usize; 6] =
    [8 * PLANE_LENGTH, 8 * PLANE_LENGTH, 8 * PLANE_LENGTH + 1, 16 * PLANE_LENGTH, 1 << 32, usize::MAX];

impl Generator {
    /// Chooses new hot offsets: some anywhere, some beside each other, some at edges.
    pub fn heat(&mut self) {
        let base = self.random.below(PLANE_LENGTH);
        for i in 0..self.hot.len() {
            self.hot[i] = match i {
                0..=3 => (base + i) % PLANE_LENGTH,
                4..=7 => self.random.pick(&OFFSETS),
                _ => self.random.below(PLANE_LENGTH),
            };
        }
    }

    pub fn byte(&mut self) -> usize {
        match self.random.chance(25) {
            true => self.random.pick(&BYTES),
            false => self.random.below(256),
        }
    }

    pub fn bit(&mut self) -> usize {
        self.random.below(2)
    }

    pub fn plane(&mut self) -> usize {
        self.random.below(4)
    }

    pub fn plane_refused(&mut self) -> usize {
        self.random.pick(&PLANES_REFUSED)
    }

    pub fn offset(&mut self) -> usize {
        let hot = self.random.pick(&self.hot);
        match self.random.below(100) {
            0..=59 => hot,
            60..=74 => (hot & !3) | self.random.below(4),
            75..=87 => self.random.pick(&OFFSETS),
            _ => self.random.below(PLANE_LENGTH),
        }
    }

    pub fn offset_refused(&mut self) -> usize {
        self.random.pick(&OFFSETS_REFUSED)
    }

    pub fn place(&mut self) -> usize {
        8 * self.offset() + self.random.below(8)
    }

    pub fn place_refused(&mut self) -> usize {
        self.random.pick(&PLACES_REFUSED)
    }

    /// An address, most often inside the current window.
    pub fn address(&mut self) -> usize {
        match self.random.below(100) {
            0..=89 => self.address_inside(),
            90..=96 => self.random.pick(&EDGES),
            97 => self.random.below(0x100000),
            _ => self.random.pick(&FAR),
        }
    }

    /// An address of the current window; of B0000's 32K where the window is unmapped.
    pub fn address_inside(&mut self) -> usize {
        let offset = self.offset();
        match self.registers.memory_map() {
            0 => 0xA0000 + offset + (self.bit() << 16),
            1 => 0xA0000 + offset,
            2 => 0xB0000 + offset % 0x8000,
            _ => 0xB8000 + offset % 0x8000,
        }
    }
}
