//! Stand-in for the VGA's own mod.rs: the windows, the page bit and the rotation, as document 01 fills them in.

pub mod graphics_controller;
pub mod sequencer;
pub mod tablegen;
pub mod vram;

use crate::device_traits::videocard::VideoCardStateEntry;
use modular_bitfield::prelude::*;
use sequencer::Sequencer;
use tablegen::BYTE_EXTEND_TABLE;

/// The windows' ends, both included.
pub const VGA_MEM_ADDRESS: usize = 0xA0000;
pub const EGA_MEM_END_64: usize = 0xAFFFF;
pub const EGA_MEM_END_128: usize = 0xBFFFF;
pub const CGA_MEM_ADDRESS: usize = 0xB8000;
pub const CGA_MEM_END: usize = 0xBFFFF;

/// Bytes of a glyph in the font; no call of the lists uses it.
pub const VGA_CHARACTER_HEIGHT: usize = 32;

/// The page bit.
#[derive(Copy, Clone)]
pub enum PageSelect {
    LowPage,
    HighPage,
}

pub struct VGACard;

impl VGACard {
    /// Turns eight bits right by 0 to 7.
    pub fn rotate_right_u8(byte: u8, count: u8) -> u8 {
        byte.rotate_right(u32::from(count))
    }
}
