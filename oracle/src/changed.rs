//! K6's four numbers: how many bits of each plane a store changed. The Rust's stores hand nothing back, so its bytes are looked at before and after its own call.
//! No rule of masks, modes or chain-four is here.

use marty_core::devices::vga::sequencer::Sequencer;

/// Planes 0 to 3 at the four offsets that have all but the low two bits of this one. A store is at one of them: at the offset itself, or at the first under
/// chain-four, and the Rust decides which.
pub fn around(seq: &Sequencer, offset: usize) -> [u32; 4] {
    let first = offset & !3;
    [0, 1, 2, 3].map(|plane| u32::from_le_bytes([0, 1, 2, 3].map(|low| seq.vram.read_u8(plane, first + low))))
}

/// How many bits of each plane differ.
pub fn bits(before: [u32; 4], after: [u32; 4]) -> [u32; 4] {
    [0, 1, 2, 3].map(|plane| (before[plane] ^ after[plane]).count_ones())
}
