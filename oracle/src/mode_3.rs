//! Write mode 3 by IBM's rule. The Rust calls the mode invalid and only counts, so these bytes are a second reading and not the Rust's;
//! masks, chain-four and pixels are its own, since each byte goes through its `plane_set`.

use marty_core::devices::vga::graphics_controller::GraphicsController;
use marty_core::devices::vga::sequencer::Sequencer;

/// Whether the rule is added: to the completed Rust alone. The unchanged one shows row 15 of docs/DIFFERENCES.md.
const ADDED: bool = option_env!("ORACLE_COMPLETED").is_some();

/// What an accepted write in mode 3 stores; in another mode nothing.
pub fn store(gc: &GraphicsController, seq: &mut Sequencer, offset: usize, a0: usize, byte: u8) {
    let [set_reset, _, _, data_rotate, _, mode, _, _, bit_mask] = gc.registers();
    if !ADDED || mode & 3 != 3 {
        return;
    }
    let odd_even = mode & 0x10 != 0;
    let mask = byte.rotate_right((data_rotate & 7).into()) & bit_mask;
    for plane in (0..4).filter(|plane| !odd_even || plane % 2 == a0) {
        let data = if set_reset & (1 << plane) != 0 { 0xFF } else { 0x00 };
        let latch = gc.latches()[plane];
        let combined = match data_rotate >> 3 & 3 {
            0 => data,
            1 => data & latch,
            2 => data | latch,
            _ => data ^ latch,
        };
        seq.plane_set(plane, offset, a0, (combined & mask) | (latch & !mask));
    }
}
