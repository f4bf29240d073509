//! K3's show, `show_pixels`: the Rust's own `serialize`, which unpacks every shift mode. In `Chain4` and `CGACompatible` it reads planes by `gc_read_u8`, which
//! clears the low two bits of the offset where Memory Mode has bits 2 and 3, and K3 reads without chain-four: so chain-four is taken out of Memory Mode for the
//! length of the call. No line of the Rust is edited for it.

use crate::refusals::{CGA_COMPATIBLE, CHAIN4};
use marty_core::devices::vga::graphics_controller::GraphicsController;
use marty_core::devices::vga::sequencer::{SMemoryModeRegister, Sequencer};
use std::panic::{catch_unwind, resume_unwind, AssertUnwindSafe};

/// Whether chain-four is taken out: of the completed Rust alone. The unchanged one shows row 5 of docs/DIFFERENCES.md.
const TAKEN_OUT: bool = option_env!("ORACLE_COMPLETED").is_some();

/// Memory Mode's bit 3.
const CHAIN_FOUR: u8 = 8;

pub fn show(gc: &mut GraphicsController, seq: &mut Sequencer, offset: usize) -> [u8; 8] {
    let kept = seq.memory_mode;
    if TAKEN_OUT && matches!(gc.shift_mode_place(), CGA_COMPATIBLE | CHAIN4) {
        seq.memory_mode = SMemoryModeRegister::from_bytes([kept.into_bytes()[0] & !CHAIN_FOUR]);
    }
    let shown = catch_unwind(AssertUnwindSafe(|| gc.serialize(seq, offset).try_into().expect("eight pixels")));
    // put back after a panic too
    seq.memory_mode = kept;
    shown.unwrap_or_else(|panic| resume_unwind(panic))
}
