//! Which calls leave the domain: document 01's refusals other than 2, and K3's, for n = 65,536. They are no part of the Rust
//! and judge nothing of it: they tell whether a call that ours refused is one that the documents refuse.

use crate::call::*;
use crate::device::Device;

pub const PLANE_LENGTH: usize = 65536;

// Shift modes, by their place in the enum.
pub const CGA_COMPATIBLE: u32 = 1;
pub const CHAIN4: u32 = 2;

/// The refusal of a call, in the order 9, 4, 3, 5; 0 where there is none of these.
pub fn refusal(device: &Device, call: &Call) -> u8 {
    if call.operation == GC_SERIALIZE && matches!(device.gc.shift_mode_place(), CGA_COMPATIBLE | CHAIN4) {
        return 9;
    }
    if call.argument(Argument::Plane).is_some_and(|plane| plane > 3) {
        return 4;
    }
    if call.argument(Argument::Offset).is_some_and(|offset| offset >= offsets(device, call)) {
        return if shows(call) { 5 } else { 3 };
    }
    if call.argument(Argument::Place).is_some_and(|place| place >= 8 * PLANE_LENGTH) {
        return 5;
    }
    0
}

/// How many offsets the call can name: one fewer of a CGA show by `show_pixels`, which looks at the next offset too.
fn offsets(device: &Device, call: &Call) -> usize {
    let next_too = call.operation == GC_SHOW_PIXELS && device.gc.shift_mode_place() == CGA_COMPATIBLE;
    PLANE_LENGTH - usize::from(next_too)
}

/// Whether the call is handed an offset to show.
fn shows(call: &Call) -> bool {
    matches!(call.operation, VRAM_SERIALIZE_LINEAR | SEQ_SERIALIZE_LINEAR | GC_SERIALIZE | GC_SHOW_PIXELS)
}

/// The value of a refused call: 0, for `map_address` both numbers 0, for a store all four, for `show_pixels` eight pixels 0.
pub fn refused_value(call: &Call) -> &'static str {
    match call.operation {
        GC_MAP_ADDRESS => "0 0",
        GC_SHOW_PIXELS => "00000000",
        _ if call.stores() => "0 0 0 0",
        _ => "0",
    }
}
