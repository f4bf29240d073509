//! The whole state in one line: registers, latches, counters, and a checksum of each plane and of the picture.

use crate::device::Device;

/// The names of a digest's numbers, in their order.
pub const FIELDS: [&str; 42] = [
    "gc address",
    "gc selected",
    "set_reset",
    "enable_set_reset",
    "color_compare",
    "data_rotate",
    "read_map_select",
    "mode",
    "miscellaneous",
    "color_dont_care",
    "bitmask",
    "sequencer address",
    "sequencer selected",
    "reset",
    "clocking_mode",
    "map_mask",
    "character_map_select",
    "memory_mode",
    "clock_change_pending",
    "clock_divisor",
    "char_clock",
    "latch 0",
    "latch 1",
    "latch 2",
    "latch 3",
    "mode_0_writes",
    "mode_1_writes",
    "mode_2_writes",
    "mode_3_writes",
    "mode_0_reads",
    "mode_1_reads",
    "refused_accesses",
    "plane 0 (s1)",
    "plane 0 (s2)",
    "plane 1 (s1)",
    "plane 1 (s2)",
    "plane 2 (s1)",
    "plane 2 (s2)",
    "plane 3 (s1)",
    "plane 3 (s2)",
    "picture (s1)",
    "picture (s2)",
];

pub fn digest(device: &Device) -> String {
    let mut numbers = Vec::with_capacity(FIELDS.len());
    graphics(device, &mut numbers);
    sequencer(device, &mut numbers);
    numbers.extend(device.gc.latches().map(u32::from));
    numbers.extend(device.gc.counters());
    numbers.push(device.refused_accesses);
    for plane in 0..4 {
        numbers.extend(checksum(device.seq.vram.plane_slice(plane)));
    }
    numbers.extend(checksum(device.seq.vram.picture()));
    assert_eq!(numbers.len(), FIELDS.len());
    let words: Vec<String> = numbers.iter().map(u32::to_string).collect();
    words.join(" ")
}

fn graphics(device: &Device, numbers: &mut Vec<u32>) {
    numbers.push(device.gc.read_address().into());
    numbers.push(device.gc.register_selected());
    numbers.extend(device.gc.registers().map(u32::from));
}

fn sequencer(device: &Device, numbers: &mut Vec<u32>) {
    let seq = &device.seq;
    numbers.extend([
        seq.address_byte.into(),
        seq.register_selected as u32,
        seq.reset.into(),
        seq.clocking_mode.into_bytes()[0].into(),
        seq.map_mask.into(),
        seq.character_map_select.into_bytes()[0].into(),
        seq.memory_mode.into_bytes()[0].into(),
        seq.clock_change_pending.into(),
        seq.clock_divisor,
        seq.char_clock,
    ]);
}

/// s1 starts at 1 and takes each byte; s2 starts at 0 and takes s1 after each byte. Both wrap at 2^32.
fn checksum(bytes: &[u8]) -> [u32; 2] {
    let (mut s1, mut s2) = (1u32, 0u32);
    for byte in bytes {
        s1 = s1.wrapping_add(u32::from(*byte));
        s2 = s2.wrapping_add(s1);
    }
    [s1, s2]
}
