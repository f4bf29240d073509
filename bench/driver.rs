//! What a call costs: the same loop over one call, for any machine. A count of instructions with many turns, less one with
//! none, is the cost of the turns; the row `loop` is what the turns cost without the call. The shows that serve every shift mode, and the writes that
//! store nothing, have loops of their own, and a row for each: in one loop with the other calls they would move the counts of those.

use std::hint::black_box;

/// A controller, a sequencer and memory of 65,536 bytes a plane.
pub trait Machine {
    fn set_gc(&mut self, register: u8, byte: u8);
    fn set_seq(&mut self, register: u8, byte: u8);
    fn write(&mut self, address: usize, byte: u8);
    fn read(&mut self, address: usize) -> u8;
    /// A write outside the window, by the number of its refusal.
    fn write_outside(&mut self, address: usize, byte: u8) -> u8;
    /// A show's first and last pixel, added: by the older show, and by the one that serves every shift mode.
    fn older_show(&mut self, offset: usize) -> u8;
    fn show(&mut self, offset: usize) -> u8;
    /// A sum over planes and picture: memory is read after the turns.
    fn sum(&self) -> u64;
}

pub const ROWS: [&str; 18] = [
    "loop",
    "mode 0 write",
    "mode 1 write",
    "mode 2 write",
    "mode 3 write",
    "chain-four write",
    "selected-plane read",
    "chain-four read",
    "compare read",
    "older show",
    "mixed: 4 port writes, 2 writes, a read, an older show",
    "loop of the shows",
    "standard show",
    "CGA show",
    "Chain4 show",
    "loop of the stopped writes",
    "write that the mask stops",
    "write refused with 2",
];

/// Runs a row and gives a number that depends on all of it.
pub fn run<M: Machine>(machine: &mut M, row: usize, turns: usize) -> u64 {
    match row {
        0..=10 => calls(machine, row, turns),
        11..=14 => shows(machine, row, turns),
        _ => stopped(machine, row, turns),
    }
}

fn calls<M: Machine>(machine: &mut M, row: usize, turns: usize) -> u64 {
    set(machine, row);
    let mut sum = 0;
    for turn in 0..turns {
        let offset = black_box(turn.wrapping_mul(7) & 0xFFFF);
        sum += match row {
            1..=5 => {
                machine.write(0xA0000 + offset, turn as u8);
                0
            }
            6..=8 => u64::from(machine.read(0xA0000 + offset)),
            9 => u64::from(machine.older_show(offset)),
            10 => mixed(machine, turn, offset),
            _ => 0,
        };
    }
    black_box(sum) + machine.sum()
}

/// As a program draws: the planes and the mode chosen through the ports, a byte laid, another beside it, one read back, pixels shown.
fn mixed<M: Machine>(machine: &mut M, turn: usize, offset: usize) -> u64 {
    machine.set_seq(2, turn as u8 & 15);
    machine.set_gc(5, [0, 1, 2, 8][turn & 3]);
    machine.write(0xA0000 + offset, turn as u8);
    machine.write(0xA0000 + (offset ^ 1), !(turn as u8));
    u64::from(machine.read(0xA0000 + offset)) + u64::from(machine.older_show(offset))
}

/// Shows of even offsets: a CGA show of the last one, which is odd, ours refuses, and the Rust wraps.
#[inline(never)]
fn shows<M: Machine>(machine: &mut M, row: usize, turns: usize) -> u64 {
    fill(machine);
    set(machine, row);
    let mut sum = 0;
    for turn in 0..turns {
        let offset = black_box(turn.wrapping_mul(14) & 0xFFFE);
        sum += if row == 11 { 0 } else { u64::from(machine.show(offset)) };
    }
    black_box(sum) + machine.sum()
}

/// Writes that store nothing: Map Mask 0, and an address of the window that is not chosen.
#[inline(never)]
fn stopped<M: Machine>(machine: &mut M, row: usize, turns: usize) -> u64 {
    set(machine, row);
    machine.set_seq(2, 0);
    let mut sum = 0;
    for turn in 0..turns {
        let offset = black_box(turn.wrapping_mul(7) & 0xFFFF);
        sum += match row {
            16 => {
                machine.write(0xA0000 + offset, turn as u8);
                0
            }
            17 => u64::from(machine.write_outside(0xB0000 + offset, turn as u8)),
            _ => 0,
        };
    }
    black_box(sum) + machine.sum()
}

/// Bytes of its own in each plane at the first 256 offsets, so that there is something to show.
fn fill<M: Machine>(machine: &mut M) {
    machine.set_seq(4, 4);
    machine.set_gc(6, 5);
    machine.set_gc(8, 0xFF);
    for at in 0..1024 {
        machine.set_seq(2, 1 << (at % 4));
        machine.write(0xA0000 + at / 4, (at * 77) as u8);
    }
}

/// Sequential, 64K window, Map Mask F, function `Xor`, rotate 3, Bit Mask 3C, Set/Reset 5, which Enable 0 leaves to mode 3; something in the latches and in memory.
fn set<M: Machine>(machine: &mut M, row: usize) {
    machine.set_seq(4, 4);
    machine.set_seq(2, 15);
    machine.set_gc(6, 5);
    machine.set_gc(0, 5);
    machine.set_gc(3, 0x1B);
    machine.set_gc(8, 0x3C);
    machine.set_gc(2, 5);
    machine.set_gc(7, 15);
    machine.set_gc(4, 2);
    machine.write(0xA0000, 0xA5);
    machine.read(0xA0000);
    machine.set_gc(5, [0, 0, 1, 2, 3, 0, 0, 0, 8, 0, 0, 0, 0, 0x20, 0x40, 0, 0, 0][row]);
    machine.set_seq(4, if matches!(row, 5 | 7) { 12 } else { 4 });
}
