//! The Rust's graphics controller and sequencer, called by number.

use crate::call::*;
use crate::{changed, mode_3, shown};
use marty_core::devices::vga::graphics_controller::GraphicsController;
use marty_core::devices::vga::sequencer::Sequencer;
use marty_core::devices::vga::PageSelect;

/// What a call hands out beside its answer.
pub enum Value {
    One(u64),
    Two(usize, usize),
    Four([u32; 4]),
    Pixels([u8; 8]),
}

impl std::fmt::Display for Value {
    fn fmt(&self, f: &mut std::fmt::Formatter) -> std::fmt::Result {
        match self {
            Value::One(number) => write!(f, "{number}"),
            Value::Two(first, second) => write!(f, "{first} {second}"),
            Value::Four([a, b, c, d]) => write!(f, "{a} {b} {c} {d}"),
            Value::Pixels(pixels) => pixels.iter().try_for_each(|pixel| write!(f, "{:X}", pixel & 15)),
        }
    }
}

/// 0 or 2, and the value.
pub type Answer = (u8, Value);

pub struct Device {
    pub gc: GraphicsController,
    pub seq: Sequencer,
    /// K8's seventh counter, which the Rust has not: reads and writes of the processor answered 2, since the controller's reset.
    pub refused_accesses: u32,
}

impl Device {
    pub fn new() -> Device {
        Device { gc: GraphicsController::new(), seq: Sequencer::new(), refused_accesses: 0 }
    }

    pub fn perform(&mut self, call: &Call) -> Answer {
        let answer = if call.stores() { self.stored(call) } else { self.answered(call) };
        match (call.operation, answer.0) {
            (GC_RESET, _) => self.refused_accesses = 0,
            (GC_CPU_READ_U8 | GC_CPU_WRITE_U8, 2) => self.refused_accesses = self.refused_accesses.wrapping_add(1),
            _ => {}
        }
        answer
    }

    /// The Rust's store, and how many bits of each plane it changed.
    fn stored(&mut self, call: &Call) -> Answer {
        let offset = self.store_offset(call);
        let before = changed::around(&self.seq, offset);
        let (number, _) = self.answered(call);
        (number, Value::Four(changed::bits(before, changed::around(&self.seq, offset))))
    }

    /// The offset of a store: the one given, or where the Rust maps the address. Outside the window nothing is stored, and 0 will do.
    fn store_offset(&self, call: &Call) -> usize {
        let [address, page, ..] = call.arguments;
        let mapped = || self.gc.map_address(address, page_of(page)).map_or(0, |(offset, _)| offset);
        call.argument(Argument::Offset).unwrap_or_else(mapped)
    }

    /// What the Rust answers.
    fn answered(&mut self, call: &Call) -> Answer {
        match call.operation {
            VRAM_READ_U8..=VRAM_DEPLANE => (0, self.vram(call)),
            SEQ_RESET..=SEQ_WRITE_DATA => (0, self.sequencer(call)),
            SEQ_CPU_READ_U8..=SEQ_PLANE_OR => (0, self.direct(call)),
            GC_RESET..=GC_WRITE_DATA => (0, self.graphics(call)),
            GC_MAP_ADDRESS..=GC_CPU_WRITE_U8 => self.access(call),
            GC_SERIALIZE => (0, pixels(self.gc.serialize(&self.seq, call.arguments[0]))),
            GC_SHOW_PIXELS => (0, Value::Pixels(shown::show(&mut self.gc, &mut self.seq, call.arguments[0]))),
            operation => unreachable!("operation {operation} is no call"),
        }
    }

    /// vram.rs
    fn vram(&mut self, call: &Call) -> Value {
        let [a, b, c, _] = call.arguments;
        let vram = &mut self.seq.vram;
        match call.operation {
            VRAM_READ_U8 => byte(vram.read_u8(a, b)),
            VRAM_PEEK_U8 => byte(vram.peek_u8(a, b)),
            VRAM_READ_GLYPH => byte(vram.read_glyph(a)),
            VRAM_READ_LINEAR => byte(vram.read_linear(a)),
            VRAM_SERIALIZE_LINEAR => pixels(vram.serialize_linear(a)),
            VRAM_WRITE_U8 => done(vram.write_u8(a, b, c as u8)),
            VRAM_PLANE_SET => done(vram.plane_set(a, b, c as u8)),
            VRAM_PLANE_AND => done(vram.plane_and(a, b, c as u8)),
            VRAM_PLANE_OR => done(vram.plane_or(a, b, c as u8)),
            _ => done(vram.deplane(a)),
        }
    }

    /// The sequencer's registers.
    fn sequencer(&mut self, call: &Call) -> Value {
        let byte_given = call.arguments[0] as u8;
        let seq = &mut self.seq;
        match call.operation {
            SEQ_RESET => done(seq.reset()),
            SEQ_CLOCK => Value::One(seq.clock()),
            SEQ_SET_CLOCK_CHANGE_PENDING => done(seq.set_clock_change_pending()),
            SEQ_POLL_CLOCK_CHANGE => flag(seq.poll_clock_change()),
            SEQ_READ_ADDRESS => byte(seq.read_address()),
            SEQ_READ_DATA => byte(seq.read_data()),
            SEQ_WRITE_ADDRESS => done(seq.write_address(byte_given)),
            _ => done(seq.write_data(byte_given)),
        }
    }

    /// The sequencer's calls on memory.
    fn direct(&mut self, call: &Call) -> Value {
        let [a, b, c, d] = call.arguments;
        let seq = &mut self.seq;
        match call.operation {
            SEQ_CPU_READ_U8 => byte(seq.cpu_read_u8(a, b, c)),
            SEQ_PEEK_U8 => byte(seq.peek_u8(a, b, c)),
            SEQ_GC_READ_U8 => byte(seq.gc_read_u8(a, b, c)),
            SEQ_READ_LINEAR => byte(seq.read_linear(a)),
            SEQ_SERIALIZE_LINEAR => pixels(seq.serialize_linear(a)),
            SEQ_PLANE_SET => done(seq.plane_set(a, b, c, d as u8)),
            SEQ_PLANE_AND => done(seq.plane_and(a, b, c, d as u8)),
            _ => done(seq.plane_or(a, b, c, d as u8)),
        }
    }

    /// The controller's registers.
    fn graphics(&mut self, call: &Call) -> Value {
        let byte_given = call.arguments[0] as u8;
        let gc = &mut self.gc;
        match call.operation {
            GC_RESET => done(gc.reset()),
            GC_CHAIN => flag(gc.chain()),
            GC_CHAIN4 => flag(gc.chain4()),
            GC_MEMORY_MAP => Value::One(gc.memory_map_place().into()),
            GC_ODD_EVEN => Value::One(gc.odd_even_place().into()),
            GC_SHIFT_MODE => Value::One(gc.shift_mode_place().into()),
            GC_READ_ADDRESS => byte(gc.read_address()),
            GC_READ_DATA => byte(gc.read_data()),
            GC_WRITE_ADDRESS => done(gc.write_address(byte_given)),
            _ => done(gc.write_data(byte_given)),
        }
    }

    /// The processor's accesses. The Rust answers 0 outside the window: `map_address` tells it from a byte 0.
    fn access(&mut self, call: &Call) -> Answer {
        let [address, page, byte_given, _] = call.arguments;
        let mapped = self.gc.map_address(address, page_of(page));
        let number = if mapped.is_some() { 0 } else { 2 };
        let (offset, a0) = mapped.unwrap_or((0, 0));
        let value = match call.operation {
            GC_MAP_ADDRESS => Value::Two(offset, a0),
            GC_CPU_READ_U8 => byte(self.gc.cpu_read_u8(&self.seq, address, page_of(page))),
            GC_CPU_PEEK_U8 => byte(self.gc.cpu_peek_u8(&self.seq, address, page_of(page))),
            _ => done(self.write(address, page, mapped, byte_given as u8)),
        };
        (number, value)
    }

    /// The Rust's own write, and where it is accepted what the Rust has not.
    fn write(&mut self, address: usize, page: usize, mapped: Option<(usize, usize)>, byte: u8) {
        self.gc.cpu_write_u8(&mut self.seq, address, page_of(page), byte);
        if let Some((offset, a0)) = mapped {
            mode_3::store(&self.gc, &mut self.seq, offset, a0, byte);
        }
    }
}

fn page_of(page: usize) -> PageSelect {
    match page {
        0 => PageSelect::LowPage,
        _ => PageSelect::HighPage,
    }
}

fn byte(byte: u8) -> Value {
    Value::One(byte.into())
}

fn flag(flag: bool) -> Value {
    Value::One(flag.into())
}

/// A call that hands nothing back.
fn done(_: ()) -> Value {
    Value::One(0)
}

fn pixels(part: &[u8]) -> Value {
    Value::Pixels(part.try_into().expect("eight pixels"))
}
