//! Iddesmar for Rust: MartyPC's VGA video memory, proved, behind a safe face with MartyPC's own names. `mod iddesmar;` and link
//! target/staticlib/libhost.a (x86-64 Linux): `rustc --edition 2021 -L target/staticlib ..`. host/README.md has the rest.
//!
//! Every call takes any input and none panics; what it refuses is an `Err` with the reason, and then nothing has changed, with one exception: a read or a
//! write of the processor that is refused with `Window` or `Offset` has raised `stats.refused_accesses` by one, and that alone. The library is handed
//! slices that Rust itself has borrowed, each with its own length, so no call can reach outside them.
//!
//! The eight stores (`Vram`'s `write_u8`, `plane_set`, `plane_and` and `plane_or`, the sequencer's three, `cpu_write_u8`) hand back four numbers, plane 0 first: how
//! many of the eight bits of each plane's byte changed, at the offset that is stored at (under chain-four with its low two bits clear; of `cpu_write_u8` the one that
//! the address leads to). A plane that was not visited, that the mask stopped or that got the byte it had has 0.
//! For a painter: `[0; 4]` says that no plane changed, and so no pixel, if the picture matched the planes before. A picture that did not match, as after a `Vram::over`
//! of memory that was written by hand, is remade at its offset by any store that stores a plane, whatever the numbers: `deplane` and draw first, then go by them.
//! They count bits of planes, and not pixels that look different: two planes may change in one pixel. They say nothing of other offsets: in CGACompatible plane 1's
//! byte is shown with the offset before its own, which is to be drawn too. Who must not see a plane (plane 3, where it holds price strokes) must not see its number.
//!
//! A state is saved as the two records (`record`, plain data with public fields, laid out as in C) and the bytes of `Vram`, and comes back by
//! `GraphicsController::from_record` and `Sequencer::from_record`. Any record may come: where it holds a value that its registers cannot, every call
//! but `reset` refuses with `Refusal::State`.

use std::mem::{offset_of, size_of};

/// Why a call was refused, by document 01's numbers.
#[derive(Clone, Copy, Debug, PartialEq, Eq)]
#[repr(u8)]
pub enum Refusal {
    /// plane lengths differ, n is 0 or above 65,536, or the picture isn't 8n long
    Memory = 1,
    /// the address is outside the current window, or the map is B0000
    Window = 2,
    /// a plane offset is n or more
    Offset = 3,
    /// a plane number is above 3
    Plane = 4,
    /// a shown offset, in CGACompatible the one after it too, is n or more, or a pixel place is 8n or more
    Place = 5,
    /// a record holds a value that its registers cannot
    State = 6,
    /// the older show, `serialize`, while the shift mode is Chain4 or CGACompatible
    Shift = 9,
}

impl Refusal {
    pub fn number(self) -> u8 {
        self as u8
    }

    /// A refusal by its number. No call answers another number than these, by its contract: the last row has 9 alone.
    fn of(number: u8) -> Self {
        match number {
            1 => Refusal::Memory,
            2 => Refusal::Window,
            3 => Refusal::Offset,
            4 => Refusal::Plane,
            5 => Refusal::Place,
            6 => Refusal::State,
            _ => Refusal::Shift,
        }
    }
}

fn judged<T>(number: u8, value: T) -> Result<T, Refusal> {
    match number {
        0 => Ok(value),
        _ => Err(Refusal::of(number)),
    }
}

#[derive(Clone, Copy, Debug, PartialEq, Eq)]
pub enum PageSelect {
    LowPage,
    HighPage,
}

#[derive(Clone, Copy, Debug, PartialEq, Eq)]
pub enum MemoryMap {
    A0000_128k,
    A0000_64K,
    B0000_32K,
    B8000_32K,
}

#[derive(Clone, Copy, Debug, PartialEq, Eq)]
pub enum OddEvenModeComplement {
    Sequential,
    OddEven,
}

#[derive(Clone, Copy, Debug, PartialEq, Eq)]
pub enum ShiftMode {
    Standard,
    CGACompatible,
    Chain4,
    Unused,
}

// ---- what crosses the boundary

/// The processor's reads and writes: the accepted ones by mode, and those refused with 2 or 3. Each goes back to 0 after 4,294,967,295.
#[derive(Clone, Copy, Debug, PartialEq, Eq)]
#[repr(C)]
pub struct GraphicsControllerStats {
    pub mode_0_writes: u32,
    pub mode_1_writes: u32,
    pub mode_2_writes: u32,
    pub mode_3_writes: u32,
    pub mode_0_reads: u32,
    pub mode_1_reads: u32,
    pub refused_accesses: u32,
}

/// The graphics controller's record; the selected register by its number.
#[derive(Clone, Copy, Debug, PartialEq, Eq)]
#[repr(C)]
pub struct ControllerRecord {
    pub stats: GraphicsControllerStats,
    pub register_select_byte: u8,
    pub register_selected: u8,
    pub set_reset: u8,
    pub enable_set_reset: u8,
    pub color_compare: u8,
    pub data_rotate: u8,
    pub read_map_select: u8,
    pub mode: u8,
    pub miscellaneous: u8,
    pub color_dont_care: u8,
    pub bitmask: u8,
    pub latches: [u8; 4],
    /// The host's own byte: every call leaves it as it is.
    pub spare: u8,
}

/// The sequencer's record; the selected register by its number, 5 being none.
#[derive(Clone, Copy, Debug, PartialEq, Eq)]
#[repr(C)]
pub struct SequencerRecord {
    pub address_byte: u8,
    pub register_selected: u8,
    pub reset: u8,
    pub clocking_mode: u8,
    pub map_mask: u8,
    pub character_map_select: u8,
    pub memory_mode: u8,
    /// 0 is clear, any other number set; an accepted call leaves 0 or 1.
    pub clock_change_pending: u8,
    pub clock_divisor: u32,
    pub char_clock: u32,
}

#[derive(Clone, Copy)]
#[repr(C)]
struct Answer {
    number: u8,
    value: u8,
}

impl Answer {
    fn byte(self) -> Result<u8, Refusal> {
        judged(self.number, self.value)
    }

    fn done(self) -> Result<(), Refusal> {
        judged(self.number, ())
    }

    fn flag(self) -> Result<bool, Refusal> {
        judged(self.number, self.value != 0)
    }

    /// The enum's value at a place in its order. A call answers a place below N, by its contract; the remainder leaves nothing to panic.
    fn chosen<T: Copy, const N: usize>(self, values: [T; N]) -> Result<T, Refusal> {
        judged(self.number, values[self.value as usize % N])
    }
}

#[repr(C)]
struct Clock {
    clock: u32,
    number: u8,
}

#[repr(C)]
struct Mapped {
    offset: usize,
    number: u8,
    a0: u8,
}

#[repr(C)]
struct Shown {
    pixels: [u8; 8],
    number: u8,
}

impl Shown {
    fn pixels(self) -> Result<[u8; 8], Refusal> {
        judged(self.number, self.pixels)
    }
}

/// What a store changed: how many bits of each plane's byte; four zeros where refused.
#[repr(C)]
struct Stored {
    changed: [u8; 4],
    number: u8,
}

impl Stored {
    fn changed(self) -> Result<[u8; 4], Refusal> {
        judged(self.number, self.changed)
    }
}

#[repr(C)]
struct SequencerAnswer {
    answer: Answer,
    seq: SequencerRecord,
}

const _: () = {
    assert!(size_of::<GraphicsControllerStats>() == 28);
    assert!(offset_of!(GraphicsControllerStats, refused_accesses) == 24);
    assert!(size_of::<ControllerRecord>() == 44);
    assert!(offset_of!(ControllerRecord, register_select_byte) == 28);
    assert!(offset_of!(ControllerRecord, bitmask) == 38);
    assert!(offset_of!(ControllerRecord, latches) == 39);
    assert!(offset_of!(ControllerRecord, spare) == 43);
    assert!(size_of::<SequencerRecord>() == 16);
    assert!(offset_of!(SequencerRecord, clock_change_pending) == 7);
    assert!(offset_of!(SequencerRecord, clock_divisor) == 8);
    assert!(offset_of!(SequencerRecord, char_clock) == 12);
    assert!(size_of::<Answer>() == 2);
    assert!(size_of::<Clock>() == 8 && offset_of!(Clock, number) == 4);
    assert!(size_of::<Mapped>() == 16 && offset_of!(Mapped, number) == 8 && offset_of!(Mapped, a0) == 9);
    assert!(size_of::<Shown>() == 9 && offset_of!(Shown, number) == 8);
    assert!(size_of::<Stored>() == 5 && offset_of!(Stored, changed) == 0 && offset_of!(Stored, number) == 4);
    assert!(size_of::<SequencerAnswer>() == 20 && offset_of!(SequencerAnswer, seq) == 4);
};

/// Declares calls: what comes before the five lent parts, the kind of pointer to them, what comes after. Each part has its length beside it.
macro_rules! calls {
    ($(fn $name:ident($($first:ty),*; $p:ty, $q:ty; $($last:ty),*) -> $answer:ty;)*) => {
        #[link(name = "host", kind = "static")]
        extern "C" {
            $(fn $name($(_: $first,)* _: $p, _: usize, _: $p, _: usize, _: $p, _: usize, _: $p, _: usize, _: $q, _: usize, $(_: $last),*) -> $answer;)*
        }
    };
}

type Seen = *const u8;
type Lent = *mut u8;

// A name that ends in _2 is that of a call which took its records by value before: a module of an older version asks for the older name, and is refused when it is linked.
calls! {
    fn iddesmar_gc_cpu_read_u8_2(&mut ControllerRecord, &SequencerRecord; Seen, Seen; usize, u8) -> Answer;
    fn iddesmar_gc_cpu_write_u8_2(&mut ControllerRecord, &SequencerRecord; Lent, Lent; usize, u8, u8) -> Stored;
    fn iddesmar_gc_cpu_peek_u8_2(&ControllerRecord, &SequencerRecord; Seen, Seen; usize, u8) -> Answer;
    fn iddesmar_gc_show_pixels_2(&ControllerRecord, &SequencerRecord; Seen, Seen; usize) -> Shown;
    fn iddesmar_gc_serialize_2(&ControllerRecord, &SequencerRecord; Seen, Seen; usize) -> Shown;
    fn iddesmar_seq_cpu_read_u8(SequencerRecord; Seen, Seen; usize, usize, u8) -> Answer;
    fn iddesmar_seq_peek_u8(SequencerRecord; Seen, Seen; usize, usize, u8) -> Answer;
    fn iddesmar_seq_gc_read_u8(SequencerRecord; Seen, Seen; usize, usize, u8) -> Answer;
    fn iddesmar_seq_read_linear(SequencerRecord; Seen, Seen; usize) -> Answer;
    fn iddesmar_seq_serialize_linear(SequencerRecord; Seen, Seen; usize) -> Shown;
    fn iddesmar_seq_plane_set(SequencerRecord; Lent, Lent; usize, usize, u8, u8) -> Stored;
    fn iddesmar_seq_plane_and(SequencerRecord; Lent, Lent; usize, usize, u8, u8) -> Stored;
    fn iddesmar_seq_plane_or(SequencerRecord; Lent, Lent; usize, usize, u8, u8) -> Stored;
    fn iddesmar_vram_read_u8(; Seen, Seen; usize, usize) -> Answer;
    fn iddesmar_vram_peek_u8(; Seen, Seen; usize, usize) -> Answer;
    fn iddesmar_vram_read_glyph(; Seen, Seen; usize) -> Answer;
    fn iddesmar_vram_read_linear(; Seen, Seen; usize) -> Answer;
    fn iddesmar_vram_serialize_linear(; Seen, Seen; usize) -> Shown;
    fn iddesmar_vram_write_u8(; Lent, Lent; usize, usize, u8) -> Stored;
    fn iddesmar_vram_plane_set(; Lent, Lent; usize, usize, u8) -> Stored;
    fn iddesmar_vram_plane_and(; Lent, Lent; usize, usize, u8) -> Stored;
    fn iddesmar_vram_plane_or(; Lent, Lent; usize, usize, u8) -> Stored;
    fn iddesmar_vram_deplane(; Seen, Lent; usize) -> Answer;
}

extern "C" {
    fn iddesmar_gc_new() -> ControllerRecord;
    fn iddesmar_gc_reset(gc: &mut ControllerRecord) -> Answer;
    fn iddesmar_gc_write_address(gc: &mut ControllerRecord, byte: u8) -> Answer;
    fn iddesmar_gc_write_data(gc: &mut ControllerRecord, byte: u8) -> Answer;
    fn iddesmar_gc_read_address(gc: ControllerRecord) -> Answer;
    fn iddesmar_gc_read_data(gc: ControllerRecord) -> Answer;
    fn iddesmar_gc_chain(gc: ControllerRecord) -> Answer;
    fn iddesmar_gc_chain4(gc: ControllerRecord) -> Answer;
    fn iddesmar_gc_memory_map(gc: ControllerRecord) -> Answer;
    fn iddesmar_gc_odd_even(gc: ControllerRecord) -> Answer;
    fn iddesmar_gc_shift_mode(gc: ControllerRecord) -> Answer;
    fn iddesmar_gc_map_address(gc: ControllerRecord, address: usize, page: u8) -> Mapped;
    fn iddesmar_seq_new() -> SequencerRecord;
    fn iddesmar_seq_reset(seq: SequencerRecord) -> SequencerAnswer;
    fn iddesmar_seq_clock(seq: SequencerRecord) -> Clock;
    fn iddesmar_seq_set_clock_change_pending(seq: SequencerRecord) -> SequencerAnswer;
    fn iddesmar_seq_poll_clock_change(seq: SequencerRecord) -> SequencerAnswer;
    fn iddesmar_seq_read_address(seq: SequencerRecord) -> Answer;
    fn iddesmar_seq_read_data(seq: SequencerRecord) -> Answer;
    fn iddesmar_seq_write_address_2(seq: &mut SequencerRecord, byte: u8) -> Answer;
    fn iddesmar_seq_write_data_2(seq: &mut SequencerRecord, byte: u8) -> Answer;
}

/// A call over five slices that are to be read: each goes over as a pointer and its own length.
macro_rules! seen {
    ($call:ident($($first:expr),*; $memory:expr; $($last:expr),*)) => {{
        let [a, b, c, d, e] = $memory.parts();
        // SAFETY: five live borrows, each with its own length; the library reads within them and keeps none.
        unsafe { $call($($first,)* a.as_ptr(), a.len(), b.as_ptr(), b.len(), c.as_ptr(), c.len(), d.as_ptr(), d.len(), e.as_ptr(), e.len(), $($last),*) }
    }};
}

/// The same over five slices that may be written.
macro_rules! lent {
    ($call:ident($($first:expr),*; $memory:expr; $($last:expr),*)) => {{
        let [a, b, c, d, e] = $memory.parts_mut();
        // SAFETY: five live borrows that no other has, each with its own length; the library stays within them and keeps none.
        unsafe { $call($($first,)* a.as_mut_ptr(), a.len(), b.as_mut_ptr(), b.len(), c.as_mut_ptr(), c.len(), d.as_mut_ptr(), d.len(), e.as_mut_ptr(), e.len(), $($last),*) }
    }};
}

/// A call on records alone.
macro_rules! asked {
    ($call:ident($($given:expr),*)) => {
        // SAFETY: the library takes any record; a reference is live and is nobody else's.
        unsafe { $call($($given),*) }
    };
}

// ---- video memory

/// Four planes and a picture, its own (`Vec<u8>`, `Box<[u8]>`) or lent to it (`&mut [u8]`). Any lengths may stand here: a call on wrong ones is refused.
pub struct Vram<B = Vec<u8>> {
    planes: [B; 4],
    picture: B,
}

impl Vram {
    /// Planes of 65,536 bytes and their picture, all 0.
    pub fn new() -> Self {
        let plane = || vec![0; 65536];
        Vram { planes: [plane(), plane(), plane(), plane()], picture: vec![0; 8 * 65536] }
    }
}

impl Default for Vram {
    fn default() -> Self {
        Vram::new()
    }
}

impl<B: AsRef<[u8]> + AsMut<[u8]>> Vram<B> {
    pub fn over(planes: [B; 4], picture: B) -> Self {
        Vram { planes, picture }
    }

    fn parts(&self) -> [&[u8]; 5] {
        let [a, b, c, d] = &self.planes;
        [a.as_ref(), b.as_ref(), c.as_ref(), d.as_ref(), self.picture.as_ref()]
    }

    fn parts_mut(&mut self) -> [&mut [u8]; 5] {
        let [a, b, c, d] = &mut self.planes;
        [a.as_mut(), b.as_mut(), c.as_mut(), d.as_mut(), self.picture.as_mut()]
    }

    /// A plane's bytes; of a number above 3 `Refusal::Plane`, as from every call by plane.
    pub fn plane(&self, plane: usize) -> Result<&[u8], Refusal> {
        self.planes.get(plane).map(B::as_ref).ok_or(Refusal::Plane)
    }

    pub fn picture(&self) -> &[u8] {
        self.picture.as_ref()
    }

    pub fn read_glyph(&self, offset: usize) -> Result<u8, Refusal> {
        seen!(iddesmar_vram_read_glyph(; self; offset)).byte()
    }

    pub fn peek_u8(&self, plane: usize, offset: usize) -> Result<u8, Refusal> {
        seen!(iddesmar_vram_peek_u8(; self; plane, offset)).byte()
    }

    pub fn read_u8(&self, plane: usize, offset: usize) -> Result<u8, Refusal> {
        seen!(iddesmar_vram_read_u8(; self; plane, offset)).byte()
    }

    /// How many bits of each plane's byte changed, as from the other seven stores: a direct one changes its own plane's alone.
    pub fn write_u8(&mut self, plane: usize, offset: usize, data: u8) -> Result<[u8; 4], Refusal> {
        lent!(iddesmar_vram_write_u8(; self; plane, offset, data)).changed()
    }

    pub fn read_linear(&self, place: usize) -> Result<u8, Refusal> {
        seen!(iddesmar_vram_read_linear(; self; place)).byte()
    }

    pub fn serialize_linear(&self, offset: usize) -> Result<[u8; 8], Refusal> {
        seen!(iddesmar_vram_serialize_linear(; self; offset)).pixels()
    }

    pub fn deplane(&mut self, offset: usize) -> Result<(), Refusal> {
        let [a, b, c, d, e] = self.parts_mut();
        // SAFETY: as for `lent`; the planes are read alone.
        unsafe { iddesmar_vram_deplane(a.as_ptr(), a.len(), b.as_ptr(), b.len(), c.as_ptr(), c.len(), d.as_ptr(), d.len(), e.as_mut_ptr(), e.len(), offset) }.done()
    }

    pub fn plane_set(&mut self, plane: usize, offset: usize, data: u8) -> Result<[u8; 4], Refusal> {
        lent!(iddesmar_vram_plane_set(; self; plane, offset, data)).changed()
    }

    pub fn plane_and(&mut self, plane: usize, offset: usize, data: u8) -> Result<[u8; 4], Refusal> {
        lent!(iddesmar_vram_plane_and(; self; plane, offset, data)).changed()
    }

    pub fn plane_or(&mut self, plane: usize, offset: usize, data: u8) -> Result<[u8; 4], Refusal> {
        lent!(iddesmar_vram_plane_or(; self; plane, offset, data)).changed()
    }
}

// ---- the sequencer

/// The sequencer, with the memory inside as MartyPC has it.
pub struct Sequencer<B = Vec<u8>> {
    record: SequencerRecord,
    pub vram: Vram<B>,
}

impl Sequencer {
    pub fn new() -> Self {
        Sequencer::over(Vram::new())
    }
}

impl Default for Sequencer {
    fn default() -> Self {
        Sequencer::new()
    }
}

impl<B: AsRef<[u8]> + AsMut<[u8]>> Sequencer<B> {
    /// A sequencer at its start, over memory that is handed in.
    pub fn over(vram: Vram<B>) -> Self {
        Sequencer::from_record(asked!(iddesmar_seq_new()), vram)
    }

    /// A sequencer as it was when its record was taken, over the memory of then.
    pub fn from_record(record: SequencerRecord, vram: Vram<B>) -> Self {
        Sequencer { record, vram }
    }

    /// What is to be saved of it, besides its memory.
    pub fn record(&self) -> &SequencerRecord {
        &self.record
    }

    fn moved(&mut self, left: SequencerAnswer) -> Answer {
        self.record = left.seq;
        left.answer
    }

    /// Memory stays.
    pub fn reset(&mut self) {
        let left = asked!(iddesmar_seq_reset(self.record));
        self.moved(left);
    }

    pub fn clock(&self) -> Result<u32, Refusal> {
        let clock = asked!(iddesmar_seq_clock(self.record));
        judged(clock.number, clock.clock)
    }

    pub fn set_clock_change_pending(&mut self) -> Result<(), Refusal> {
        let left = asked!(iddesmar_seq_set_clock_change_pending(self.record));
        self.moved(left).done()
    }

    pub fn poll_clock_change(&mut self) -> Result<bool, Refusal> {
        let left = asked!(iddesmar_seq_poll_clock_change(self.record));
        self.moved(left).flag()
    }

    pub fn read_address(&self) -> Result<u8, Refusal> {
        asked!(iddesmar_seq_read_address(self.record)).byte()
    }

    pub fn write_address(&mut self, byte: u8) -> Result<(), Refusal> {
        asked!(iddesmar_seq_write_address_2(&mut self.record, byte)).done()
    }

    pub fn read_data(&self) -> Result<u8, Refusal> {
        asked!(iddesmar_seq_read_data(self.record)).byte()
    }

    pub fn write_data(&mut self, data: u8) -> Result<(), Refusal> {
        asked!(iddesmar_seq_write_data_2(&mut self.record, data)).done()
    }

    pub fn cpu_read_u8(&self, plane: usize, offset: usize, a0: bool) -> Result<u8, Refusal> {
        seen!(iddesmar_seq_cpu_read_u8(self.record; self.vram; plane, offset, a0 as u8)).byte()
    }

    pub fn gc_read_u8(&self, plane: usize, offset: usize, a0: bool) -> Result<u8, Refusal> {
        seen!(iddesmar_seq_gc_read_u8(self.record; self.vram; plane, offset, a0 as u8)).byte()
    }

    pub fn peek_u8(&self, plane: usize, offset: usize, a0: bool) -> Result<u8, Refusal> {
        seen!(iddesmar_seq_peek_u8(self.record; self.vram; plane, offset, a0 as u8)).byte()
    }

    pub fn read_linear(&self, place: usize) -> Result<u8, Refusal> {
        seen!(iddesmar_seq_read_linear(self.record; self.vram; place)).byte()
    }

    pub fn serialize_linear(&self, offset: usize) -> Result<[u8; 8], Refusal> {
        seen!(iddesmar_seq_serialize_linear(self.record; self.vram; offset)).pixels()
    }

    /// How many bits of each plane's byte changed; under chain-four at the offset with its low two bits clear.
    pub fn plane_set(&mut self, plane: usize, offset: usize, a0: bool, data: u8) -> Result<[u8; 4], Refusal> {
        lent!(iddesmar_seq_plane_set(self.record; self.vram; plane, offset, a0 as u8, data)).changed()
    }

    pub fn plane_and(&mut self, plane: usize, offset: usize, a0: bool, data: u8) -> Result<[u8; 4], Refusal> {
        lent!(iddesmar_seq_plane_and(self.record; self.vram; plane, offset, a0 as u8, data)).changed()
    }

    pub fn plane_or(&mut self, plane: usize, offset: usize, a0: bool, data: u8) -> Result<[u8; 4], Refusal> {
        lent!(iddesmar_seq_plane_or(self.record; self.vram; plane, offset, a0 as u8, data)).changed()
    }
}

// ---- the graphics controller

/// The controller's one record, updated where it stands.
pub struct GraphicsController {
    record: ControllerRecord,
}

impl Default for GraphicsController {
    fn default() -> Self {
        GraphicsController::new()
    }
}

impl GraphicsController {
    pub fn new() -> Self {
        GraphicsController::from_record(asked!(iddesmar_gc_new()))
    }

    /// A controller as it was when its record was taken.
    pub fn from_record(record: ControllerRecord) -> Self {
        GraphicsController { record }
    }

    /// What is to be saved of it.
    pub fn record(&self) -> &ControllerRecord {
        &self.record
    }

    pub fn reset(&mut self) {
        asked!(iddesmar_gc_reset(&mut self.record));
    }

    pub fn chain(&self) -> Result<bool, Refusal> {
        asked!(iddesmar_gc_chain(self.record)).flag()
    }

    pub fn chain4(&self) -> Result<bool, Refusal> {
        asked!(iddesmar_gc_chain4(self.record)).flag()
    }

    pub fn memory_map(&self) -> Result<MemoryMap, Refusal> {
        use MemoryMap::*;
        asked!(iddesmar_gc_memory_map(self.record)).chosen([A0000_128k, A0000_64K, B0000_32K, B8000_32K])
    }

    pub fn odd_even(&self) -> Result<OddEvenModeComplement, Refusal> {
        use OddEvenModeComplement::*;
        asked!(iddesmar_gc_odd_even(self.record)).chosen([Sequential, OddEven])
    }

    pub fn shift_mode(&self) -> Result<ShiftMode, Refusal> {
        use ShiftMode::*;
        asked!(iddesmar_gc_shift_mode(self.record)).chosen([Standard, CGACompatible, Chain4, Unused])
    }

    pub fn read_address(&self) -> Result<u8, Refusal> {
        asked!(iddesmar_gc_read_address(self.record)).byte()
    }

    pub fn write_address(&mut self, byte: u8) -> Result<(), Refusal> {
        asked!(iddesmar_gc_write_address(&mut self.record, byte)).done()
    }

    pub fn read_data(&self) -> Result<u8, Refusal> {
        asked!(iddesmar_gc_read_data(self.record)).byte()
    }

    pub fn write_data(&mut self, byte: u8) -> Result<(), Refusal> {
        asked!(iddesmar_gc_write_data(&mut self.record, byte)).done()
    }

    /// The plane offset and a0.
    pub fn map_address(&self, address: usize, page_select: PageSelect) -> Result<(usize, bool), Refusal> {
        let mapped = asked!(iddesmar_gc_map_address(self.record, address, page_select as u8));
        judged(mapped.number, (mapped.offset, mapped.a0 != 0))
    }

    pub fn cpu_read_u8<B: AsRef<[u8]> + AsMut<[u8]>>(&mut self, seq: &Sequencer<B>, address: usize, page_select: PageSelect) -> Result<u8, Refusal> {
        seen!(iddesmar_gc_cpu_read_u8_2(&mut self.record, &seq.record; seq.vram; address, page_select as u8)).byte()
    }

    pub fn cpu_peek_u8<B: AsRef<[u8]> + AsMut<[u8]>>(&self, seq: &Sequencer<B>, address: usize, page_select: PageSelect) -> Result<u8, Refusal> {
        seen!(iddesmar_gc_cpu_peek_u8_2(&self.record, &seq.record; seq.vram; address, page_select as u8)).byte()
    }

    /// How many bits of each plane's byte changed, at the offset that the address leads to: `[0; 4]` leaves a painter nothing to draw.
    pub fn cpu_write_u8<B: AsRef<[u8]> + AsMut<[u8]>>(&mut self, seq: &mut Sequencer<B>, address: usize, page_select: PageSelect, byte: u8) -> Result<[u8; 4], Refusal> {
        lent!(iddesmar_gc_cpu_write_u8_2(&mut self.record, &seq.record; seq.vram; address, page_select as u8, byte)).changed()
    }

    /// The eight pixels of a plane offset, the leftmost first, by the shift mode; it serves all four, and is never refused with `Shift`.
    ///
    /// - Standard, Unused: the eight bytes of the picture from 8 times the offset on, as they stand; stores leave 0 to 15.
    /// - CGACompatible: pixel i, 0 to 3, is bits 7 - 2i and 6 - 2i of plane 0's byte at the offset, pixel 4 + i the same of plane 1's byte at the next offset. At the
    ///   last offset, which has no next one, it is refused with `Place`.
    /// - Chain4: pixels 2i and 2i + 1 are the high and the low four bits of plane i's byte at the offset.
    ///
    /// The last two read planes, never the picture, at the offset as it stands, whatever Memory Mode, map select, masks and odd/even are. Nothing moves.
    pub fn show_pixels<B: AsRef<[u8]> + AsMut<[u8]>>(&self, seq: &Sequencer<B>, offset: usize) -> Result<[u8; 8], Refusal> {
        seen!(iddesmar_gc_show_pixels_2(&self.record, &seq.record; seq.vram; offset)).pixels()
    }

    /// The older show: the same in Standard and Unused; in CGACompatible and Chain4 it is refused with `Shift`.
    pub fn serialize<B: AsRef<[u8]> + AsMut<[u8]>>(&self, seq: &Sequencer<B>, offset: usize) -> Result<[u8; 8], Refusal> {
        seen!(iddesmar_gc_serialize_2(&self.record, &seq.record; seq.vram; offset)).pixels()
    }
}
