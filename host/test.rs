//! A host in Rust, by the safe calls of iddesmar.rs alone: runs the list of calls on standard input as `replay` does, and prints the same lines.
//! What each store says that it changed is held to a count made here, from the planes before and after it, and what `show_pixels` shows to pixels unpacked here.
//! It starts without Rust's own start, which the kit's emulator cannot carry out.
#![no_main]
#![deny(unsafe_code)]

#[allow(unsafe_code)]
mod iddesmar;

use iddesmar::{GraphicsController, PageSelect, Refusal, Sequencer, Vram};
use std::array::from_fn;
use std::io::{BufRead, BufWriter, Write};

/// Both, over memory that the host lends.
struct Host<'a> {
    gc: GraphicsController,
    seq: Sequencer<&'a mut [u8]>,
    /// Stores that told other numbers than are counted here.
    miscounted: usize,
    /// Shows that had other pixels than are unpacked here.
    misshown: usize,
}

fn value<T: Into<u64>>(answer: Result<T, Refusal>) -> String {
    match answer {
        Ok(given) => format!("0 {}", given.into()),
        Err(refusal) => format!("{} 0", refusal.number()),
    }
}

fn done(answer: Result<(), Refusal>) -> String {
    value(answer.map(|()| 0u8))
}

fn digits(pixels: [u8; 8]) -> String {
    pixels.iter().map(|pixel| format!("{:X}", pixel % 16)).collect()
}

/// Of the older shows a refused one has one 0.
fn shown(answer: Result<[u8; 8], Refusal>) -> String {
    match answer {
        Ok(pixels) => format!("0 {}", digits(pixels)),
        Err(refusal) => format!("{} 0", refusal.number()),
    }
}

fn pixels_shown(answer: Result<[u8; 8], Refusal>) -> String {
    format!("{} {}", answer.map_or_else(Refusal::number, |_| 0), digits(answer.unwrap_or([0; 8])))
}

fn stored(answer: Result<[u8; 4], Refusal>) -> String {
    let [a, b, c, d] = answer.unwrap_or([0; 4]);
    format!("{} {a} {b} {c} {d}", answer.map_or_else(Refusal::number, |_| 0))
}

fn mapped(answer: Result<(usize, bool), Refusal>) -> String {
    match answer {
        Ok((offset, a0)) => format!("0 {offset} {}", u8::from(a0)),
        Err(refusal) => format!("{} 0 0", refusal.number()),
    }
}

fn page(number: usize) -> PageSelect {
    if number == 0 { PageSelect::LowPage } else { PageSelect::HighPage }
}

fn sum(bytes: &[u8]) -> [u32; 2] {
    bytes.iter().fold([1u32, 0], |[first, second], byte| {
        let first = first.wrapping_add(u32::from(*byte));
        [first, second.wrapping_add(first)]
    })
}

/// The four planes' bytes at an offset; zeros past the planes, where every store is refused.
fn column<B: AsRef<[u8]> + AsMut<[u8]>>(vram: &Vram<B>, offset: usize) -> [u8; 4] {
    [0, 1, 2, 3].map(|plane| vram.plane(plane).ok().and_then(|bytes| bytes.get(offset)).copied().unwrap_or(0))
}

/// A store's answer beside the bytes before it and after it; a refused one leaves them.
fn tells(answer: Result<[u8; 4], Refusal>, before: [u8; 4], after: [u8; 4]) -> bool {
    match answer {
        Ok(changed) => (0..4).all(|plane| u32::from(changed[plane]) == (before[plane] ^ after[plane]).count_ones()),
        Err(_) => before == after,
    }
}

/// What `show_pixels` is to answer, where records and lengths are as they should be: half bytes of four planes, pairs of bits of two, or bytes of the picture.
fn unpacked<B: AsRef<[u8]> + AsMut<[u8]>>(gc: &GraphicsController, vram: &Vram<B>, offset: usize) -> Result<[u8; 8], Refusal> {
    let byte = |plane: usize, at: usize| vram.plane(plane)?.get(at).copied().ok_or(Refusal::Place);
    match gc.record().mode / 32 % 4 {
        1 => {
            let bytes = [byte(0, offset)?, byte(1, offset.saturating_add(1))?];
            Ok(from_fn(|i| bytes[i / 4] / [64, 16, 4, 1][i % 4] % 4))
        }
        2 => {
            let bytes = [byte(0, offset)?, byte(1, offset)?, byte(2, offset)?, byte(3, offset)?];
            Ok(from_fn(|i| bytes[i / 2] / [16, 1][i % 2] % 16))
        }
        _ => vram.picture().chunks(8).nth(offset).and_then(|part| part.try_into().ok()).ok_or(Refusal::Place),
    }
}

impl Host<'_> {
    fn digest(&self) -> String {
        let (gc, seq, vram) = (self.gc.record(), self.seq.record(), &self.seq.vram);
        let bytes = [
            gc.register_select_byte, gc.register_selected, gc.set_reset, gc.enable_set_reset, gc.color_compare, gc.data_rotate,
            gc.read_map_select, gc.mode, gc.miscellaneous, gc.color_dont_care, gc.bitmask,
            seq.address_byte, seq.register_selected, seq.reset, seq.clocking_mode, seq.map_mask, seq.character_map_select, seq.memory_mode,
            seq.clock_change_pending,
        ];
        let stats = gc.stats;
        let mut all: Vec<u32> = bytes.map(u32::from).to_vec();
        all.extend([seq.clock_divisor, seq.char_clock]);
        all.extend(gc.latches.map(u32::from));
        all.extend([stats.mode_0_writes, stats.mode_1_writes, stats.mode_2_writes, stats.mode_3_writes, stats.mode_0_reads, stats.mode_1_reads, stats.refused_accesses]);
        all.extend((0..4).flat_map(|plane| sum(vram.plane(plane).unwrap_or(&[]))));
        all.extend(sum(vram.picture()));
        format!("0 {}", all.iter().map(u32::to_string).collect::<Vec<_>>().join(" "))
    }

    fn vram_call(&mut self, operation: usize, x: &[usize; 4]) -> String {
        let vram = &mut self.seq.vram;
        match operation {
            1 => value(vram.read_u8(x[0], x[1])),
            2 => value(vram.peek_u8(x[0], x[1])),
            3 => value(vram.read_glyph(x[0])),
            4 => value(vram.read_linear(x[0])),
            5 => shown(vram.serialize_linear(x[0])),
            _ => done(vram.deplane(x[0])),
        }
    }

    fn sequencer_call(&mut self, operation: usize, x: &[usize; 4]) -> String {
        let (seq, a0) = (&mut self.seq, x[2] != 0);
        match operation {
            11 => {
                seq.reset();
                done(Ok(()))
            }
            12 => value(seq.clock()),
            13 => done(seq.set_clock_change_pending()),
            14 => value(seq.poll_clock_change()),
            15 => value(seq.read_address()),
            16 => value(seq.read_data()),
            17 => done(seq.write_address(x[0] as u8)),
            18 => done(seq.write_data(x[0] as u8)),
            19 => value(seq.cpu_read_u8(x[0], x[1], a0)),
            20 => value(seq.peek_u8(x[0], x[1], a0)),
            21 => value(seq.gc_read_u8(x[0], x[1], a0)),
            22 => value(seq.read_linear(x[0])),
            _ => shown(seq.serialize_linear(x[0])),
        }
    }

    fn controller_call(&mut self, operation: usize, x: &[usize; 4]) -> String {
        let (gc, seq) = (&mut self.gc, &self.seq);
        match operation {
            27 => {
                gc.reset();
                done(Ok(()))
            }
            28 => value(gc.chain()),
            29 => value(gc.chain4()),
            30 => value(gc.memory_map().map(|map| map as u8)),
            31 => value(gc.odd_even().map(|mode| mode as u8)),
            32 => value(gc.shift_mode().map(|mode| mode as u8)),
            33 => value(gc.read_address()),
            34 => value(gc.read_data()),
            35 => done(gc.write_address(x[0] as u8)),
            36 => done(gc.write_data(x[0] as u8)),
            37 => mapped(gc.map_address(x[0], page(x[1]))),
            38 => value(gc.cpu_read_u8(seq, x[0], page(x[1]))),
            39 => value(gc.cpu_peek_u8(seq, x[0], page(x[1]))),
            41 => shown(gc.serialize(seq, x[0])),
            _ => "unknown".to_string(), // 42 to 45 set up what no port reaches, and no host has them
        }
    }

    fn store(&mut self, operation: usize, x: &[usize; 4]) -> Result<[u8; 4], Refusal> {
        let (gc, seq, a0) = (&mut self.gc, &mut self.seq, x[2] != 0);
        match operation {
            6 => seq.vram.write_u8(x[0], x[1], x[2] as u8),
            7 => seq.vram.plane_set(x[0], x[1], x[2] as u8),
            8 => seq.vram.plane_and(x[0], x[1], x[2] as u8),
            9 => seq.vram.plane_or(x[0], x[1], x[2] as u8),
            24 => seq.plane_set(x[0], x[1], a0, x[3] as u8),
            25 => seq.plane_and(x[0], x[1], a0, x[3] as u8),
            26 => seq.plane_or(x[0], x[1], a0, x[3] as u8),
            _ => gc.cpu_write_u8(seq, x[0], page(x[1]), x[2] as u8),
        }
    }

    /// The offset that a store stores at, past the planes where its address leads nowhere; the sequencer clears the low two bits under chain-four.
    fn stored_at(&self, operation: usize, x: &[usize; 4]) -> usize {
        let offset = match operation {
            40 => self.gc.map_address(x[0], page(x[1])).map_or(usize::MAX, |(offset, _)| offset),
            _ => x[1],
        };
        if operation > 9 && self.seq.record().memory_mode & 8 != 0 { offset / 4 * 4 } else { offset }
    }

    fn store_call(&mut self, operation: usize, x: &[usize; 4]) -> String {
        let at = self.stored_at(operation, x);
        let before = column(&self.seq.vram, at);
        let answer = self.store(operation, x);
        self.miscounted += usize::from(!tells(answer, before, column(&self.seq.vram, at)));
        stored(answer)
    }

    fn show_call(&mut self, offset: usize) -> String {
        let answer = self.gc.show_pixels(&self.seq, offset);
        self.misshown += usize::from(answer != unpacked(&self.gc, &self.seq.vram, offset));
        pixels_shown(answer)
    }

    fn call(&mut self, operation: usize, x: &[usize; 4]) -> String {
        match operation {
            0 => self.digest(),
            6..=9 | 24..=26 | 40 => self.store_call(operation, x),
            46 => self.show_call(x[0]),
            1..=10 => self.vram_call(operation, x),
            11..=26 => self.sequencer_call(operation, x),
            _ => self.controller_call(operation, x),
        }
    }
}

/// The controller with each of the four shift modes, and the other bits of Mode as they are.
fn in_every_mode(gc: &GraphicsController, holds: impl Fn(&GraphicsController) -> bool) -> bool {
    let record = *gc.record();
    (0..4).all(|shift| holds(&GraphicsController::from_record(iddesmar::ControllerRecord { mode: (record.mode & 0x9F) + 32 * shift, ..record })))
}

/// This refusal comes before 5: no show is made in any shift mode, wherever it is to be.
fn shows_nothing<B: AsRef<[u8]> + AsMut<[u8]>>(gc: &GraphicsController, seq: &Sequencer<B>, refusal: Refusal) -> bool {
    in_every_mode(gc, |gc| [0, 65536, usize::MAX].into_iter().all(|offset| gc.show_pixels(seq, offset) == Err(refusal)))
}

/// Memory of wrong lengths is refused, whichever slice is wrong, and so is an offset outside: nothing is read beyond.
fn refusals() -> bool {
    let mut host = (0..5).map(|short| {
        let length = |i: usize, n: usize| vec![0; if i == short { n - 1 } else { n }];
        let vram = Vram::over([length(0, 16), length(1, 16), length(2, 16), length(3, 16)], length(4, 128));
        Sequencer::over(vram)
    });
    let mut gc = GraphicsController::new();
    host.all(|mut seq| {
        gc.cpu_write_u8(&mut seq, 0xA0000, PageSelect::LowPage, 1) == Err(Refusal::Memory)
            && gc.cpu_read_u8(&seq, 0xA0000, PageSelect::LowPage) == Err(Refusal::Memory)
            && gc.serialize(&seq, 0) == Err(Refusal::Memory)
            && shows_nothing(&gc, &seq, Refusal::Memory)
            && seq.plane_set(0, usize::MAX, false, 1) == Err(Refusal::Memory)
            && seq.vram.write_u8(0, 0, 1) == Err(Refusal::Memory)
            && seq.vram.read_u8(usize::MAX, usize::MAX) == Err(Refusal::Memory)
    })
}

/// Reads and writes outside the window and past the planes are counted; a peek and a show that are refused are not, and a reset clears the count.
fn turned_away() -> bool {
    let mut seq = Sequencer::over(Vram::over([vec![0; 16], vec![0; 16], vec![0; 16], vec![0; 16]], vec![0; 128]));
    let mut gc = GraphicsController::new();
    let fresh = *gc.record();
    let low = PageSelect::LowPage;
    let refused = gc.cpu_read_u8(&seq, 0x9FFFF, low) == Err(Refusal::Window)
        && gc.cpu_write_u8(&mut seq, 0x9FFFF, low, 1) == Err(Refusal::Window)
        && gc.cpu_read_u8(&seq, 0xA0010, low) == Err(Refusal::Offset)
        && gc.cpu_write_u8(&mut seq, 0xA0010, low, 1) == Err(Refusal::Offset)
        && gc.cpu_peek_u8(&seq, 0x9FFFF, low) == Err(Refusal::Window)
        && gc.serialize(&seq, 16) == Err(Refusal::Place)
        && in_every_mode(&gc, |gc| gc.show_pixels(&seq, 16) == Err(Refusal::Place));
    let counted = gc.record().stats.refused_accesses == 4 && iddesmar::GraphicsControllerStats { refused_accesses: 0, ..gc.record().stats } == fresh.stats;
    gc.reset();
    refused && counted && *gc.record() == fresh
}

/// The four numbers stand in the planes' order. Each direct store tells its own plane's, a write of the processor all four; made again, a store changes nothing.
fn bits_told() -> bool {
    let (mut gc, mut seq) = (GraphicsController::new(), Sequencer::new());
    let open = seq.write_address(2).is_ok() && seq.write_data(15).is_ok() && seq.write_address(4).is_ok() && seq.write_data(4).is_ok();
    let whole = gc.write_address(8).is_ok() && gc.write_data(0xFF).is_ok();
    let direct = [
        seq.vram.write_u8(0, 9, 0x10) == Ok([1, 0, 0, 0]),
        seq.vram.plane_set(1, 9, 0x81) == Ok([0, 2, 0, 0]),
        seq.vram.plane_or(2, 9, 0x6F) == Ok([0, 0, 6, 0]),
        seq.vram.plane_and(2, 9, 0x6C) == Ok([0, 0, 2, 0]),
        seq.plane_set(3, 9, false, 0xFF) == Ok([0, 0, 0, 8]),
        seq.plane_and(3, 9, false, 0x7E) == Ok([0, 0, 0, 2]),
        seq.plane_or(3, 9, false, 0xFE) == Ok([0, 0, 0, 1]),
        seq.plane_or(3, 9, false, 0xFE) == Ok([0; 4]),
    ];
    let mut cleared = || gc.cpu_write_u8(&mut seq, 0xA0009, PageSelect::LowPage, 0);
    open && whole && direct == [true; 8] && cleared() == Ok([1, 2, 4, 7]) && cleared() == Ok([0; 4])
}

/// Planes 12 34 56 78 at offset 0, 1B in plane 1 at 1: their shows by shift mode, whatever Memory Mode is. The older show has the standard ones, and CGACompatible no last offset.
fn worked_shows() -> bool {
    let (gc, mut seq) = (GraphicsController::new(), Sequencer::new());
    let bytes = [(0, 0, 0x12), (1, 0, 0x34), (2, 0, 0x56), (3, 0, 0x78), (1, 1, 0x1B)];
    let laid = bytes.into_iter().all(|(plane, offset, byte)| seq.vram.write_u8(plane, offset, byte).is_ok());
    let standard = [0, 12, 10, 15, 8, 6, 5, 0];
    let right = [standard, [0, 1, 0, 2, 0, 1, 2, 3], [1, 2, 3, 4, 5, 6, 7, 8], standard];
    let shows = [4, 0x0C, 0, 8].into_iter().all(|memory_mode| {
        let set = seq.write_address(4).is_ok() && seq.write_data(memory_mode).is_ok();
        set && in_every_mode(&gc, |gc| {
            let shift = usize::from(gc.record().mode >> 5);
            gc.show_pixels(&seq, 0) == Ok(right[shift])
                && gc.serialize(&seq, 0) == if right[shift] == standard { Ok(standard) } else { Err(Refusal::Shift) }
                && gc.show_pixels(&seq, 65535) == if shift == 1 { Err(Refusal::Place) } else { Ok([0; 8]) }
        })
    });
    laid && shows
}

/// A state of every kind over planes of n bytes: registers hold no more than they keep, the picture matches no plane and has bytes above 15.
fn of_every_kind(seed: usize, n: usize) -> (GraphicsController, Sequencer) {
    let byte = |i: usize, most: u8| (seed + 91 * i) as u8 & most;
    let filled = |length: usize, first: usize| (0..length).map(|i| (seed + first + 37 * i) as u8).collect::<Vec<u8>>();
    let gc = GraphicsController::new();
    let seq = Sequencer::over(Vram::over([filled(n, 0), filled(n, 80), filled(n, 160), filled(n, 240)], filled(8 * n, 29)));
    let controller = iddesmar::ControllerRecord { read_map_select: byte(0, 3), mode: byte(1, 255), color_dont_care: byte(2, 15), bitmask: byte(3, 255), ..*gc.record() };
    let sequencer = iddesmar::SequencerRecord { map_mask: byte(4, 15), memory_mode: byte(5, 63), clock_change_pending: byte(6, 255), ..*seq.record() };
    (GraphicsController::from_record(controller), Sequencer::from_record(sequencer, seq.vram))
}

/// Shows of every offset and of some past the planes, for planes of a few lengths, as they are unpacked here; in CGACompatible the last offset is refused. Nothing moves.
fn shows_unpacked() -> bool {
    (0..256).all(|seed| {
        [1, 2, 8, 16].into_iter().all(|n| {
            let (gc, seq) = of_every_kind(seed, n);
            let before = (*gc.record(), *seq.record(), bytes_of(&seq.vram));
            let past = [n + 1, 65536, 1 << 61, (1 << 61) + 1, 1 << 63, usize::MAX - 1, usize::MAX];
            let alike = in_every_mode(&gc, |gc| {
                let shown = (0..=n).filter(|offset| gc.show_pixels(&seq, *offset).is_ok()).count();
                let last = usize::from(gc.record().mode / 32 % 4 == 1);
                shown == n - last && (0..=n).chain(past).all(|offset| gc.show_pixels(&seq, offset) == unpacked(gc, &seq.vram, offset))
            });
            alike && before == (*gc.record(), *seq.record(), bytes_of(&seq.vram))
        })
    })
}

/// The bytes of the planes and of the picture.
fn bytes_of<B: AsRef<[u8]> + AsMut<[u8]>>(vram: &Vram<B>) -> [Vec<u8>; 5] {
    from_fn(|part| vram.plane(part).unwrap_or(vram.picture()).to_vec())
}

/// The memory of a sequencer, copied.
fn copied<B: AsRef<[u8]> + AsMut<[u8]>>(vram: &Vram<B>) -> Vram {
    let [p0, p1, p2, p3, picture] = bytes_of(vram);
    Vram::over([p0, p1, p2, p3], picture)
}

/// A state that is saved and restored goes on as the one that it was taken from: the same answers, then the same records and memory.
fn round_trip(host: &mut Host<'_>) -> bool {
    let latched = (0..4).all(|plane| host.seq.vram.write_u8(plane, 0, 17 * (plane as u8 + 1)).is_ok())
        && host.gc.write_address(6).is_ok()
        && host.gc.write_data(5).is_ok()
        && host.gc.cpu_read_u8(&host.seq, 0xA0000, PageSelect::LowPage).is_ok()
        && host.gc.record().latches == [17, 34, 51, 68];
    let mut gc = GraphicsController::from_record(*host.gc.record());
    let mut seq = Sequencer::from_record(*host.seq.record(), copied(&host.seq.vram));
    let there = gc.record() == host.gc.record() && seq.record() == host.seq.record();
    let goes_on = (0..64).all(|i| {
        let (byte, address) = ((37 * i) as u8, 0xA0000 + 4 * i);
        gc.write_address(byte % 9) == host.gc.write_address(byte % 9)
            && gc.write_data(byte) == host.gc.write_data(byte)
            && seq.write_address(byte % 5) == host.seq.write_address(byte % 5)
            && seq.write_data(byte) == host.seq.write_data(byte)
            && gc.cpu_write_u8(&mut seq, address, PageSelect::LowPage, byte) == host.gc.cpu_write_u8(&mut host.seq, address, PageSelect::LowPage, byte)
            && gc.cpu_read_u8(&seq, address, PageSelect::LowPage) == host.gc.cpu_read_u8(&host.seq, address, PageSelect::LowPage)
            && gc.serialize(&seq, i) == host.gc.serialize(&host.seq, i)
            && gc.show_pixels(&seq, i) == host.gc.show_pixels(&host.seq, i)
            && seq.poll_clock_change() == host.seq.poll_clock_change()
    });
    let same = (0..4).all(|plane| seq.vram.plane(plane) == host.seq.vram.plane(plane)) && seq.vram.picture() == host.seq.vram.picture();
    latched && there && goes_on && same && gc.record() == host.gc.record() && seq.record() == host.seq.record()
}

/// A record with a selected register that there is not is taken, and refused until a reset; a plane that there is not is refused.
fn unknown() -> bool {
    let (mut gc, mut seq) = (GraphicsController::new(), Sequencer::new());
    let (fresh, fresh_seq) = (*gc.record(), *seq.record());
    gc = GraphicsController::from_record(iddesmar::ControllerRecord { register_selected: 9, ..fresh });
    let stopped = gc.cpu_write_u8(&mut seq, 0xA0000, PageSelect::LowPage, 5) == Err(Refusal::State);
    let refused = stopped && shows_nothing(&gc, &seq, Refusal::State) && gc.write_data(5) == Err(Refusal::State) && gc.memory_map() == Err(Refusal::State) && gc.record().register_selected == 9;
    gc.reset();
    seq = Sequencer::from_record(iddesmar::SequencerRecord { register_selected: 6, ..fresh_seq }, seq.vram);
    let stopped_too = gc.cpu_write_u8(&mut seq, 0xA0000, PageSelect::LowPage, 5) == Err(Refusal::State) && seq.plane_set(0, 0, false, 5) == Err(Refusal::State);
    let refused_too = stopped_too && shows_nothing(&gc, &seq, Refusal::State) && seq.clock() == Err(Refusal::State) && gc.cpu_read_u8(&seq, 0xA0000, PageSelect::LowPage) == Err(Refusal::State);
    seq.reset();
    let no_plane = seq.vram.plane(3).map(<[u8]>::len) == Ok(65536) && seq.vram.plane(4) == Err(Refusal::Plane) && seq.vram.plane(usize::MAX) == Err(Refusal::Plane);
    refused && refused_too && no_plane && *gc.record() == fresh && *seq.record() == fresh_seq
}

fn run() -> i32 {
    let mut lengths = [65536, 65536, 65536, 65536, 524288].map(|n| vec![0u8; n]);
    let [p0, p1, p2, p3, picture] = lengths.each_mut().map(Vec::as_mut_slice);
    let mut host = Host { gc: GraphicsController::new(), seq: Sequencer::over(Vram::over([p0, p1, p2, p3], picture)), miscounted: 0, misshown: 0 };
    let mut out = BufWriter::new(std::io::stdout());
    let mut line_number = 0;
    for line in std::io::stdin().lock().lines() {
        let line = line.expect("a line");
        let words: Vec<usize> = line.split('#').next().unwrap_or("").split_whitespace().map(|word| word.parse().expect("a number")).collect();
        let Some((operation, arguments)) = words.split_first() else { continue };
        let mut x = [0; 4];
        x[..arguments.len()].copy_from_slice(arguments);
        line_number += 1;
        writeln!(out, "{line_number} {operation} {}", host.call(*operation, &x)).expect("a line out");
    }
    out.flush().expect("lines out");
    let tried = [
        ("refusals", refusals()),
        ("accesses turned away", turned_away()),
        ("bits that known stores change", bits_told()),
        ("bits that the list's stores changed", host.miscounted == 0),
        ("shows of known planes", worked_shows()),
        ("shows of every offset, and past the planes", shows_unpacked()),
        ("pixels of the list's shows", host.misshown == 0),
        ("a saved state restored", round_trip(&mut host)),
        ("unknown records and planes", unknown()),
    ];
    for (what, _) in tried.iter().filter(|(_, holds)| !holds) {
        eprintln!("test-rust: {what}: not as it should be");
    }
    i32::from(tried.iter().any(|(_, holds)| !holds))
}

#[allow(unsafe_code)]
#[no_mangle]
pub extern "C" fn main(_argc: i32, _argv: *const *const u8) -> i32 {
    run()
}
