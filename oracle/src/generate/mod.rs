//! Makes lists: episodes of several kinds in turn, a digest at every thousandth call.

mod access;
mod direct;
mod places;
mod registers;
mod sweeps;

use crate::call::*;
use crate::progress::Progress;
use crate::random::Random;
use registers::Registers;

/// Every so many calls the whole state is compared.
const DIGEST_EVERY: usize = 1000;

pub struct Generator {
    random: Random,
    registers: Registers,
    /// Offsets that calls come back to, so that they meet each other's bytes.
    hot: [usize; 12],
    calls: Vec<Call>,
    progress: Progress,
    /// How far the three sweeps have come.
    contents: usize,
    combinations: usize,
    shows: usize,
}

/// A list; of several from one seed each begins at another part of the sweeps.
pub fn generate(seed: u64, wanted: usize, part: usize, parts: usize) -> Vec<Call> {
    eprintln!("generate: seed {seed}, part {part} of {parts}, {wanted} calls");
    let mut generator = Generator {
        random: Random::new(seed.wrapping_add((part as u64) << 32)),
        registers: Registers::new(),
        hot: [0; 12],
        calls: Vec::with_capacity(wanted + DIGEST_EVERY),
        progress: Progress::new("generate", wanted),
        contents: sweeps::CONTENTS * part / parts,
        combinations: sweeps::COMBINATIONS * part / parts,
        shows: sweeps::SHOWS * part / parts,
    };
    let starts = (generator.contents, generator.combinations, generator.shows);
    while generator.calls.len() < wanted {
        generator.episode();
    }
    generator.calls.truncate(wanted);
    generator.tell(starts);
    generator.calls
}

impl Generator {
    fn episode(&mut self) {
        if self.random.chance(60) {
            self.heat();
        }
        match self.random.below(100) {
            0..=14 => self.contents(),
            15..=52 => self.combinations(),
            53..=66 => self.scene(),
            67..=72 => self.ports(),
            73..=88 => self.direct(),
            89..=92 => self.shows(),
            93 => self.long_run(),
            94..=96 => self.call(SEQ_RESET, &[]),
            _ => self.call(GC_RESET, &[]),
        }
    }

    /// Adds a call; the thousandth is a digest.
    fn call(&mut self, operation: usize, arguments: &[usize]) {
        self.calls.push(Call::new(operation, arguments));
        self.registers.follow(operation, arguments);
        self.progress.step();
        if (self.calls.len() + 1) % DIGEST_EVERY == 0 {
            self.calls.push(Call::new(DIGEST, &[]));
            self.progress.step();
        }
    }

    /// How often each operation stands in the list, and how much of the sweeps.
    fn tell(&self, starts: (usize, usize, usize)) {
        let mut counts = [0; OPERATIONS.len()];
        self.calls.iter().for_each(|call| counts[call.operation] += 1);
        let known = (0..OPERATIONS.len()).filter(|place| OPERATIONS[*place].is_some());
        let swept = |now: usize, start: usize, all: usize| (now - start).min(all);
        eprintln!(
            "generate: each operation {} times or more, {} of {} register contents, {} of {} combinations, {} of {} shows",
            known.map(|place| counts[place]).min().unwrap(),
            swept(self.contents, starts.0, sweeps::CONTENTS),
            sweeps::CONTENTS,
            swept(self.combinations, starts.1, sweeps::COMBINATIONS),
            sweeps::COMBINATIONS,
            swept(self.shows, starts.2, sweeps::SHOWS),
            sweeps::SHOWS,
        );
    }
}
