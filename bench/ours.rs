//! The cost of ours, through the archive and the safe calls of host/iddesmar.rs: `ours ROW TURNS`, row by number.

mod driver;
#[allow(dead_code)]
#[path = "../host/iddesmar.rs"]
mod iddesmar;

use driver::Machine;
use iddesmar::{GraphicsController, PageSelect, Sequencer};

struct Ours {
    gc: GraphicsController,
    seq: Sequencer,
}

impl Machine for Ours {
    fn set_gc(&mut self, register: u8, byte: u8) {
        self.gc.write_address(register).expect("a register");
        self.gc.write_data(byte).expect("a byte");
    }

    fn set_seq(&mut self, register: u8, byte: u8) {
        self.seq.write_address(register).expect("a register");
        self.seq.write_data(byte).expect("a byte");
    }

    fn write(&mut self, address: usize, byte: u8) {
        self.gc.cpu_write_u8(&mut self.seq, address, PageSelect::LowPage, byte).expect("a write");
    }

    fn write_outside(&mut self, address: usize, byte: u8) -> u8 {
        match self.gc.cpu_write_u8(&mut self.seq, address, PageSelect::LowPage, byte) {
            Ok(_) => 0,
            Err(refusal) => refusal as u8,
        }
    }

    fn read(&mut self, address: usize) -> u8 {
        self.gc.cpu_read_u8(&self.seq, address, PageSelect::LowPage).expect("a read")
    }

    fn older_show(&mut self, offset: usize) -> u8 {
        let pixels = self.gc.serialize(&self.seq, offset).expect("a show");
        pixels[0] + pixels[7]
    }

    fn show(&mut self, offset: usize) -> u8 {
        let pixels = self.gc.show_pixels(&self.seq, offset).expect("a show");
        pixels[0] + pixels[7]
    }

    fn sum(&self) -> u64 {
        let planes = (0..4).flat_map(|plane| self.seq.vram.plane(plane).unwrap_or(&[]));
        planes.chain(self.seq.vram.picture()).map(|byte| u64::from(*byte)).sum()
    }
}

fn main() {
    let words: Vec<usize> = std::env::args().skip(1).map(|word| word.parse().expect("a number")).collect();
    let mut machine = Ours { gc: GraphicsController::new(), seq: Sequencer::new() };
    println!("{}: {}", driver::ROWS[words[0]], driver::run(&mut machine, words[0], words[1]));
}
