//! The cost of the Rust: `rust ROW TURNS`, row by number.

mod driver;

use driver::Machine;
use marty_core::devices::vga::graphics_controller::GraphicsController;
use marty_core::devices::vga::sequencer::Sequencer;
use marty_core::devices::vga::PageSelect;

struct Rust {
    gc: GraphicsController,
    seq: Sequencer,
}

impl Machine for Rust {
    fn set_gc(&mut self, register: u8, byte: u8) {
        self.gc.write_address(register);
        self.gc.write_data(byte);
    }

    fn set_seq(&mut self, register: u8, byte: u8) {
        self.seq.write_address(register);
        self.seq.write_data(byte);
    }

    fn write(&mut self, address: usize, byte: u8) {
        self.gc.cpu_write_u8(&mut self.seq, address, PageSelect::LowPage, byte);
    }

    /// It refuses nothing.
    fn write_outside(&mut self, address: usize, byte: u8) -> u8 {
        self.write(address, byte);
        0
    }

    fn read(&mut self, address: usize) -> u8 {
        self.gc.cpu_read_u8(&self.seq, address, PageSelect::LowPage)
    }

    /// It has one show, for every shift mode.
    fn older_show(&mut self, offset: usize) -> u8 {
        self.show(offset)
    }

    fn show(&mut self, offset: usize) -> u8 {
        let part = self.gc.serialize(&self.seq, offset);
        part[0] + part[7]
    }

    fn sum(&self) -> u64 {
        let planes = (0..4).flat_map(|plane| self.seq.vram.plane_slice(plane));
        planes.chain(self.seq.vram.picture()).map(|byte| u64::from(*byte)).sum()
    }
}

fn main() {
    let words: Vec<usize> = std::env::args().skip(1).map(|word| word.parse().expect("a number")).collect();
    let mut machine = Rust { gc: GraphicsController::new(), seq: Sequencer::new() };
    println!("{}: {}", driver::ROWS[words[0]], driver::run(&mut machine, words[0], words[1]));
}
