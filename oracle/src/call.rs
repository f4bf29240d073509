//! The calls of a list: their numbers, their names and their arguments.

/// What an argument stands for.
#[derive(Copy, Clone, PartialEq)]
pub enum Argument {
    Plane,
    Offset,
    Place,
    A0,
    Address,
    Page,
    Byte,
}

/// An operation's name and arguments.
pub type Operation = (&'static str, &'static [Argument]);

macro_rules! operations {
    ($($number:literal $constant:ident $name:literal [$($argument:ident),*])*) => {
        $(pub const $constant: usize = $number;)*
        /// The operations, each at the place of its number; 42 to 45 set things up in the lists of cases, and are no calls of the Rust.
        pub const OPERATIONS: [Option<Operation>; 47] = {
            let mut all: [Option<Operation>; 47] = [None; 47];
            $(all[$number] = Some(($name, &[$(Argument::$argument),*]));)*
            all
        };
    };
}

operations! {
    0 DIGEST "digest" []
    1 VRAM_READ_U8 "vram::read_u8" [Plane, Offset]
    2 VRAM_PEEK_U8 "vram::peek_u8" [Plane, Offset]
    3 VRAM_READ_GLYPH "vram::read_glyph" [Offset]
    4 VRAM_READ_LINEAR "vram::read_linear" [Place]
    5 VRAM_SERIALIZE_LINEAR "vram::serialize_linear" [Offset]
    6 VRAM_WRITE_U8 "vram::write_u8" [Plane, Offset, Byte]
    7 VRAM_PLANE_SET "vram::plane_set" [Plane, Offset, Byte]
    8 VRAM_PLANE_AND "vram::plane_and" [Plane, Offset, Byte]
    9 VRAM_PLANE_OR "vram::plane_or" [Plane, Offset, Byte]
    10 VRAM_DEPLANE "vram::deplane" [Offset]
    11 SEQ_RESET "sequencer::reset" []
    12 SEQ_CLOCK "sequencer::clock" []
    13 SEQ_SET_CLOCK_CHANGE_PENDING "sequencer::set_clock_change_pending" []
    14 SEQ_POLL_CLOCK_CHANGE "sequencer::poll_clock_change" []
    15 SEQ_READ_ADDRESS "sequencer::read_address" []
    16 SEQ_READ_DATA "sequencer::read_data" []
    17 SEQ_WRITE_ADDRESS "sequencer::write_address" [Byte]
    18 SEQ_WRITE_DATA "sequencer::write_data" [Byte]
    19 SEQ_CPU_READ_U8 "sequencer::cpu_read_u8" [Plane, Offset, A0]
    20 SEQ_PEEK_U8 "sequencer::peek_u8" [Plane, Offset, A0]
    21 SEQ_GC_READ_U8 "sequencer::gc_read_u8" [Plane, Offset, A0]
    22 SEQ_READ_LINEAR "sequencer::read_linear" [Place]
    23 SEQ_SERIALIZE_LINEAR "sequencer::serialize_linear" [Offset]
    24 SEQ_PLANE_SET "sequencer::plane_set" [Plane, Offset, A0, Byte]
    25 SEQ_PLANE_AND "sequencer::plane_and" [Plane, Offset, A0, Byte]
    26 SEQ_PLANE_OR "sequencer::plane_or" [Plane, Offset, A0, Byte]
    27 GC_RESET "graphics_controller::reset" []
    28 GC_CHAIN "graphics_controller::chain" []
    29 GC_CHAIN4 "graphics_controller::chain4" []
    30 GC_MEMORY_MAP "graphics_controller::memory_map" []
    31 GC_ODD_EVEN "graphics_controller::odd_even" []
    32 GC_SHIFT_MODE "graphics_controller::shift_mode" []
    33 GC_READ_ADDRESS "graphics_controller::read_address" []
    34 GC_READ_DATA "graphics_controller::read_data" []
    35 GC_WRITE_ADDRESS "graphics_controller::write_address" [Byte]
    36 GC_WRITE_DATA "graphics_controller::write_data" [Byte]
    37 GC_MAP_ADDRESS "graphics_controller::map_address" [Address, Page]
    38 GC_CPU_READ_U8 "graphics_controller::cpu_read_u8" [Address, Page]
    39 GC_CPU_PEEK_U8 "graphics_controller::cpu_peek_u8" [Address, Page]
    40 GC_CPU_WRITE_U8 "graphics_controller::cpu_write_u8" [Address, Page, Byte]
    41 GC_SERIALIZE "graphics_controller::serialize" [Offset]
    46 GC_SHOW_PIXELS "graphics_controller::show_pixels" [Offset]
}

/// The operation of a number, where the Rust has one.
pub fn operation(number: usize) -> Option<Operation> {
    *OPERATIONS.get(number)?
}

/// A call: an operation's number and its arguments, 0 where it has fewer than four.
#[derive(Copy, Clone, Debug, PartialEq)]
pub struct Call {
    pub operation: usize,
    pub arguments: [usize; 4],
}

impl Call {
    pub fn new(operation: usize, arguments: &[usize]) -> Call {
        let mut all = [0; 4];
        all[..arguments.len()].copy_from_slice(arguments);
        let call = Call { operation, arguments: all };
        assert_eq!(arguments.len(), call.kinds().len());
        call
    }

    pub fn name(&self) -> &'static str {
        operation(self.operation).expect("an operation").0
    }

    /// What its arguments stand for.
    fn kinds(&self) -> &'static [Argument] {
        operation(self.operation).expect("an operation").1
    }

    /// Whether the call stores into planes: its value is a number for each of them.
    pub fn stores(&self) -> bool {
        matches!(self.operation, VRAM_WRITE_U8..=VRAM_PLANE_OR | SEQ_PLANE_SET..=SEQ_PLANE_OR | GC_CPU_WRITE_U8)
    }

    /// The arguments that the operation has.
    pub fn given(&self) -> &[usize] {
        &self.arguments[..self.kinds().len()]
    }

    /// The argument of a kind, where the operation has one.
    pub fn argument(&self, kind: Argument) -> Option<usize> {
        let place = self.kinds().iter().position(|a| *a == kind)?;
        Some(self.arguments[place])
    }
}

/// As a line of a list.
impl std::fmt::Display for Call {
    fn fmt(&self, f: &mut std::fmt::Formatter) -> std::fmt::Result {
        write!(f, "{}", self.operation)?;
        self.given().iter().try_for_each(|argument| write!(f, " {argument}"))
    }
}
