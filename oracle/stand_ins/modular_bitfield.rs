//! Stand-in for the crate `modular_bitfield`: what a field's type is worth in bits, and the types `B1` to `B7`.

pub use bitfield_macros::{bitfield, Specifier};

/// A field's type: how many bits it takes, and its value of those bits.
pub trait Specifier {
    const BITS: usize;
    type InOut;
    fn from_bits(bits: u8) -> Self::InOut;
}

impl Specifier for bool {
    const BITS: usize = 1;
    type InOut = bool;
    fn from_bits(bits: u8) -> bool {
        bits != 0
    }
}

macro_rules! numbers {
    ($($name:ident $bits:literal),*) => {$(
        pub enum $name {}
        impl Specifier for $name {
            const BITS: usize = $bits;
            type InOut = u8;
            fn from_bits(bits: u8) -> u8 {
                bits
            }
        }
    )*};
}

numbers!(B1 1, B2 2, B3 3, B4 4, B5 5, B6 6, B7 7);

pub mod prelude {
    pub use crate::{bitfield, Specifier, B1, B2, B3, B4, B5, B6, B7};
}
