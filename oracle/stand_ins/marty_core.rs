//! Stand-in for the root of `marty_core` and for what the three files name outside their folder.

pub mod device_traits {
    pub mod videocard {
        pub enum VideoCardStateEntry {
            String(String),
            Value32(u32),
        }
    }
}

pub mod devices {
    pub mod ega {
        /// Planes of 65,536 bytes.
        pub const EGA_GFX_PLANE_SIZE: usize = 65536;
    }
    pub mod vga;
}
