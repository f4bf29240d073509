// Appended when the oracle is built: what is private there, read and nothing else.
impl GraphicsController {
    /// The nine registers in the order of `GraphicsRegister`.
    pub fn registers(&self) -> [u8; 9] {
        [
            self.graphics_set_reset,
            self.graphics_enable_set_reset,
            self.graphics_color_compare,
            self.graphics_data_rotate.into_bytes()[0],
            self.graphics_read_map_select,
            self.graphics_mode.into_bytes()[0],
            self.graphics_micellaneous.into_bytes()[0],
            self.graphics_color_dont_care,
            self.graphics_bitmask,
        ]
    }

    pub fn register_selected(&self) -> u32 {
        self.graphics_register_selected as u32
    }

    pub fn latches(&self) -> [u8; 4] {
        self.latches
    }

    /// The six counters in the order of `GraphicsControllerStats`.
    pub fn counters(&self) -> [u32; 6] {
        let stats = &self.stats;
        [
            stats.mode_0_writes,
            stats.mode_1_writes,
            stats.mode_2_writes,
            stats.mode_3_writes,
            stats.mode_0_reads,
            stats.mode_1_reads,
        ]
    }

    // Calls that only `marty_core` itself may make, their answer by its place in the enum.

    pub fn memory_map_place(&self) -> u32 {
        self.memory_map() as u32
    }

    pub fn odd_even_place(&self) -> u32 {
        self.odd_even() as u32
    }

    pub fn shift_mode_place(&self) -> u32 {
        self.shift_mode() as u32
    }
}
