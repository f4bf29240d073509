// Appended when the oracle is built: what is private there, read and nothing else.
impl Vram {
    pub fn picture(&self) -> &[u8] {
        &self.linear_buf[..]
    }
}
