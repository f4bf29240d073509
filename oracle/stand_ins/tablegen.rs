//! Stand-in for the tables: entry i of byte b is bit 7 - i of b. No call of the lists uses them.

pub const BYTE_EXTEND_TABLE: [[u8; 8]; 256] = extended();
pub const BIT_EXTEND_TABLE64: [u64; 256] = packed();

const fn extended() -> [[u8; 8]; 256] {
    let mut table = [[0; 8]; 256];
    let mut i = 0;
    while i < 2048 {
        table[i / 8][i % 8] = ((i / 8) >> (7 - i % 8)) as u8 & 1;
        i += 1;
    }
    table
}

const fn packed() -> [u64; 256] {
    let mut table = [0; 256];
    let mut byte = 0;
    while byte < 256 {
        table[byte] = u64::from_le_bytes(BYTE_EXTEND_TABLE[byte]);
        byte += 1;
    }
    table
}
