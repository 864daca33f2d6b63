//! The checksums of UBIOS tables (32 bits) and SFI tables (8 bits).

/// All bytes added up, modulo 2^8.
pub fn sum8(bytes: &[u8]) -> u8 {
    let total: u64 = bytes.iter().map(|&byte| u64::from(byte)).sum();
    (total % (1 << 8)) as u8
}

/// All little-endian four-byte words added up, modulo 2^32.
pub fn sum32(bytes: &[u8]) -> u32 {
    let total: u64 = bytes.chunks(4).map(|word| u64::from(value(word))).sum();
    (total % (1 << 32)) as u32
}

/// The value of a word of four bytes or, at the end, fewer: the missing high bytes are zeros.
fn value(word: &[u8]) -> u32 {
    let mut bytes = [0; 4];
    bytes[..word.len()].copy_from_slice(word);
    u32::from_le_bytes(bytes)
}
