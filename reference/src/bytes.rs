//! Little-endian numbers and digests in byte slices. Every caller has checked the length before.

pub type Digest = [u8; 32];

pub const NO_DIGEST: Digest = [0; 32];

/// The `N` bytes from place `at`, by value.
pub fn get<const N: usize>(bytes: &[u8], at: usize) -> [u8; N] {
    let mut value = [0; N];
    value.copy_from_slice(&bytes[at..at + N]);
    value
}

pub fn put<const N: usize>(bytes: &mut [u8], at: usize, value: [u8; N]) {
    bytes[at..at + N].copy_from_slice(&value);
}

pub fn get_u16(bytes: &[u8], at: usize) -> u16 {
    u16::from_le_bytes(get(bytes, at))
}

pub fn get_u32(bytes: &[u8], at: usize) -> u32 {
    u32::from_le_bytes(get(bytes, at))
}

pub fn get_u64(bytes: &[u8], at: usize) -> u64 {
    u64::from_le_bytes(get(bytes, at))
}

pub fn put_u16(bytes: &mut [u8], at: usize, value: u16) {
    put(bytes, at, value.to_le_bytes());
}

pub fn put_u32(bytes: &mut [u8], at: usize, value: u32) {
    put(bytes, at, value.to_le_bytes());
}

pub fn put_u64(bytes: &mut [u8], at: usize, value: u64) {
    put(bytes, at, value.to_le_bytes());
}

/// By eight bytes, and without an early way out, so that the compiler takes several of these at a time.
pub fn all_zero(bytes: &[u8]) -> bool {
    let (words, rest) = bytes.as_chunks();
    let seen = words.iter().fold(0, |seen, word| seen | u64::from_le_bytes(*word));
    rest.iter().fold(seen, |seen, byte| seen | u64::from(*byte)) == 0
}

/// Whether a length field of four bytes says exactly this length; a slice may be longer than any field can say.
pub fn says_length(field: u32, length: usize) -> bool {
    u64::from(field) == length as u64
}
