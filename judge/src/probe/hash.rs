//! Sees the private sum of hash.rs.
use super::Crc64;

pub fn sum(bytes: &[u8]) -> u64 {
    let mut crc = Crc64::new();
    crc.hash_bytes(bytes);
    crc.finish()
}
