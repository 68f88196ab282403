//! Which library this program is linked with.
pub const LIBRARY: &str = "target/staticlib/libjabulghi.a";

/// The sum of a file's bytes by Fowler, Noll and Vo.
pub fn sum(path: &str) -> u64 {
    let bytes = std::fs::read(path).unwrap_or_else(|error| panic!("{path}: {error}"));
    bytes.iter().fold(0xcbf2_9ce4_8422_2325, |sum, &byte| (sum ^ u64::from(byte)).wrapping_mul(0x0100_0000_01b3))
}
