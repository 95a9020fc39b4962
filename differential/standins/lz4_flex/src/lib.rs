//! Stand-in for the crate `lz4_flex`: signatures only. Compression is left out of the comparison.

use std::fmt;

#[derive(Debug)]
pub struct DecompressError;

impl fmt::Display for DecompressError {
    fn fmt(&self, f: &mut fmt::Formatter<'_>) -> fmt::Result {
        f.write_str("lz4")
    }
}

#[must_use]
pub fn compress(_input: &[u8]) -> Vec<u8> {
    unreachable!("compression is off")
}

pub fn decompress(_input: &[u8], _size: usize) -> Result<Vec<u8>, DecompressError> {
    Err(DecompressError)
}

pub mod block {
    use super::DecompressError;

    pub fn decompress_into(_input: &[u8], _output: &mut [u8]) -> Result<usize, DecompressError> {
        Err(DecompressError)
    }
}
