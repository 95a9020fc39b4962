//! Stand-in for the crate `snap`: signatures only. Compression is left out of the comparison.

pub mod raw {
    use std::io::{Error, ErrorKind, Result};

    #[derive(Default)]
    pub struct Encoder;

    impl Encoder {
        #[must_use]
        pub fn new() -> Self {
            Self
        }

        pub fn compress_vec(&mut self, _input: &[u8]) -> Result<Vec<u8>> {
            unreachable!("compression is off")
        }
    }

    #[derive(Default)]
    pub struct Decoder;

    impl Decoder {
        #[must_use]
        pub fn new() -> Self {
            Self
        }

        pub fn decompress(&mut self, _input: &[u8], _output: &mut [u8]) -> Result<usize> {
            Err(Error::from(ErrorKind::Unsupported))
        }

        pub fn decompress_vec(&mut self, _input: &[u8]) -> Result<Vec<u8>> {
            Err(Error::from(ErrorKind::Unsupported))
        }
    }

    pub fn decompress_len(_input: &[u8]) -> Result<usize> {
        Err(Error::from(ErrorKind::Unsupported))
    }
}
