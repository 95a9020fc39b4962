//! Stand-in for the crate `zstd`: signatures only. Compression is left out of the comparison.

pub mod stream {
    use std::io::{Error, ErrorKind, Read, Result};

    pub fn encode_all<R: Read>(_source: R, _level: i32) -> Result<Vec<u8>> {
        unreachable!("compression is off")
    }

    pub struct Decoder<R>(pub R);

    impl<R: Read> Decoder<R> {
        pub fn new(_source: R) -> Result<Self> {
            Err(Error::from(ErrorKind::Unsupported))
        }
    }

    impl<R: Read> Read for Decoder<R> {
        fn read(&mut self, _into: &mut [u8]) -> Result<usize> {
            Err(Error::from(ErrorKind::Unsupported))
        }
    }
}

pub mod bulk {
    use std::io::{Error, ErrorKind, Result};

    pub struct Decompressor;

    impl Decompressor {
        pub fn new() -> Result<Self> {
            Err(Error::from(ErrorKind::Unsupported))
        }

        pub fn window_log_max(&mut self, _log: u32) -> Result<()> {
            Ok(())
        }

        pub fn decompress_to_buffer(&mut self, _source: &[u8], _into: &mut [u8]) -> Result<usize> {
            Err(Error::from(ErrorKind::Unsupported))
        }
    }
}
