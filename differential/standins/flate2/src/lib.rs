//! Stand-in for the crate `flate2`: signatures only. Compression is left out of the comparison.

#[derive(Default)]
pub struct Compression;

pub mod write {
    use std::io::{Result, Write};

    pub struct ZlibEncoder<W>(W);

    impl<W: Write> ZlibEncoder<W> {
        pub fn new(inner: W, _level: super::Compression) -> Self {
            Self(inner)
        }

        pub fn finish(self) -> Result<W> {
            Ok(self.0)
        }
    }

    impl<W: Write> Write for ZlibEncoder<W> {
        fn write(&mut self, _bytes: &[u8]) -> Result<usize> {
            unreachable!("compression is off")
        }

        fn flush(&mut self) -> Result<()> {
            Ok(())
        }
    }
}

macro_rules! decoder {
    ($module:ident) => {
        pub mod $module {
            pub struct ZlibDecoder<R>(pub R);

            impl<R> ZlibDecoder<R> {
                pub fn new(inner: R) -> Self {
                    Self(inner)
                }
            }

            impl<R> std::io::Read for ZlibDecoder<R> {
                fn read(&mut self, _into: &mut [u8]) -> std::io::Result<usize> {
                    unreachable!("compression is off")
                }
            }
        }
    };
}

decoder!(read);
decoder!(bufread);
