//! The Rust of the send queue, unchanged: eight source files read from where they are, over small
//! stand-ins for the parts of magnetar-proto that they name and that are not among them.

include!(concat!(env!("OUT_DIR"), "/sources.rs"));

pub mod access;
pub mod conn;
pub mod frame;

pub use conn::MemoryLimitPolicy;
pub use txn::TxnId;

pub const MAX_FRAME_SIZE: usize = 5 * 1024 * 1024;
pub const DECOMPRESSION_VALIDATION_SLACK: usize = 1;
pub const ZSTD_MIN_WINDOW_SIZE: usize = 1024;

/// A newer prost derives these conversions; the one at hand has `from_i32` only.
macro_rules! try_from_i32 {
    ($($name:ident),*) => {
        $(impl TryFrom<i32> for pb::$name {
            type Error = i32;

            fn try_from(value: i32) -> Result<Self, i32> {
                Self::from_i32(value).ok_or(value)
            }
        })*
    };
}

try_from_i32!(CompressionType, ServerError, SegmentState);
