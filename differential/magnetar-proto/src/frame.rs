//! Stand-in: error.rs names this one type.

/// Never made here.
#[derive(Debug, thiserror::Error)]
#[error("frame error")]
pub struct FrameError;
