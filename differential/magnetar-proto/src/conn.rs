//! Stand-in: memory_limit.rs names these two types.

/// What a caller does when a reservation does not fit.
#[derive(Debug, Clone, Copy, PartialEq, Eq)]
pub enum MemoryLimitPolicy {
    FailImmediately,
    ProducerBlock,
}

/// The two settings that the budget reads.
#[derive(Debug, Clone)]
pub struct ConnectionConfig {
    pub memory_limit_bytes: u64,
    pub memory_limit_policy: MemoryLimitPolicy,
}
