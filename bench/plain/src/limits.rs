//! The limits.
pub const LINES: usize = 4096;
pub const THREADS: usize = 256;
pub const TIMERS: usize = 64;
pub const MAX_TRANSFER: usize = 256;
pub const MAX_INBAND: u32 = 64;
/// The most plays of one call.
pub const MAX_PLAYS: usize = 4736;
pub const MAX_LIMIT: u64 = 1_000_000;
pub const SEM_MAXIMUM: u32 = 2_147_483_647;
pub const SECOND: u64 = 1_000_000_000;
/// No thread.
pub const NONE: u16 = u16::MAX;
