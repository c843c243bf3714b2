//! The numbers that bound the work, each stated once.

/// The largest filter size; the smallest is 1.
pub const LARGEST_FILTER: u64 = 1024;

/// The largest cache size; the smallest is 1.
pub const LARGEST_CACHE: u64 = 4096;

/// The most items a file can hold.
pub const MOST_ITEMS: u64 = 1_000_000;

/// The most references a header can name: its field has four bytes.
pub const MOST_REFERENCES: u64 = u32::MAX as u64;
