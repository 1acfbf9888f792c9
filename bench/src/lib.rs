//! The library's calls beside plain Rust written for speed.

pub mod compare;
pub mod fast;
pub mod library;
pub mod reports;
pub mod trials;

/// A table of permitted flags: the mark of flag j and value v stands at `[j - 1][v - 1]`.
/// 1 is yes, any other number no.
pub type FlagTable = [[u8; 10]; 14];
