//! The independent implementation beside a library of the twenty-four calls, on
//! random cases, with every buffer between fences.

pub mod calls;
pub mod compare;
pub mod draw;
pub mod expected;
pub mod fault;
pub mod fence;
pub mod flag_tables;
pub mod harness;
pub mod indicators;
pub mod library;
pub mod reports;
pub mod scripts;
pub mod shrink;
pub mod tally;
pub mod trial;

#[cfg(test)]
mod stand_in;
#[cfg(test)]
mod tests;
