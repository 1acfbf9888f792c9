//! Packed LMR.5 marine reports, written for comparison: plain data, plain loops.

pub mod attachment;
pub mod bits;
pub mod call;
pub mod card;
pub mod cases;
pub mod deck;
pub mod edit;
pub mod flag_table;
pub mod flags;
pub mod gate;
pub mod indicator;
pub mod judge;
pub mod line;
pub mod lister;
pub mod number;
pub mod observation;
pub mod outside;
pub mod prng;
pub mod reader;
pub mod refusal;
pub mod step;
pub mod table;
pub mod text;
pub mod trips;
