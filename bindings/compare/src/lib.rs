//! The comparison: the unit through its C boundary, a plain reading of document 01 (written from the paper and not from
//! the unit's code), and the source's own text where it is given.

pub mod answers;
pub mod bench;
#[cfg(feature = "unit")]
pub mod boundary;
pub mod call;
pub mod cases;
pub mod comparison;
mod left_out;
mod parts;
pub mod plain;
pub mod random;
pub mod reading;
pub mod report;
pub mod slips;
mod smaller;
#[cfg(source)]
pub mod source;
mod tails;
pub mod text;
pub mod unit;
