//! The weakest-cut monitor a second time, written from documents 01 and 02 alone and by another method: a reader and a writer of link
//! sheets, two ways to the answer, and what the comparison with the monitor needs.

pub mod claims;
pub mod corners;
pub mod cuts;
pub mod documented;
#[cfg(feature = "archive")]
pub mod entry;
pub mod every_side;
pub mod faults;
pub mod generate;
pub mod list;
pub mod network;
pub mod pairs;
pub mod random;
pub mod report;
pub mod shapes;
pub mod sheet;
pub mod sold;
pub mod thickness;
pub mod trunks;
