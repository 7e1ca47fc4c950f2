//! The planner's side of the monitor: networks as text and as cable lists, trees fitted to them, and what the unit's answers mean, in
//! words, as JSON and as pictures. The answers come from the proved code (`unit`); all else here is tested, not proved.

pub mod cables;
pub mod edit;
pub mod findings;
pub mod fit;
pub mod input;
pub mod json;
mod levels;
pub mod mistakes;
pub mod names;
pub mod picture;
pub mod text;
pub mod unit;
