//! Inputs made from a seed: plans of many shapes, damaged files and tables, slices of any length.
pub mod carries;
pub mod contests;
pub mod damage;
pub mod draft;
pub mod ended;
pub mod fields;
pub mod input;
pub mod limits;
pub mod random;
pub mod rounds;
pub mod shapes;
pub mod sites;
pub mod timed;
pub mod trims;
pub mod warnings;
