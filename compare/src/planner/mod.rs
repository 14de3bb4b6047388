//! A planner of its own, written from documents 01 and 02 alone: what the library is held to, and timed beside.
pub mod boundary;
pub mod carry;
pub mod contest;
pub mod decide;
#[cfg(test)]
mod definition;
pub mod entries;
pub mod index;
pub mod looks;
pub mod plan;
pub mod read;
pub mod refusal;
pub mod search;
pub mod sound;
#[cfg(test)]
mod tests;
pub mod trim;
pub mod warning;
pub mod write;
