//! The carried kernel behind `lane`'s text, lists of calls, and the comparison.

pub mod added;
pub mod batch;
pub mod counts;
pub mod generate;
pub mod listed;
mod listing;
mod look;
pub mod options;
pub mod oracle;
pub mod pick;
pub mod pipe;
pub mod reduce;
pub mod rng;
pub mod short;
pub mod source;
