//! Stub of the crate array_macro: the one form that the carried files use.
#![no_std]

/// `array![_ => VALUE; N]`: N values, each made anew.
#[macro_export]
macro_rules! array {
    (_ => $value:expr; $count:expr) => {
        [const { $value }; $count]
    };
}
