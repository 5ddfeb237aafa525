//! Stub of the page flags: given and never looked at.

use core::ops::BitOr;

#[derive(Clone, Copy)]
pub struct PteFlags;

impl PteFlags {
    pub const R: Self = Self;
    pub const W: Self = Self;
    pub const X: Self = Self;
}

impl BitOr for PteFlags {
    type Output = Self;

    fn bitor(self, _other: Self) -> Self {
        self
    }
}
