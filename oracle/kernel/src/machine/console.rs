//! The lines that the kernel prints, kept only while the listing is taken.

use alloc::string::{String, ToString};
use alloc::vec::Vec;
use core::cell::RefCell;
use core::fmt::Arguments;

std::thread_local! {
    static KEPT: RefCell<Option<Vec<String>>> = const { RefCell::new(None) };
}

pub fn line(text: Arguments) {
    KEPT.with(|kept| {
        if let Some(lines) = kept.borrow_mut().as_mut() {
            lines.push(text.to_string());
        }
    });
}

pub fn keep() {
    KEPT.with(|kept| *kept.borrow_mut() = Some(Vec::new()));
}

pub fn take() -> Vec<String> {
    KEPT.with(|kept| kept.borrow_mut().take().unwrap_or_default())
}
