//! Calls and answers as the program `lane` reads and writes them.

mod answer;
mod call;
mod serve;
mod view;

pub use answer::{Answer, Refusal};
pub use call::{Call, Wish};
pub use serve::{answer_into, serve, Lane};
pub use view::{put_number, SlotView, State, View, HARTS, SLOTS};
