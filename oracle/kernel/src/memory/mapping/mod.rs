//! Stub: names the parts below.

pub mod page_table;
pub mod page_table_entry;
pub use page_table::*;
pub use page_table_entry::*;
