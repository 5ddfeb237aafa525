//! Stub: no program is loaded.
