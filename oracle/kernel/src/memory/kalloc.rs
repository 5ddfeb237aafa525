//! Stub: pages come from the host's allocator, through `Box`.
