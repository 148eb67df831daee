//! Patterns that are read without a request for memory.

use crate::given::parts_of;
use std::alloc::{AllocError, Global};
use urlpattern_parser::parser::Options;

/// Appends copies of a piece.
fn push_copies(text: &mut String, piece: &str, count: usize) -> Result<(), AllocError> {
    for _ in 0..count {
        text.push_str(piece)?;
    }
    Ok(())
}

/// Groups without a text are read without a request for memory. Once the pattern is built, a
/// failing request therefore changes nothing.
#[test]
fn empty_groups_are_read_without_memory(rt: HostRuntime) {
    let alloc = rt.alloc();
    for count in [10, 1_000] {
        let mut pattern = String::new(alloc);
        if push_copies(&mut pattern, "{}?", count).is_err() {
            return;
        }
        let parts = parts_of(alloc, &pattern, &Options::default(alloc));
        assert!(rt; matches!(&parts, Ok(parts) if parts.is_empty()), "{count}");
    }
}
