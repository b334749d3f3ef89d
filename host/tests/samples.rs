//! The stored files that hold positions: each is what `samples` writes.

use host::upkeep::samples::stored;
use std::fs;
use std::path::Path;

#[test]
fn stored_positions_are_made_from_their_parts() {
    let root = Path::new(env!("CARGO_MANIFEST_DIR")).join("..");
    let read = |path: &str| fs::read_to_string(root.join(path)).expect(path);
    for (path, bytes) in stored(read) {
        assert!(fs::read(root.join(path)).expect(path) == bytes, "{path}: run target/release/samples");
    }
}
