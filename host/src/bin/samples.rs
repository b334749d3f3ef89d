//! Write the stored files that hold positions anew, with the positions that `host::upkeep::samples` makes.

use host::upkeep::samples::stored;
use std::fs;
use std::path::Path;

fn main() {
    let root = Path::new(env!("CARGO_MANIFEST_DIR")).join("..");
    let read = |path: &str| fs::read_to_string(root.join(path)).expect(path);
    for (path, bytes) in stored(read) {
        fs::write(root.join(path), bytes).expect(path);
    }
}
