//! What must be believed is as docs/PROMISES.md lists it, and each file of definitions says which it is.

use host::upkeep::believed::{table, Specs};
use std::fs;
use std::path::Path;

#[test]
fn the_list_is_true() {
    let root = Path::new(env!("CARGO_MANIFEST_DIR")).join("..");
    let read = |path: &str| fs::read_to_string(root.join(path)).expect(path);
    let specs = Specs::read(&root).expect("crates");
    let believed = specs.believed(&root).expect("contracts");
    assert_eq!(specs.mistold(&believed), []);
    assert!(read("docs/PROMISES.md").contains(&table(&believed, &read("crates.txt"))), "run host/believed");
}
