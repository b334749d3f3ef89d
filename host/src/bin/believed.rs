//! Prints which files of definitions must be believed, in reading order. Ends with status 1 if docs/PROMISES.md lists others, or
//! if the first line of a file does not say whether it is one of them.

use host::upkeep::believed::{table, Specs};
use std::error::Error;
use std::fs;
use std::path::Path;
use std::process::exit;

fn main() -> Result<(), Box<dyn Error>> {
    let root = Path::new(env!("CARGO_MANIFEST_DIR")).join("..");
    let specs = Specs::read(&root)?;
    let believed = specs.believed(&root)?;
    let rows = table(&believed, &fs::read_to_string(root.join("crates.txt"))?);
    print!("{rows}");
    println!("{} of {} files", believed.len(), specs.count());
    let mistold = specs.mistold(&believed);
    for (name, file) in &mistold {
        println!("crates/{name}/specs/{file}.antt: its first line does not say whether it must be believed");
    }
    let listed = fs::read_to_string(root.join("docs/PROMISES.md"))?.contains(&rows);
    if !listed {
        println!("docs/PROMISES.md lists others");
    }
    if !listed || !mistold.is_empty() {
        exit(1);
    }
    Ok(())
}
