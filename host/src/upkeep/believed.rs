//! Which files of definitions a reader must believe: those that are reached from what is certain of the referee, and from
//! the contracts of the exported functions. The others are vocabulary of inner contracts and proofs, and examples.

use std::collections::{BTreeMap, BTreeSet};
use std::fs;
use std::io;
use std::path::Path;

/// A file of definitions: its crate and its name.
pub type Spec = (String, String);

/// The files of definitions, each with its text.
pub struct Specs {
    texts: BTreeMap<Spec, String>,
}

/// Where one begins to read: what is certain, and the contracts of the calls.
const CERTAIN: (&str, &str) = ("rules", "Certain");
const CONTRACTS: [&str; 2] = ["crates/rules/src/lib.rt", "crates/referee/src/lib.rt"];

/// The first line of a file that nobody has to believe begins so.
pub const BESIDE: &str = "-- Beside what is certain: ";

/// The file that one piece of a line names, as `Rattle.grid.specs.Map` does.
fn named(piece: &str) -> Option<Spec> {
    let (name, rest) = piece.split_once('.')?;
    let path = rest.strip_prefix("specs.")?;
    let file: String = path.chars().take_while(|c| c.is_alphanumeric()).collect();
    Some((name.to_string(), file))
}

/// The files that a text brings names in from.
fn brought_in(text: &str) -> Vec<Spec> {
    let uses = text.lines().filter(|line| line.starts_with("use ") || line.starts_with("ghost use "));
    uses.filter_map(|line| line.split("Rattle.").nth(1)).filter_map(named).collect()
}

impl Specs {
    pub fn read(root: &Path) -> io::Result<Specs> {
        let mut texts = BTreeMap::new();
        for entry in fs::read_dir(root.join("crates"))? {
            let folder = entry?;
            let name = folder.file_name().to_string_lossy().into_owned();
            let Ok(files) = fs::read_dir(folder.path().join("specs")) else {
                continue;
            };
            for file in files {
                let path = file?.path();
                let stem = path.file_stem().unwrap_or_default().to_string_lossy().into_owned();
                if stem != "Lib" {
                    texts.insert((name.clone(), stem), fs::read_to_string(&path)?);
                }
            }
        }
        Ok(Specs { texts })
    }

    /// Puts a file behind all that it brings names in from, as far as they are not there yet.
    fn visit(&self, spec: &Spec, order: &mut Vec<Spec>, seen: &mut BTreeSet<Spec>) {
        let Some(text) = self.texts.get(spec) else {
            return;
        };
        if !seen.insert(spec.clone()) {
            return;
        }
        for below in brought_in(text) {
            self.visit(&below, order, seen);
        }
        order.push(spec.clone());
    }

    /// What must be believed, each file behind all that it speaks of.
    pub fn believed(&self, root: &Path) -> io::Result<Vec<Spec>> {
        let mut order = Vec::new();
        let mut seen = BTreeSet::new();
        self.visit(&(CERTAIN.0.to_string(), CERTAIN.1.to_string()), &mut order, &mut seen);
        for path in CONTRACTS {
            for spec in brought_in(&fs::read_to_string(root.join(path))?) {
                self.visit(&spec, &mut order, &mut seen);
            }
        }
        Ok(order)
    }

    /// The files whose first line says other than the list whether they must be believed.
    pub fn mistold(&self, believed: &[Spec]) -> Vec<Spec> {
        let wrong = |spec: &&Spec| self.texts[*spec].starts_with(BESIDE) == believed.contains(spec);
        self.texts.keys().filter(wrong).cloned().collect()
    }

    pub fn count(&self) -> usize {
        self.texts.len()
    }
}

/// The list as a table, a row for each crate, the crates from the ground up.
pub fn table(believed: &[Spec], crates: &str) -> String {
    let mut rows = String::from("| crate | files of `specs/`, in reading order |\n|---|---|\n");
    for line in crates.lines() {
        let name = line.split([':', ' ']).next().unwrap_or_default();
        let files: Vec<&str> = believed.iter().filter(|spec| spec.0 == name).map(|spec| spec.1.as_str()).collect();
        if !files.is_empty() {
            rows.push_str(&format!("| `{name}` | {} |\n", files.join(", ")));
        }
    }
    rows
}

#[cfg(test)]
mod tests {
    use super::*;

    fn spec(name: &str, file: &str) -> Spec {
        (name.to_string(), file.to_string())
    }

    #[test]
    fn files_are_named_from_within_and_from_outside() {
        assert_eq!(named("grid.specs.Map.{On}"), Some(spec("grid", "Map")));
        assert_eq!(named("grid.specs.Walk as Walk"), Some(spec("grid", "Walk")));
        assert_eq!(named("grid.proofs.Laws.{other}"), None);
    }

    #[test]
    fn only_lines_that_bring_names_in_count() {
        let text =
            "-- Rattle.a.specs.A\nuse Rattle.b.specs.B.{x}\nghost use Rattle.c.specs.C.{y};\nuse mathlib.Core.Path\n";
        assert_eq!(brought_in(text), vec![spec("b", "B"), spec("c", "C")]);
    }

    #[test]
    fn a_file_stands_behind_what_it_speaks_of() {
        let certain = "use Rattle.rules.specs.Order.{step}\nuse Rattle.grid.specs.Map.{On}\n";
        let order = "use Rattle.grid.specs.Map.{On}\n";
        let specs = Specs {
            texts: [
                (("rules", "Certain"), certain),
                (("rules", "Order"), order),
                (("grid", "Map"), ""),
                (("grid", "Spot"), ""),
            ]
            .into_iter()
            .map(|(key, text)| (spec(key.0, key.1), text.to_string()))
            .collect(),
        };
        let mut found = Vec::new();
        specs.visit(&spec("rules", "Certain"), &mut found, &mut BTreeSet::new());
        assert_eq!(found, vec![spec("grid", "Map"), spec("rules", "Order"), spec("rules", "Certain")]);
        assert_eq!(specs.mistold(&found), vec![spec("grid", "Spot")]);
        assert_eq!(table(&found, "grid:\nrules staticlib: grid\n").lines().last(), Some("| `rules` | Order, Certain |"));
    }
}
