//! A table of what the parts of a scene cost.

use crate::both::Part;
use crate::size::Size;

pub fn print(name: &str, size: Size, waiting: u64, parts: &[Part], unit: &Part) {
    let Size { machines, jobs, .. } = size;
    println!(
        "\n### {name}: {machines} machines, {jobs} jobs, {} tasks\n",
        size.tasks()
    );
    let [orphans, steps, places] = size.rows(waiting);
    println!("Rows of a pass: {orphans} for orphans, {steps} for steps, {places} for places.\n");
    println!(
        "| calls | how many | stores a call | at the most | a call in showings | second / herd | lines a second |"
    );
    println!("|---|---|---|---|---|---|---|");
    for part in &joined(parts) {
        row(part, unit);
    }
}

/// Parts of the same name are one.
fn joined(parts: &[Part]) -> Vec<Part> {
    let mut all: Vec<Part> = Vec::new();
    for part in parts {
        match all.iter_mut().find(|other| other.name == part.name) {
            Some(other) => {
                other.calls += part.calls;
                other.stores += part.stores;
                other.most_stores = other.most_stores.max(part.most_stores);
                other.herd += part.herd;
                other.second += part.second;
            }
            None => all.push(part.clone()),
        }
    }
    all
}

fn row(part: &Part, unit: &Part) {
    let each = |sum: u64, part: &Part| sum as f64 / part.calls as f64;
    let (herd, second) = (each(part.herd, part), each(part.second, part));
    println!(
        "| {} | {} | {:.2} | {} | {:.1} | {:.2} | {:.0} |",
        part.name,
        part.calls,
        each(part.stores, part),
        part.most_stores,
        herd / each(unit.herd, unit),
        second / herd,
        1e9 / herd
    );
}
