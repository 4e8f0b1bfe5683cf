//! Calls that change much, each cut after 0, 1, 2 .. stores, up to all that it has: a script for each number.

use crate::play::Play;

const MACHINES: [&str; 4] = [
    "time 1",
    "add 1 cpu 40 memory 40 tags 3,5",
    "add 2 cpu 40 memory 40 tags 5",
    "rounds 1 100",
];

fn job(name: &str, image: u32, amounts: &str) -> String {
    format!("set {name} image {image} cpu 2 memory 1 {amounts} tags 5")
}

/// A name, what comes before, and the call.
type Cut = (&'static str, Vec<String>, Vec<String>);

/// A new image: one task ends, and another comes.
fn rollout() -> Cut {
    let mut before = MACHINES.map(String::from).to_vec();
    before.push(job("mix", 1, "count 3 least 2 most 4"));
    before.push("rounds 4 100".into());
    let call = job("mix", 2, "count 3 least 2 most 4");
    ("rollout", before, vec![call])
}

/// A report of a machine in its next life: its tasks are gone, and others come.
fn report() -> Cut {
    let mut before = MACHINES.map(String::from).to_vec();
    before.extend(["mix", "web", "x"].map(|name| job(name, 1, "count 4 least 1 most 4")));
    before.extend(["rounds 5 100", "fall 1", "report 1"].map(String::from));
    ("report", before, vec!["hand 1".into()])
}

/// A setting with which eight tasks come.
fn eight() -> Cut {
    let mut before = MACHINES.map(String::from).to_vec();
    before.extend((1..=8).map(|i| job(&format!("job{i}"), 1, "count 20 least 0 most 20")));
    let call = job("job8", 1, "count 21 least 0 most 21");
    ("eight", before, vec![call])
}

const BEHIND: [&str; 7] = [
    "stores",
    "show",
    "check",
    "time 9000",
    "rounds 3 10",
    "show",
    "check",
];

/// How many stores the call has.
fn stores_of(before: &[String], call: &[String]) -> u64 {
    let mut play = Play::new();
    before.iter().for_each(|line| play.line(line.as_bytes()));
    play.herd.kept.take_stores();
    call.iter().for_each(|line| play.line(line.as_bytes()));
    play.herd.kept.take_stores()
}

fn script(before: &[String], call: &[String], stores: u64) -> String {
    let mut lines = before.to_vec();
    lines.extend(["show".into(), "stores".into(), format!("dark {stores}")]);
    lines.extend_from_slice(call);
    lines.extend(BEHIND.map(String::from));
    lines.join("\n") + "\n"
}

/// All scripts, each with a name.
pub fn all() -> Vec<(String, String)> {
    let mut scripts = Vec::new();
    for (name, before, call) in [rollout(), report(), eight()] {
        for stores in 0..=stores_of(&before, &call) {
            let name = format!("{name}-dark-{stores:03}");
            scripts.push((name, script(&before, &call, stores)));
        }
    }
    scripts
}
