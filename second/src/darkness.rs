//! Every darkness: calls that change much, cut at each of their stores, leave the state before; at their end, that after.

use crate::play::Play;
use crate::rules::State;

const SETUP: [&str; 9] = [
    "time 1",
    "add 1 cpu 20 memory 20 tags 7,8",
    "add 2 cpu 20 memory 20",
    "rounds 1 10",
    "set mix image 1 cpu 2 memory 1 count 3 least 2 most 4",
    "set web image 1 cpu 1 memory 1 count 4 least 0 most 4 tags 8",
    "set a-longer-name image 1 cpu 1 memory 3 count 2 least 1 most 3 apart",
    "rounds 6 100",
    "show",
];

fn played(lines: &[&str]) -> Play {
    let mut play = Play::new();
    for line in SETUP.iter().chain(lines) {
        play.line(line.as_bytes());
    }
    play
}

/// Sweeps the last of these lines; how many stores it has.
fn sweep(lines: &[&str]) -> u64 {
    let (last, front) = lines.split_last().expect("a line to cut");
    let before: State = played(front).herd.state;
    let mut whole = played(front);
    whole.herd.kept.take_stores();
    whole.line(last.as_bytes());
    let stores = whole.herd.kept.take_stores();
    for n in 0..stores {
        let mut cut = played(front);
        cut.herd.kept.dark_after(n);
        cut.herd.kept.take_stores();
        cut.line(last.as_bytes());
        assert_eq!(cut.herd.state, before.clone().down(), "{last}, {n} stores");
        assert_eq!(cut.herd.kept.take_stores(), n);
    }
    let mut done = played(front);
    done.herd.kept.dark_after(stores);
    done.line(last.as_bytes());
    assert_eq!(done.herd.state, whole.herd.state);
    let woken = crate::rows::read(done.herd.kept.home());
    assert_eq!(woken, whole.herd.state.down());
    stores
}

#[test]
fn a_rollout() {
    let line = "set mix image 2 cpu 2 memory 1 count 3 least 2 most 4";
    assert!(sweep(&[line]) > 10);
}

#[test]
fn a_report_that_ends_some() {
    assert!(sweep(&["fall 1", "report 1", "deliver"]) > 10);
}

/// Eight jobs that each want one more: after the dark the time is told, and the pass brings all eight.
#[test]
fn a_pass_that_brings_eight_tasks() {
    let jobs = (0..8).map(|i| format!("set job{i} image 1 cpu 1 memory 1 count 9 least 0 most 9"));
    let mut lines: Vec<String> = jobs.collect();
    lines.push("time 2000".into());
    let lines: Vec<&str> = lines.iter().map(String::as_str).collect();
    assert!(sweep(&lines) > 8 * 10);
}

#[test]
fn what_changes_nothing_stores_nothing() {
    assert_eq!(sweep(&["rounds 4 1", "time 9"]), 0);
    assert_eq!(sweep(&["show mix"]), 0);
    assert_eq!(sweep(&["end nobody"]), 0);
    assert_eq!(sweep(&["rounds 4 1", "report 1", "deliver"]), 1);
}

#[test]
fn a_machine_more() {
    assert!(sweep(&["add 3 cpu 1 memory 1 tags 1,2"]) > 5);
}
