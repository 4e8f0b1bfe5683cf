//! The dark at each store of a call that changes much: the same again, and later, until the call is done.

use crate::generate::Writer;

/// How long such a script may become.
const LINES: usize = 190;

/// A machine without room, whose news makes the halves take turns.
const SMALL: u16 = 60_000;

/// What brings the herd back to where it was before the dark, as often as it needs.
type Again = fn(&mut Writer);

pub fn write(w: &mut Writer) {
    match w.below(8) {
        0 | 1 => rollout(w),
        2 => coming_up(w),
        3 => placing(w),
        4 | 5 => growing(w),
        6 => first_time(w),
        _ => adding(w),
    }
}

fn small(w: &mut Writer) {
    w.say(format!("add {SMALL} cpu 0 memory 0"));
    w.say(format!("report {SMALL}"));
    w.say(format!("report {SMALL}"));
    w.say("deliver");
}

/// A life and a number differ then, two words: the half with the rests of the failed call is made whole, and holds.
fn turn(w: &mut Writer) {
    w.say(format!("fall {SMALL}"));
    w.say(format!("report {SMALL}"));
    w.say(format!("report {SMALL}"));
    w.say("deliver");
}

/// Sweeps one call, over the rests of what failed before, or with halves that took turns in between.
fn sweep(w: &mut Writer, call: &[&str], again: Again) {
    let call: Vec<String> = call.iter().map(|line| line.to_string()).collect();
    if w.one_in(3) {
        sweep_rests(w, &call, again);
    } else {
        sweep_whole(w, &call, again);
    }
    look(w);
    w.say("rounds 3 10");
}

/// False where the call was done, and no power failed.
fn failed(w: &mut Writer, call: &[String], stores: u64) -> bool {
    w.say("stores");
    w.say(format!("dark {stores}"));
    for line in call {
        w.say(line);
    }
    w.is_dark()
}

fn look(w: &mut Writer) {
    if w.one_in(4) {
        w.say("show");
    }
}

/// Each try finds in the other half what those before it stored, so that less and less is left to store.
fn sweep_rests(w: &mut Writer, call: &[String], again: Again) {
    let mut stores = 0;
    while failed(w, call, stores) && w.long() < LINES {
        look(w);
        again(w);
        stores += 1;
    }
}

/// Each try has as much to store: where that is more than a script has room for, some are left out, others for each seed.
fn sweep_whole(w: &mut Writer, call: &[String], again: Again) {
    turn(w);
    let all = w.stores_of(call);
    let stride = 1 + all / 16;
    let mut stores = w.below(stride);
    while failed(w, call, stores) && w.long() < LINES {
        look(w);
        again(w);
        turn(w);
        stores = match stores + stride {
            next if next < all => next,
            _ if stores + 1 < all => all - 1,
            _ => all,
        };
    }
}

const TAGS: &str = "tags 1,2,3,4,5,6,7,8";

fn large_machines(w: &mut Writer, n: u16) {
    w.time(0);
    small(w);
    for machine in 1..=n {
        w.say(format!("add {machine} cpu 20 memory 40 {TAGS}"));
    }
    w.say("rounds 1 100");
}

/// Jobs with all that a row has room for, so that there is much to store.
fn job(i: u64, image: u32, amounts: &str) -> String {
    let name = format!("sender-of-the-northern-cellar-{i}");
    format!("set {name} image {image} cpu 1 memory 1 {amounts} {TAGS}")
}

fn some_jobs(w: &mut Writer, n: u64) {
    for i in 0..n {
        w.say(job(i, 1, "count 2 least 1 most 3"));
    }
    w.say("rounds 4 100");
}

/// A new image: a task ends, and another comes.
fn rollout(w: &mut Writer) {
    large_machines(w, 3);
    some_jobs(w, 2);
    let call = job(0, 2, "count 2 least 1 most 3");
    sweep(w, &[&call], Writer::recover);
}

/// A report of a machine in its next life: all its tasks are gone, and others come.
fn coming_up(w: &mut Writer) {
    large_machines(w, 2);
    let jobs = 1 + w.below(6);
    some_jobs(w, jobs);
    w.say("fall 1");
    sweep(w, &["report 1", "deliver"], |w| w.time(1));
}

/// A report by which tasks that wait are told to the machine.
fn placing(w: &mut Writer) {
    w.time(0);
    small(w);
    let jobs = 1 + w.below(8);
    some_jobs(w, jobs);
    w.say(format!("add 5 cpu 100 memory 100 {TAGS}"));
    sweep(w, &["report 5", "deliver"], |w| w.time(1));
}

/// A setting, and with it a pass in which each of many jobs gets a task.
fn growing(w: &mut Writer) {
    w.time(0);
    small(w);
    let jobs = 1 + w.below(8);
    for i in 0..jobs {
        w.say(job(i, 1, "count 200 least 0 most 200"));
    }
    let call = job(jobs - 1, 1, "count 200 least 0 most 201");
    sweep(w, &[&call], |w| w.time(1));
}

/// The same by the time that is told first.
fn first_time(w: &mut Writer) {
    w.time(0);
    let jobs = 1 + w.below(4);
    for i in 0..jobs {
        w.say(job(i, 1, "count 9 least 0 most 9"));
    }
    sweep_rests(w, &["time 50".to_string()], |_| ());
}

/// A machine, or a job that is new.
fn adding(w: &mut Writer) {
    large_machines(w, 1);
    let add = "add 9 cpu 7 memory 8 tags 1,2,3,4,5,6,7,8,9,10,11,12,13,14,15,16";
    let set = job(9, 9, "count 3 least 1 most 4");
    if w.one_in(2) {
        sweep(w, &[add], Writer::recover);
    } else {
        sweep(w, &[&set], Writer::recover);
    }
}
