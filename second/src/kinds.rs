//! The kinds of scripts. Each begins with machines and jobs, goes on with acts by chance, and ends with a look at all.

use crate::acts::*;
use crate::generate::{Act, JOBS, MACHINES, Writer};
use crate::sweeps;

pub fn write(w: &mut Writer, seed: u64) {
    w.say(format!("# seed {seed}"));
    match seed % 10 {
        0 | 5 => rollout(w),
        1 => lost(w),
        2 => crowded(w),
        3 | 8 => sweeps::write(w),
        4 => gone(w),
        6 => refusals(w),
        7 if seed % 20 == 7 => many(w),
        _ => mixed(w),
    }
    if w.is_dark() {
        w.recover();
    }
    w.say("lines good");
    w.say("rounds 2 1");
    w.say("settle 1000");
    w.say("show");
    w.say("check");
    w.say("stores");
}

/// Acts by chance until the script is so long.
fn go_on(w: &mut Writer, lines: usize, acts: &[Act]) {
    while w.long() < lines {
        if w.is_dark() && !w.one_in(3) {
            w.recover();
        }
        w.act(acts);
    }
}

fn machines(w: &mut Writer, n: usize, cpu: u64) {
    w.time(0);
    let memory = w.pick(&[4, 6, 40]);
    for machine in &MACHINES[..n] {
        let more = w.below(4);
        w.add(*machine, cpu + more, memory);
    }
    w.say("rounds 1 1000");
}

const LOOK: [Act; 5] = [
    (6, show),
    (4, check),
    (3, stores),
    (1, letters),
    (2, show_job),
];

fn look(w: &mut Writer) {
    w.act(&LOOK);
}

const WAYS: [Act; 7] = [
    (3, report),
    (3, deliver),
    (2, hand),
    (1, lose),
    (1, double),
    (1, ready),
    (1, dies),
];

fn ways(w: &mut Writer) {
    w.act(&WAYS);
}

/// New images, and few ready.
fn rollout(w: &mut Writer) {
    let n = 2 + w.below(4) as usize;
    machines(w, n, 10);
    for job in &JOBS[..1 + w.below(3) as usize] {
        let least = 1 + w.below(3);
        let count = least + w.below(2);
        let most = count + 1 + w.below(2);
        let cpu = 1 + w.below(4);
        w.say(format!(
            "set {job} image 1 cpu {cpu} memory 1 count {count} least {least} most {most}"
        ));
    }
    w.say("rounds 4 1000");
    let acts: [Act; 11] = [
        (4, new_image),
        (2, new_amounts),
        (4, rounds),
        (1, settle),
        (3, exchange),
        (3, ready),
        (8, ways),
        (7, look),
        (1, dark),
        (1, fall),
        (1, hex),
    ];
    go_on(w, 110, &acts);
}

/// Machines that are not heard for long, and come back.
fn lost(w: &mut Writer) {
    let n = 2 + w.below(5) as usize;
    machines(w, n, 8);
    for job in &JOBS[..2 + w.below(3) as usize] {
        w.set(job, 4);
    }
    w.say("rounds 3 1000");
    let acts: [Act; 12] = [
        (3, time),
        (2, long_round),
        (4, exchange),
        (2, rounds),
        (2, fall),
        (2, new_image),
        (1, new_amounts),
        (6, ways),
        (7, look),
        (1, seed),
        (1, lines_good),
        (1, dark),
    ];
    go_on(w, 120, &acts);
}

/// Eight machines that are full, and more is wanted.
fn crowded(w: &mut Writer) {
    machines(w, 8, 5);
    for job in &JOBS[..4] {
        w.set(job, 8);
    }
    for job in &JOBS[4..] {
        let cpu = 1 + w.below(3);
        let least = w.below(3);
        w.say(format!(
            "set {job} image 1 cpu {cpu} memory 0 count 12 least {least} most 14"
        ));
    }
    w.say("rounds 12 100");
    let acts: [Act; 15] = [
        (1, new_amounts),
        (2, much_wanted),
        (4, new_image),
        (1, set),
        (4, rounds),
        (1, settle),
        (4, exchange),
        (12, ways),
        (1, fall),
        (8, look),
        (1, nothing_wanted),
        (1, lines_bad),
        (1, lines_good),
        (1, dark),
        (1, hex),
    ];
    go_on(w, 130, &acts);
}

/// Jobs ended and set anew, machines closed, forgotten and added again.
fn gone(w: &mut Writer) {
    let n = 2 + w.below(6) as usize;
    machines(w, n, 9);
    for job in &JOBS[..3] {
        w.set(job, 4);
    }
    w.say("rounds 3 1000");
    let acts: [Act; 14] = [
        (3, end),
        (2, close),
        (2, reopen),
        (3, forget),
        (3, add),
        (2, set),
        (2, new_amounts),
        (3, rounds),
        (1, settle),
        (3, exchange),
        (6, ways),
        (7, look),
        (1, dark),
        (1, fall),
    ];
    go_on(w, 120, &acts);
}

/// What is turned away, and lines that are none.
fn refusals(w: &mut Writer) {
    w.act(&[
        (1, set),
        (1, add),
        (1, show_job),
        (1, rounds),
        (1, exchange),
    ]);
    let n = 1 + w.below(4) as usize;
    machines(w, n, 9);
    for i in 0..7 {
        w.say(format!(
            "set big{i} image 1 cpu 1000 memory 1 count 1 least 0 most 256"
        ));
    }
    let acts: [Act; 15] = [
        (4, another),
        (6, out_of_range),
        (3, at_the_edge),
        (6, bad_line),
        (3, odd_line),
        (3, odd_time),
        (4, add),
        (3, set),
        (2, rounds),
        (4, ways),
        (4, look),
        (1, end),
        (1, forget),
        (3, hex),
        (2, most_of_all),
    ];
    go_on(w, 110, &acts);
}

fn most_of_all(w: &mut Writer) {
    let i = 6 + w.below(4);
    let most = w.pick(&[255, 256]);
    w.say(format!(
        "set big{i} image 1 cpu 1000 memory 1 count 1 least 0 most {most}"
    ));
}

/// Anything.
fn mixed(w: &mut Writer) {
    let n = 1 + w.below(8) as usize;
    let cpu = w.pick(&[4, 8, 16]);
    machines(w, n, cpu);
    w.set("mix", 4);
    w.set("web", 3);
    let acts: [Act; 24] = [
        (2, rounds),
        (1, long_round),
        (2, time),
        (1, odd_time),
        (3, exchange),
        (8, ways),
        (2, fall),
        (3, new_image),
        (2, new_amounts),
        (1, nothing_wanted),
        (2, set),
        (2, add),
        (1, end),
        (1, close),
        (1, reopen),
        (1, forget),
        (3, dark),
        (1, seed),
        (1, lines_bad),
        (1, lines_good),
        (1, hex),
        (1, bad_line),
        (1, out_of_range),
        (9, look),
    ];
    go_on(w, 150, &acts);
}

/// So many tasks that all rows are used up, and holes are closed.
fn many(w: &mut Writer) {
    let jobs = w.pick(&[8, 16]);
    let most = 2048 / jobs;
    w.time(1);
    for i in 0..jobs {
        w.say(format!(
            "set job{i} image 1 cpu 1 memory 1 count {most} least 0 most {most}"
        ));
    }
    w.say(format!("rounds {most} 1"));
    w.say("stores");
    let cpu = w.pick(&[0, 50, 900]);
    w.say(format!("add 1 cpu {cpu} memory 100000"));
    w.say(format!("add 2 cpu {cpu} memory 100000"));
    let acts: [Act; 6] = [
        (2, few_rounds),
        (3, new_image),
        (2, stores),
        (1, dark),
        (1, check),
        (1, nothing_wanted),
    ];
    let lines = w.long() + 30;
    go_on(w, lines, &acts);
}

fn few_rounds(w: &mut Writer) {
    let n = 1 + w.below(2);
    w.say(format!("rounds {n} 10"));
}
