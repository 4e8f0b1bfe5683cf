//! Single things to write.

use crate::generate::{JOBS, MACHINES, Writer};

pub fn show(w: &mut Writer) {
    w.say("show");
}

pub fn check(w: &mut Writer) {
    w.say("check");
}

pub fn stores(w: &mut Writer) {
    w.say("stores");
}

pub fn show_job(w: &mut Writer) {
    let job = w.job();
    w.say(format!("show {job}"));
}

/// Mostly with times that machines can keep up with.
pub fn settle(w: &mut Writer) {
    let ms = w.pick(&[1, 1000, 29_999, 30_000, 30_001]);
    w.say(format!("settle {ms}"));
}

pub fn rounds(w: &mut Writer) {
    let n = 1 + w.below(4);
    let ms = w.pick(&[0, 1, 1000, 9_999, 15_000]);
    w.say(format!("rounds {n} {ms}"));
}

pub fn long_round(w: &mut Writer) {
    let ms = w.pick(&[29_999, 30_000, 30_001, 60_000]);
    w.say(format!("rounds 1 {ms}"));
}

pub fn time(w: &mut Writer) {
    let ms = w.pick(&[0, 1, 500, 10_000, 29_999, 30_001]);
    w.time(ms);
}

/// Times that are turned away, or go back.
pub fn odd_time(w: &mut Writer) {
    let line = w.pick(&[
        "time 0",
        "time 1",
        "time 2",
        "time 4611686018427387905",
        "time 18446744073709551615",
        "rounds 1 18446744073709551615",
        "rounds 2 4611686018427387904",
    ]);
    w.say(line);
}

pub fn report(w: &mut Writer) {
    let machine = w.machine();
    w.say(format!("report {machine}"));
    if w.one_in(3) {
        w.say("deliver");
    }
}

pub fn deliver(w: &mut Writer) {
    w.say("deliver");
}

pub fn letters(w: &mut Writer) {
    w.say("letters");
}

pub fn hand(w: &mut Writer) {
    let k = w.letter();
    w.say(format!("hand {k}"));
}

pub fn lose(w: &mut Writer) {
    let k = w.letter();
    w.say(format!("lose {k}"));
}

pub fn double(w: &mut Writer) {
    let k = w.letter();
    w.say(format!("double {k}"));
}

pub fn ready(w: &mut Writer) {
    let task = w.task();
    w.say(format!("ready {task}"));
}

pub fn dies(w: &mut Writer) {
    let task = w.task();
    w.say(format!("dies {task}"));
}

pub fn fall(w: &mut Writer) {
    let machine = w.machine();
    w.say(format!("fall {machine}"));
}

/// A report of one machine, brought to it and its answer back.
pub fn exchange(w: &mut Writer) {
    let machine = w.machine();
    w.say(format!("report {machine}"));
    w.say("deliver");
}

pub fn new_image(w: &mut Writer) {
    let image = 1 + w.below(6) as u32;
    w.reset(Some(image), None);
}

pub fn new_amounts(w: &mut Writer) {
    let most = 1 + w.below(6) as u16;
    let count = w.below(u64::from(most) + 1) as u16;
    let least = w.below(u64::from(count) + 1) as u16;
    w.reset(None, Some((count, least, most)));
}

pub fn much_wanted(w: &mut Writer) {
    let count = 6 + w.below(8) as u16;
    let least = w.below(4) as u16;
    w.reset(None, Some((count, least, count + 2)));
}

pub fn nothing_wanted(w: &mut Writer) {
    w.reset(None, Some((0, 0, 0)));
}

pub fn set(w: &mut Writer) {
    let job = w.pick(&JOBS);
    w.set(job, 4);
}

pub fn add(w: &mut Writer) {
    let machine = w.pick(&MACHINES);
    let cpu = w.pick(&[0, 4, 9, 12, 20]);
    w.add(machine, cpu, 10);
}

pub fn end(w: &mut Writer) {
    let job = w.job();
    w.say(format!("end {job}"));
    if w.one_in(2) {
        w.set(&job, 3);
    }
}

pub fn close(w: &mut Writer) {
    let machine = w.machine();
    w.say(format!("close {machine}"));
}

pub fn reopen(w: &mut Writer) {
    let machine = w.machine();
    w.say(format!("reopen {machine}"));
}

pub fn forget(w: &mut Writer) {
    let machine = w.machine();
    w.say(format!("forget {machine}"));
    if w.one_in(2) {
        w.add(machine, 12, 10);
    }
}

pub fn dark(w: &mut Writer) {
    let stores = w.below(8) * w.below(8);
    w.say(format!("dark {stores}"));
}

pub fn seed(w: &mut Writer) {
    let seed = w.below(u64::MAX);
    w.say(format!("seed {seed}"));
}

pub fn lines_good(w: &mut Writer) {
    w.say("lines good");
}

pub fn lines_bad(w: &mut Writer) {
    w.say("lines bad");
}

/// Bytes to look at, for a while.
pub fn hex(w: &mut Writer) {
    w.say("hex on");
    w.act(&[(2, exchange), (1, set), (1, show_job), (1, time), (1, end)]);
    w.act(&[(3, exchange), (1, add), (1, close), (1, new_image)]);
    w.say("hex off");
}

const TAGGED: &str = "set x image 1 cpu 1 memory 1 count 1 least 0 most 1 tags 1,2,3,4,5,6,7,8";

/// What is turned away for what it says, and what is no line for it.
pub fn out_of_range(w: &mut Writer) {
    let line: String = match w.below(16) {
        0 => "set one image 1 cpu 1 memory 1 count 1 least 1 most 1".into(),
        1 => "set x image 1 cpu 1 memory 1 count 2 least 3 most 4".into(),
        2 => "set x image 1 cpu 1 memory 1 count 3 least 0 most 2".into(),
        3 => "set x image 1 cpu 1 memory 1 count 3 least 0 most 257".into(),
        4 => "set x image 1 cpu 1000001 memory 1 count 1 least 0 most 1".into(),
        5 => "set x image 1 cpu 1 memory 1000001 count 1 least 0 most 1".into(),
        6 => format!("{TAGGED},9"),
        7 => format!("set {} {}", "n".repeat(65), &TAGGED[6..]),
        8 => "add 9 cpu 1000000001 memory 1".into(),
        9 => "add 9 cpu 1 memory 1000000001".into(),
        10 => "add 9 cpu 1 memory 1 tags 1,2,3,4,5,6,7,8,9,10,11,12,13,14,15,16,17".into(),
        11 => format!("show {}", "n".repeat(255)),
        12 => format!("end {}", "n".repeat(256)),
        13 => format!("add 9 cpu 1 memory 1 tags 1{}", ",1".repeat(254)),
        14 => format!("add 9 cpu 1 memory 1 tags 1{}", ",1".repeat(255)),
        _ => format!("{TAGGED}{} apart", ",9".repeat(247)),
    };
    w.say(line);
}

/// What is just within what may be said.
pub fn at_the_edge(w: &mut Writer) {
    let line: String = match w.below(5) {
        0 => TAGGED.into(),
        1 => format!("set {} {}", "n".repeat(64), &TAGGED[6..]),
        2 => "set x image 4294967295 cpu 1000000 memory 1000000 count 1 least 0 most 1".into(),
        3 => "set none image 1 cpu 1 memory 1 count 0 least 0 most 0 apart".into(),
        _ => "add 4 cpu 1000000000 memory 1000000000 tags 1,2,3,4,5,6,7,8,9,10,11,12,13,14,15,4294967295"
            .into(),
    };
    w.say(line);
}

const BAD: [&str; 33] = [
    "hand 0",
    "lose 77",
    "double 18446744073709551615",
    "nonsense",
    "Show",
    "set",
    "set a image 1",
    "set a image 1 cpu 1 memory 1 count 1 least 0 most 1 apart tags 1",
    "set a image 1 cpu 1 memory 1 count 65536 least 0 most 1",
    "set a image 1 cpu 4294967296 memory 1 count 1 least 0 most 1",
    "set a image 1 cpu 1 memory 1 count 1 least 0 most 1 tags 1,,2",
    "set a image 1 cpu 1 memory 1 count 1 least 0 most 1 tags",
    "set a image one cpu 1 memory 1 count 1 least 0 most 1 # a number in letters",
    "end",
    "add 65536 cpu 1 memory 1",
    "add 1 cpu 1 memory 1 tags 4294967296",
    "add 1 memory 1 cpu 1",
    "close",
    "reopen -1",
    "forget 1 2",
    "time",
    "time +1",
    "time 18446744073709551616",
    "show a b",
    "report",
    "ready x",
    "lines",
    "lines\tworse",
    "seed 0x1",
    "rounds 1",
    "rounds 65536 1",
    "hex",
    "deliver 1",
];

pub fn bad_line(w: &mut Writer) {
    let line = w.pick(&BAD);
    w.say(line);
}

const ODD: [&str; 8] = [
    "# a comment, and no more",
    "",
    " \t show\t # with a tab",
    "check\r",
    "letters#no space",
    "show # \u{fc}",
    "time\u{b}1",
    "rounds 0 007",
];

/// A machine more; the ninth is none.
pub fn another(w: &mut Writer) {
    let machine = 100 + w.below(5);
    let line = match w.below(3) {
        0 => format!("add {machine} cpu 3 memory 3"),
        1 => format!("report {machine}"),
        _ => format!("fall {machine}"),
    };
    w.say(line);
}

pub fn odd_line(w: &mut Writer) {
    let line = w.pick(&ODD);
    w.say(line);
}
