//! The eight worked cases: each call, its answer, and then all tasks and the cpu counted on each machine.

use crate::calls::{Added, Answer, Call, Order, Report, Run, Seen, Wanted, does};
use crate::rules::{Likeness, Phase, State};

/// Number, version, phase, machine.
type Stands = (u64, u32, Phase, u16);

const W: Phase = Phase::Waiting;
const T: Phase = Phase::Told;
const R: Phase = Phase::Ready;
const E: Phase = Phase::Ending;

fn plain(image: u32, cpu: u32) -> Likeness {
    Likeness {
        image,
        cpu,
        memory: 1,
        tags: Vec::new(),
        apart: false,
    }
}

fn set(name: &str, likeness: Likeness, [count, least, most]: [u16; 3]) -> Call {
    Call::Set(Wanted {
        name: name.into(),
        likeness,
        count,
        least,
        most,
    })
}

fn add(machine: u16) -> Call {
    Call::Add(Added {
        machine,
        cpu: 10,
        memory: 10,
        tags: Vec::new(),
    })
}

fn report(machine: u16, life: u64, number: u64, tasks: &[(u64, bool)]) -> Call {
    let seen = |(task, ready): &(u64, bool)| Seen {
        task: *task,
        ready: *ready,
    };
    Call::Report(Report {
        machine,
        life,
        number,
        tasks: tasks.iter().map(seen).collect(),
    })
}

fn run(machine: u16, life: u64, number: u64, orders: &[(u64, Likeness)]) -> Answer {
    let order = |(task, likeness): &(u64, Likeness)| Order {
        task: *task,
        likeness: likeness.clone(),
    };
    Answer::Run(Run {
        machine,
        life,
        number,
        orders: orders.iter().map(order).collect(),
    })
}

fn turn(s: &mut State, call: Call, answer: Answer, tasks: &[Stands], cpu: &[u64]) {
    assert_eq!(does(&call, s, &mut |_| ()), answer, "{call:?}");
    let stand = s.tasks.iter();
    let stand: Vec<Stands> = stand
        .map(|t| (t.number, t.version, t.phase, t.machine))
        .collect();
    assert_eq!(stand, tasks, "{call:?}");
    let loads = s.machines.iter().map(|m| s.load(m.number).0);
    assert_eq!(loads.collect::<Vec<_>>(), cpu, "{call:?}");
}

fn yes(s: &mut State, call: Call, tasks: &[Stands], cpu: &[u64]) {
    turn(s, call, Answer::Yes, tasks, cpu);
}

fn a() -> State {
    let mut s = State::blank();
    yes(&mut s, Call::Time(1), &[], &[]);
    yes(&mut s, add(1), &[], &[0]);
    yes(&mut s, add(2), &[], &[0, 0]);
    turn(
        &mut s,
        report(1, 1, 1, &[]),
        run(1, 1, 1, &[]),
        &[],
        &[0, 0],
    );
    turn(
        &mut s,
        report(2, 1, 1, &[]),
        run(2, 1, 1, &[]),
        &[],
        &[0, 0],
    );
    let mix = set("mix", plain(1, 4), [2, 1, 3]);
    yes(&mut s, mix, &[(1, 1, T, 1)], &[4, 0]);
    yes(
        &mut s,
        Call::Time(1),
        &[(1, 1, T, 1), (2, 1, T, 2)],
        &[4, 4],
    );
    s
}

fn b() -> State {
    let mut s = a();
    let mix = || [(1, plain(1, 4))];
    let told = [(1, 1, T, 1), (2, 1, T, 2)];
    let ready = [(1, 1, R, 1), (2, 1, T, 2)];
    let call = report(1, 1, 2, &[(1, false)]);
    turn(&mut s, call, run(1, 1, 2, &mix()), &told, &[4, 4]);
    let call = report(1, 1, 3, &[(1, true)]);
    turn(&mut s, call.clone(), run(1, 1, 3, &mix()), &ready, &[4, 4]);
    turn(&mut s, call, Answer::No(5), &ready, &[4, 4]);
    s
}

fn c() -> State {
    let mut s = b();
    let ready = [(1, 1, R, 1), (2, 1, R, 2)];
    let call = report(2, 1, 2, &[(2, true)]);
    let answer = run(2, 1, 2, &[(2, plain(1, 4))]);
    turn(&mut s, call, answer, &ready, &[4, 4]);
    let old = [(1, 1, R, 1), (2, 1, E, 2), (3, 2, T, 1)];
    let mix = set("mix", plain(2, 4), [2, 1, 3]);
    yes(&mut s, mix, &old, &[8, 4]);
    yes(&mut s, Call::Time(1), &old, &[8, 4]);
    let call = report(1, 1, 4, &[(1, true), (3, false)]);
    let answer = run(1, 1, 4, &[(1, plain(1, 4)), (3, plain(2, 4))]);
    turn(&mut s, call, answer, &old, &[8, 4]);
    let call = report(1, 1, 5, &[(1, true), (3, true)]);
    let answer = run(1, 1, 5, &[(3, plain(2, 4))]);
    let new = [(1, 1, E, 1), (2, 1, E, 2), (3, 2, R, 1)];
    turn(&mut s, call, answer, &new, &[8, 4]);
    s
}

#[test]
fn a_b_c() {
    c();
}

#[test]
fn d() {
    let mut s = c();
    let before = [(1, 1, E, 1), (2, 1, E, 2), (3, 2, R, 1), (4, 1, W, 0)];
    yes(&mut s, set("web", plain(5, 7), [1, 0, 1]), &before, &[8, 4]);
    let call = report(2, 1, 3, &[(2, true)]);
    turn(&mut s, call, run(2, 1, 3, &[]), &before, &[8, 4]);
    let answer = run(2, 1, 4, &[(4, plain(5, 7))]);
    let after = [(1, 1, E, 1), (3, 2, R, 1), (4, 1, T, 2), (5, 2, W, 0)];
    turn(&mut s, report(2, 1, 4, &[]), answer, &after, &[8, 7]);
}

#[test]
fn e() {
    let mut s = b();
    let three = [(1, 1, R, 1), (2, 1, T, 2), (3, 1, T, 1)];
    yes(&mut s, set("web", plain(5, 2), [2, 0, 2]), &three, &[6, 4]);
    let four = [(1, 1, R, 1), (2, 1, T, 2), (3, 1, T, 1), (4, 1, T, 2)];
    yes(&mut s, Call::Time(1), &four, &[6, 6]);
    let answer = run(2, 2, 1, &[(5, plain(1, 4)), (6, plain(5, 2))]);
    let anew = [(1, 1, R, 1), (3, 1, T, 1), (5, 1, T, 2), (6, 1, T, 2)];
    turn(&mut s, report(2, 2, 1, &[]), answer, &anew, &[6, 6]);
    let old = report(2, 1, 9, &[(2, true)]);
    turn(&mut s, old, Answer::No(5), &anew, &[6, 6]);
}

#[test]
fn f() {
    let mut s = b();
    let ready = [(1, 1, R, 1), (2, 1, R, 2)];
    let told = [(1, 1, T, 1), (2, 1, T, 2)];
    let call = report(2, 1, 2, &[(2, true)]);
    let answer = run(2, 1, 2, &[(2, plain(1, 4))]);
    turn(&mut s, call, answer, &ready, &[4, 4]);
    yes(&mut s, Call::Time(30_001), &ready, &[4, 4]);
    yes(&mut s, Call::Time(30_002), &told, &[4, 4]);
    let waits = [(1, 1, T, 1), (2, 1, T, 2), (3, 1, W, 0)];
    yes(&mut s, set("web", plain(5, 2), [1, 0, 1]), &waits, &[4, 4]);
    let call = report(1, 1, 4, &[(1, true)]);
    let answer = run(1, 1, 4, &[(1, plain(1, 4)), (3, plain(5, 2))]);
    let placed = [(1, 1, R, 1), (2, 1, T, 2), (3, 1, T, 1)];
    turn(&mut s, call, answer, &placed, &[6, 4]);
}

#[test]
fn g() {
    let mut s = State::blank();
    yes(&mut s, Call::Time(1), &[], &[]);
    let call = set("mix", plain(1, 4), [1, 1, 1]);
    turn(&mut s, call, Answer::No(1), &[], &[]);
    let call = set("mix", plain(1, 4), [1, 1, 2]);
    yes(&mut s, call, &[(1, 1, W, 0)], &[]);
}

#[test]
fn h() {
    let mut s = a();
    let tagged = Likeness {
        tags: vec![7],
        ..plain(6, 1)
    };
    let three = [(1, 1, T, 1), (2, 1, T, 2), (3, 1, W, 0)];
    yes(&mut s, set("gpu", tagged, [1, 0, 1]), &three, &[4, 4]);
    let four = [(1, 1, T, 1), (2, 1, T, 2), (3, 1, W, 0), (4, 1, T, 1)];
    yes(&mut s, set("web", plain(5, 2), [1, 0, 1]), &four, &[6, 4]);
}
