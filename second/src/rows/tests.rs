use super::*;
use crate::calls::{Added, Call, Report, Seen, Wanted, does};
use crate::lines::Chance;

fn wanted(chance: &mut Chance, name: u64) -> Call {
    let count = chance.below(200) as u16;
    Call::Set(Wanted {
        name: format!("a job of number {name}").into_bytes(),
        likeness: Likeness {
            image: chance.below(3) as u32,
            cpu: 1,
            memory: 1,
            tags: (0..chance.below(3) as u32).collect(),
            apart: false,
        },
        count,
        least: 0,
        most: count + 1,
    })
}

fn added(machine: u16) -> Call {
    Call::Add(Added {
        machine,
        cpu: 500,
        memory: 500,
        tags: (0..16).collect(),
    })
}

fn report(chance: &mut Chance, s: &State, machine: u16) -> Call {
    let here = s.machines.iter().find(|m| m.number == machine);
    let (life, number) = here.map_or((1, 1), |m| (m.life.max(1), m.report + 1));
    let fallen = chance.below(4) == 0;
    let listed = s.tasks_on(machine).filter(|_| !fallen).map(|task| Seen {
        task: task.number,
        ready: true,
    });
    Call::Report(Report {
        machine,
        life: life + u64::from(fallen),
        number,
        tasks: listed.filter(|_| chance.below(2) == 0).collect(),
    })
}

fn any_call(chance: &mut Chance, s: &State) -> Call {
    let machine = chance.below(5) as u16;
    let name = chance.below(12);
    match chance.below(18) {
        0 | 1 => wanted(chance, name),
        2 | 17 => Call::End(format!("a job of number {name}").into_bytes()),
        3 | 4 => added(machine),
        5 => Call::Close(machine),
        6 => Call::Reopen(machine),
        7 | 16 => Call::Forget(machine),
        8..12 => report(chance, s, machine),
        _ => Call::Time(s.now + 1 + chance.below(9000)),
    }
}

/// Long enough that the rows of jobs, machines and tasks are all used up, and holes are closed.
#[test]
fn home_words_stand_for_what_there_is() {
    let mut chance = Chance(1);
    let mut s = State::blank();
    let mut home = vec![0; HOME_WORDS];
    let mut closed = [0; 3];
    for _ in 0..12_000 {
        let call = any_call(&mut chance, &s);
        let used = [home[1], home[2], home[3]];
        does(&call, &mut s, &mut |s| follow(&mut home, s));
        follow(&mut home, &s);
        assert_eq!(read(&home), s.clone().down(), "{call:?}");
        for (i, used) in used.into_iter().enumerate() {
            closed[i] += u32::from(home[i + 1] < used);
        }
    }
    assert!(closed.iter().all(|times| *times > 1), "{closed:?}");
}
