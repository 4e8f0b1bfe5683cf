use super::*;

fn likeness() -> Likeness {
    Likeness {
        image: u32::MAX,
        cpu: 70_000,
        memory: 2,
        tags: vec![7, 1 << 31],
        apart: true,
    }
}

fn calls() -> Vec<Call> {
    let seen = [(1 << 61, true), (2, false)];
    let tasks = seen.map(|(task, ready)| Seen { task, ready }).to_vec();
    vec![
        Call::Set(Wanted {
            name: b"mix".to_vec(),
            likeness: likeness(),
            count: 2,
            least: 1,
            most: 300,
        }),
        Call::End(vec![]),
        Call::Add(Added {
            machine: 65_535,
            cpu: 10,
            memory: 11,
            tags: (0..255).collect(),
        }),
        Call::Close(1),
        Call::Reopen(256),
        Call::Forget(3),
        Call::Report(Report {
            machine: 258,
            life: 1,
            number: 1 << 40,
            tasks,
        }),
        Call::Time(u64::MAX),
        Call::Show(vec![b'x'; 255]),
    ]
}

fn answers() -> Vec<Answer> {
    let task = 5;
    let likeness = likeness();
    let phases = [Phase::Waiting, Phase::Told, Phase::Ready, Phase::Ending];
    let line = |phase| Line {
        task,
        version: 9,
        phase,
        machine: 3,
    };
    vec![
        Answer::No(12),
        Answer::Yes,
        Answer::Run(Run {
            machine: 4,
            life: 2,
            number: 77,
            orders: vec![Order { task, likeness }],
        }),
        Answer::Lines(phases.map(line).to_vec()),
    ]
}

#[test]
fn what_is_written_is_read_back() {
    for (i, call) in calls().into_iter().enumerate() {
        let bytes = call_bytes(&call);
        assert_eq!(bytes[0], i as u8 + 1);
        assert_eq!(read_call(&bytes), Some(call));
    }
    for (i, answer) in answers().into_iter().enumerate() {
        let bytes = answer_bytes(&answer);
        assert_eq!(bytes[0], i as u8);
        assert_eq!(read_answer(&bytes), Some(answer));
    }
}

#[test]
fn bytes_missing_or_left_over_are_none() {
    for call in calls() {
        let mut bytes = call_bytes(&call);
        assert!((0..bytes.len()).all(|n| read_call(&bytes[..n]).is_none()));
        bytes.push(0);
        assert_eq!(read_call(&bytes), None);
    }
    for answer in answers() {
        let mut bytes = answer_bytes(&answer);
        assert!((0..bytes.len()).all(|n| read_answer(&bytes[..n]).is_none()));
        bytes.push(0);
        assert_eq!(read_answer(&bytes), None);
    }
}

#[test]
fn frames() {
    let line = framed(258, &[8, 9]);
    assert_eq!(line, [0, 0, 0, 6, 0, 0, 1, 2, 8, 9]);
    assert_eq!(unframed(&line), (258, &[8, 9][..]));
    assert_eq!(unframed(&line[..9]), (258, &[][..]));
    assert_eq!(unframed(&line[..7]), (0, &[][..]));
}
