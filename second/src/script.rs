//! A line of a script, read.

use crate::calls::{Added, Call, Wanted};
use crate::rules::Likeness;

#[derive(Clone, Debug, PartialEq, Eq)]
pub enum Command {
    Say(Call),
    Report(u16),
    Ready(u64),
    Dies(u64),
    Fall(u16),
    Bad(bool),
    Seed(u64),
    Deliver,
    Letters,
    Hand(u64),
    Lose(u64),
    Double(u64),
    Dark(u64),
    Stores,
    Rounds(u16, u64),
    Settle(u64),
    Hex(bool),
    Show,
    Check,
}

/// First words, and what a command looks like.
const USAGES: [(&str, &str); 25] = [
    (
        "set",
        "set NAME image I cpu C memory M count N least L most X [tags T,T,..] [apart]",
    ),
    ("end", "end NAME"),
    ("add", "add M cpu C memory M [tags T,T,..]"),
    ("close", "close M"),
    ("reopen", "reopen M"),
    ("forget", "forget M"),
    ("time", "time T"),
    ("show", "show, or show NAME"),
    ("report", "report M"),
    ("ready", "ready T"),
    ("dies", "dies T"),
    ("fall", "fall M"),
    ("lines", "lines good, or lines bad"),
    ("seed", "seed S"),
    ("deliver", "deliver"),
    ("letters", "letters"),
    ("hand", "hand K"),
    ("lose", "lose K"),
    ("double", "double K"),
    ("dark", "dark N"),
    ("stores", "stores"),
    ("rounds", "rounds N MS"),
    ("settle", "settle MS"),
    ("hex", "hex on, or hex off"),
    ("check", "check"),
];

/// The command of a line, if there is one; or why there is none.
pub fn parse(line: &[u8]) -> Result<Option<Command>, String> {
    if !line.iter().all(|byte| is_plain(*byte) || is_blank(*byte)) {
        return Err("not printable ASCII".into());
    }
    let text = String::from_utf8_lossy(line);
    let said = text.split('#').next().unwrap_or("");
    let words: Vec<&str> = said.split_ascii_whitespace().collect();
    let Some(first) = words.first() else {
        return Ok(None);
    };
    let Some((_, usage)) = USAGES.iter().find(|(word, _)| word == first) else {
        return Err("no such command".into());
    };
    match command(&words) {
        None => Err(format!("say {usage}")),
        command => Ok(command),
    }
}

pub fn is_plain(byte: u8) -> bool {
    (0x20..0x7f).contains(&byte)
}

fn is_blank(byte: u8) -> bool {
    matches!(byte, b'\t' | b'\r')
}

fn command(words: &[&str]) -> Option<Command> {
    call(words).map(Command::Say).or_else(|| other(words))
}

fn call(words: &[&str]) -> Option<Call> {
    Some(match *words {
        ["set", ..] => Call::Set(wanted(words)?),
        ["add", ..] => Call::Add(added(words)?),
        ["end", job] => Call::End(name(job)?),
        ["close", machine] => Call::Close(number(machine)?),
        ["reopen", machine] => Call::Reopen(number(machine)?),
        ["forget", machine] => Call::Forget(number(machine)?),
        ["time", time] => Call::Time(number(time)?),
        ["show", job] => Call::Show(name(job)?),
        _ => return None,
    })
}

fn other(words: &[&str]) -> Option<Command> {
    Some(match *words {
        ["report", machine] => Command::Report(number(machine)?),
        ["ready", task] => Command::Ready(number(task)?),
        ["dies", task] => Command::Dies(number(task)?),
        ["fall", machine] => Command::Fall(number(machine)?),
        ["lines", "good"] => Command::Bad(false),
        ["lines", "bad"] => Command::Bad(true),
        ["seed", seed] => Command::Seed(number(seed)?),
        ["deliver"] => Command::Deliver,
        ["letters"] => Command::Letters,
        ["hand", k] => Command::Hand(number(k)?),
        ["lose", k] => Command::Lose(number(k)?),
        ["double", k] => Command::Double(number(k)?),
        ["dark", stores] => Command::Dark(number(stores)?),
        ["stores"] => Command::Stores,
        ["rounds", n, ms] => Command::Rounds(number(n)?, number(ms)?),
        ["settle", ms] => Command::Settle(number(ms)?),
        ["hex", "on"] => Command::Hex(true),
        ["hex", "off"] => Command::Hex(false),
        ["show"] => Command::Show,
        ["check"] => Command::Check,
        _ => return None,
    })
}

/// What stands in front of the numbers of `set`.
const KEYS: [&str; 6] = ["image", "cpu", "memory", "count", "least", "most"];

fn wanted(words: &[&str]) -> Option<Wanted> {
    let (front, rest) = words.split_at_checked(14)?;
    let mut keys = front[2..].iter().step_by(2);
    if !KEYS.iter().all(|key| keys.next() == Some(key)) {
        return None;
    }
    let value = |i: usize| front[3 + 2 * i];
    let (tagged, apart) = match rest {
        [front @ .., "apart"] => (front, true),
        front => (front, false),
    };
    let likeness = Likeness {
        image: number(value(0))?,
        cpu: number(value(1))?,
        memory: number(value(2))?,
        tags: tags(tagged)?,
        apart,
    };
    Some(Wanted {
        name: name(front[1])?,
        likeness,
        count: number(value(3))?,
        least: number(value(4))?,
        most: number(value(5))?,
    })
}

fn added(words: &[&str]) -> Option<Added> {
    let [_, machine, "cpu", cpu, "memory", memory, ref rest @ ..] = *words else {
        return None;
    };
    Some(Added {
        machine: number(machine)?,
        cpu: number(cpu)?,
        memory: number(memory)?,
        tags: tags(rest)?,
    })
}

fn tags(words: &[&str]) -> Option<Vec<u32>> {
    match words {
        [] => Some(Vec::new()),
        ["tags", list] => {
            let tags: Option<Vec<u32>> = list.split(',').map(number).collect();
            tags.filter(|tags| tags.len() <= 255)
        }
        _ => None,
    }
}

fn name(word: &str) -> Option<Vec<u8>> {
    (word.len() <= 255).then(|| word.as_bytes().to_vec())
}

/// Digits alone, and a number that the type has room for.
fn number<T: TryFrom<u64>>(word: &str) -> Option<T> {
    if !word.bytes().all(|byte| byte.is_ascii_digit()) {
        return None;
    }
    T::try_from(word.parse::<u64>().ok()?).ok()
}

#[cfg(test)]
mod tests {
    use super::*;

    fn why(line: &str) -> String {
        parse(line.as_bytes()).expect_err("a bad line")
    }

    #[test]
    fn lines_are_read() {
        assert_eq!(parse(b" \t\r # nothing"), Ok(None));
        assert_eq!(parse(b"show"), Ok(Some(Command::Show)));
        assert_eq!(parse(b"\thand 007\r#7"), Ok(Some(Command::Hand(7))));
        let show = Command::Say(Call::Show(b"mix!".to_vec()));
        assert_eq!(parse(b"show mix! # yes"), Ok(Some(show)));
        let last = b"time 18446744073709551615";
        assert_eq!(parse(last), Ok(Some(Command::Say(Call::Time(u64::MAX)))));
    }

    #[test]
    fn a_set_is_read() {
        let line = "set a image 1 cpu 2 memory 3 count 4 least 5 most 6";
        for (behind, tags, apart) in [
            ("", vec![], false),
            (" apart", vec![], true),
            (" tags 7", vec![7], false),
            (" tags 7,8 apart", vec![7, 8], true),
        ] {
            let read = parse(format!("{line}{behind}").as_bytes());
            let Ok(Some(Command::Say(Call::Set(wanted)))) = read else {
                panic!("{line}{behind}: {read:?}");
            };
            assert_eq!((wanted.likeness.tags, wanted.likeness.apart), (tags, apart));
            assert_eq!((wanted.count, wanted.least, wanted.most), (4, 5, 6));
        }
    }

    #[test]
    fn bad_lines() {
        assert_eq!(why("time 1 # \u{e4}"), "not printable ASCII");
        assert_eq!(why("times 1"), "no such command");
        assert_eq!(why("time"), "say time T");
        assert_eq!(why("time +1"), "say time T");
        assert_eq!(why("time 18446744073709551616"), "say time T");
        assert_eq!(why("show a b"), "say show, or show NAME");
        assert_eq!(why("report 65536"), "say report M");
        let many = vec!["1"; 256].join(",");
        let usage = "say add M cpu C memory M [tags T,T,..]";
        assert_eq!(why(&format!("add 1 cpu 1 memory 1 tags {many}")), usage);
        assert_eq!(why("add 1 cpu 1 memory 1 tags 1,,2"), usage);
        assert_eq!(why(&format!("end {}", "n".repeat(256))), "say end NAME");
    }
}
