//! Scripts by seed. The writer plays what it writes, so that it knows which tasks run and which letters there are.

use crate::kinds;
use crate::lines::Chance;
use crate::play::Play;

pub struct Writer {
    pub play: Play,
    pub chance: Chance,
    lines: Vec<String>,
}

/// Something to write, and how often.
pub type Act = (u64, fn(&mut Writer));

pub const MACHINES: [u16; 8] = [1, 2, 3, 4, 258, 7, 65_535, 0];
pub const JOBS: [&str; 6] = ["mix", "web", "sender", "clock", "cellar-pump", "x"];

pub fn generate(seed: u64) -> String {
    let mut writer = Writer {
        play: Play::new(),
        chance: Chance(seed),
        lines: Vec::new(),
    };
    kinds::write(&mut writer, seed);
    let mut text = writer.lines.join("\n");
    text.push('\n');
    text
}

impl Writer {
    pub fn say(&mut self, line: impl Into<String>) {
        let line = line.into();
        self.play.line(line.as_bytes());
        self.play.out.clear();
        self.lines.push(line);
    }

    pub fn long(&self) -> usize {
        self.lines.len()
    }

    pub fn below(&mut self, n: u64) -> u64 {
        self.chance.below(n)
    }

    pub fn one_in(&mut self, n: u64) -> bool {
        self.below(n) == 0
    }

    pub fn pick<T: Copy>(&mut self, from: &[T]) -> T {
        from[self.below(from.len() as u64) as usize]
    }

    pub fn act(&mut self, acts: &[Act]) {
        let mut drawn = self.below(acts.iter().map(|(weight, _)| weight).sum());
        for (weight, act) in acts {
            if drawn < *weight {
                return act(self);
            }
            drawn -= weight;
        }
    }

    pub fn is_dark(&self) -> bool {
        self.play.herd.state.now == 0
    }

    /// A machine that is played, mostly.
    pub fn machine(&mut self) -> u16 {
        let played: Vec<u16> = self.play.agents.iter().map(|a| a.machine).collect();
        if played.is_empty() || self.one_in(15) {
            return self.pick(&MACHINES);
        }
        self.pick(&played)
    }

    /// A job that is there, mostly.
    pub fn job(&mut self) -> String {
        let jobs = self.play.herd.state.jobs.iter();
        let names: Vec<String> = jobs
            .map(|job| String::from_utf8_lossy(&job.name).into_owned())
            .collect();
        if names.is_empty() || self.one_in(10) {
            return self.pick(&JOBS).into();
        }
        let i = self.below(names.len() as u64) as usize;
        names[i].clone()
    }

    /// A task that runs, mostly.
    pub fn task(&mut self) -> u64 {
        let agents = self.play.agents.iter();
        let tasks: Vec<u64> = agents.flat_map(|a| &a.runs).map(|s| s.task).collect();
        if tasks.is_empty() || self.one_in(15) {
            return self.below(30);
        }
        self.pick(&tasks)
    }

    /// A letter that is there; one is sent if there is none.
    pub fn letter(&mut self) -> u64 {
        if self.play.lines.letters.is_empty() {
            let machine = self.machine();
            self.say(format!("report {machine}"));
        }
        let letters = self.play.lines.letters.len() as u64;
        1 + self.below(letters.max(1))
    }

    pub fn tags(&mut self) -> &'static str {
        self.pick(&[
            "",
            "",
            "",
            " tags 1",
            " tags 2,1",
            " tags 1,2,3,4,5,6,7,4294967295",
        ])
    }

    pub fn add(&mut self, machine: u16, cpu: u64, memory: u64) {
        let tags = self.tags();
        self.say(format!("add {machine} cpu {cpu} memory {memory}{tags}"));
    }

    /// Count, least and most that are in order, mostly.
    fn amounts(&mut self, up_to: u64) -> (u64, u64, u64) {
        let count = self.below(up_to + 1);
        let most = count + self.below(3);
        let least = if most == count && count > 0 {
            self.below(count)
        } else {
            self.below(count + 1)
        };
        if self.one_in(25) {
            return (most, count, least);
        }
        (count, least, most)
    }

    pub fn set(&mut self, name: &str, up_to: u64) {
        let (count, least, most) = self.amounts(up_to);
        let image = 1 + self.below(3);
        let cpu = 1 + self.below(4);
        let memory = self.below(3);
        let tags = if self.one_in(5) { self.tags() } else { "" };
        let apart = if self.one_in(4) { " apart" } else { "" };
        self.say(format!(
            "set {name} image {image} cpu {cpu} memory {memory} count {count} least {least} most {most}{tags}{apart}"
        ));
    }

    /// A job as it stands, with another image or other amounts.
    pub fn reset(&mut self, image: Option<u32>, amounts: Option<(u16, u16, u16)>) {
        let jobs = self.play.herd.state.jobs.clone();
        if jobs.is_empty() {
            return;
        }
        let job = &jobs[self.below(jobs.len() as u64) as usize];
        let (count, least, most) = amounts.unwrap_or((job.count, job.least, job.most));
        let likeness = &job.likeness;
        let tags: Vec<String> = likeness.tags.iter().map(|tag| tag.to_string()).collect();
        let mut line = format!(
            "set {} image {} cpu {} memory {} count {count} least {least} most {most}",
            String::from_utf8_lossy(&job.name),
            image.unwrap_or(likeness.image),
            likeness.cpu,
            likeness.memory,
        );
        if !tags.is_empty() {
            line += &format!(" tags {}", tags.join(","));
        }
        if likeness.apart {
            line += " apart";
        }
        self.say(line);
    }

    /// How many words these lines would store now.
    pub fn stores_of(&self, lines: &[String]) -> u64 {
        let mut trial = self.play.clone();
        trial.herd.kept.take_stores();
        for line in lines {
            trial.line(line.as_bytes());
        }
        trial.herd.kept.take_stores()
    }

    /// The time goes on, or is told for the first time since the herd came up.
    pub fn time(&mut self, ms: u64) {
        let time = self.play.time.max(1).saturating_add(ms);
        self.say(format!("time {time}"));
    }

    /// After the dark: the time is told, and all machines report.
    pub fn recover(&mut self) {
        self.time(1);
        self.say("rounds 1 1");
    }
}
