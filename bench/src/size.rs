//! How large a herd is measured, and how many rows it may look at by docs/ARCHITECTURE.md.

use second::calls::{Added, Wanted};
use second::rules::Likeness;

#[derive(Clone, Copy)]
pub struct Size {
    pub machines: u16,
    pub jobs: u16,
    /// Tasks of each job; where they are mixed, every third job has one more.
    pub count: u16,
    pub mixed: bool,
    pub most_above: u16,
}

pub const HOUSE: Size = Size {
    machines: 30,
    jobs: 60,
    count: 3,
    mixed: true,
    most_above: 1,
};

pub const LIMITS: Size = Size {
    machines: 256,
    jobs: 256,
    count: 8,
    mixed: false,
    most_above: 0,
};

impl Size {
    pub fn wanted(&self, job: u16, image: u32, cpu: u32) -> Wanted {
        let count = self.count_of(job);
        Wanted {
            name: format!("job {job}").into_bytes(),
            likeness: Likeness {
                image,
                cpu,
                memory: 1,
                tags: Vec::new(),
                apart: false,
            },
            count,
            least: count - 1,
            most: count + self.most_above,
        }
    }

    fn count_of(&self, job: u16) -> u16 {
        self.count + u16::from(self.mixed && job.is_multiple_of(3))
    }

    pub fn tasks(&self) -> u64 {
        (0..self.jobs)
            .map(|job| u64::from(self.count_of(job)))
            .sum()
    }

    /// Rows looked at in a pass in which no task is told anew, none ends and no holes are closed: for orphans, for steps, for places, where
    /// so many tasks wait and all others are on machines.
    pub fn rows(&self, waiting: u64) -> [u64; 3] {
        let (jobs, machines) = (u64::from(self.jobs), u64::from(self.machines));
        let tasks = self.tasks();
        let weighed = tasks + (tasks - waiting) * machines + machines;
        let orphans = tasks * (1 + jobs);
        [orphans, jobs * (1 + tasks), tasks + waiting * weighed]
    }
}

pub fn machine(number: u16) -> Added {
    Added {
        machine: number,
        cpu: 10_000,
        memory: 1_000_000,
        tags: Vec::new(),
    }
}
