//! Is what runs what may run. Each check finds the first that fails.

use crate::agent::Agent;
use crate::rules::State;
use crate::show::text;

/// Does more run on a machine than it has.
pub fn within(s: &State, agents: &[Agent]) -> Option<String> {
    agents.iter().find_map(|agent| {
        let (mut cpu, mut memory) = (0, 0);
        for seen in &agent.runs {
            if let Some(order) = agent.order(seen.task) {
                cpu += u64::from(order.likeness.cpu);
                memory += u64::from(order.likeness.memory);
            }
        }
        let machine = s.machines.iter().find(|m| m.number == agent.machine);
        let (of_cpu, of_memory) = machine.map_or((0, 0), |m| (m.cpu, m.memory));
        let over = cpu > u64::from(of_cpu) || memory > u64::from(of_memory);
        over.then(|| {
            format!(
                "machine {} runs cpu {cpu} of {of_cpu}, memory {memory} of {of_memory}",
                agent.machine
            )
        })
    })
}

/// Does a task run at two places.
pub fn twice(agents: &[Agent]) -> Option<String> {
    for (i, agent) in agents.iter().enumerate() {
        for seen in &agent.runs {
            let mut others = agents[i + 1..].iter();
            if let Some(other) = others.find(|other| other.run(seen.task).is_some()) {
                return Some(format!(
                    "task {} on {} and {}",
                    seen.task, agent.machine, other.machine
                ));
            }
        }
    }
    None
}

/// Are there more tasks of a job than its most ever allowed.
pub fn most(s: &State, mosts: &[(Vec<u8>, u16)]) -> Option<String> {
    mosts.iter().find_map(|(name, most)| {
        let tasks = s.tasks.iter().filter(|task| task.job == *name).count();
        (tasks > usize::from(*most)).then(|| {
            format!(
                "{} has {tasks} tasks, and its most was never above {most}",
                text(name)
            )
        })
    })
}

#[cfg(test)]
mod tests {
    use super::*;
    use crate::calls::{Order, Run};
    use crate::rules::Likeness;

    fn running(machine: u16, tasks: &[u64]) -> Agent {
        let mut agent = Agent::new(machine);
        let order = |task: &u64| Order {
            task: *task,
            likeness: Likeness {
                image: 1,
                cpu: 3,
                memory: 0,
                tags: Vec::new(),
                apart: false,
            },
        };
        let orders = tasks.iter().map(order).collect();
        let run = Run {
            machine,
            life: 1,
            number: 0,
            orders,
        };
        agent.obey(run).expect("it answers the last report");
        agent
    }

    #[test]
    fn what_is_wrong_is_found() {
        let s = State::blank();
        let agents = [running(4, &[]), running(7, &[1, 2]), running(3, &[3, 2])];
        let over = "machine 7 runs cpu 6 of 0, memory 0 of 0";
        assert_eq!(within(&s, &agents), Some(over.into()));
        assert_eq!(twice(&agents), Some("task 2 on 7 and 3".into()));
        assert_eq!(twice(&agents[..2]), None);
        assert_eq!(most(&s, &[(b"x".to_vec(), 0)]), None);
    }
}
