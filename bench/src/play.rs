//! The scenes: nothing set, a house, the limits, and tasks that find no room.

use std::fs;
use std::io;
use std::path::Path;

use crate::both::{Both, Part};
use crate::scene::{HUGE, SMALL, Scene};
use crate::size::{HOUSE, LIMITS, Size};
use crate::table;
use second::calls::Call;

pub fn play(herd: &Path, folder: &Path) -> io::Result<()> {
    let unit = blank(start(herd, folder, "blank")?)?;
    for (name, size, rounds) in [("house", HOUSE, 40), ("limits", LIMITS, 1)] {
        let both = start(herd, folder, name)?;
        let parts = whole(Scene::new(both, size), rounds)?;
        table::print(name, size, 0, &parts, &unit);
    }
    let scene = Scene::new(start(herd, folder, "no-room")?, LIMITS);
    let parts = no_room(scene)?;
    table::print("limits, 1,000 tasks wait", LIMITS, 1000, &parts, &unit);
    Ok(())
}

pub fn start(herd: &Path, folder: &Path, name: &str) -> io::Result<Both> {
    let folder = folder.join(name);
    fs::create_dir(&folder)?;
    Both::start(herd, &folder)
}

fn show(scene: &mut Scene, calls: u64, name: &str) -> io::Result<()> {
    let call = Call::Show(name.as_bytes().to_vec());
    (0..calls).try_for_each(|_| scene.both.call(&call).map(drop))
}

/// A herd in which nothing is set: the first part is what all times are told in.
fn blank(both: Both) -> io::Result<Part> {
    let mut scene = Scene::new(both, HOUSE);
    scene.tell(0)?;
    scene.both.begin("show an empty name")?;
    show(&mut scene, 20_000, "")?;
    scene.both.begin("time")?;
    (0..2000).try_for_each(|_| scene.tell(1))?;
    scene.both.begin("")?;
    let parts = scene.both.parts.split_off(1);
    scene.both.end()?;
    table::print("nothing set", HOUSE.none(), 0, &parts, &parts[0]);
    Ok(parts[0].clone())
}

fn whole(mut scene: Scene, rounds: u64) -> io::Result<Vec<Part>> {
    scene.set_up()?;
    scene.both.begin("show an empty name")?;
    show(&mut scene, 2000, "")?;
    scene.both.begin("show a job")?;
    show(&mut scene, 2000, "job 7")?;
    scene.both.begin("time")?;
    (0..200).try_for_each(|_| scene.tell(1))?;
    scene.both.begin("steady report")?;
    for _ in 0..rounds {
        scene.round(0)?;
    }
    roll_out(&mut scene)?;
    lose_one(&mut scene)?;
    end(scene)
}

fn roll_out(scene: &mut Scene) -> io::Result<()> {
    scene.both.begin("rollout: set a job anew")?;
    scene.set_all(2)?;
    scene.both.begin("rollout: reports until all is done")?;
    let rounds = scene.until_done(2)?;
    println!("\nThe rollout takes {rounds} rounds.");
    Ok(())
}

/// The first machine is silent for more than 30,000 ms, then it comes back with a new life.
fn lose_one(scene: &mut Scene) -> io::Result<()> {
    for _ in 0..4 {
        scene.both.begin("lost machine: time")?;
        scene.tell(8000)?;
        scene.both.begin("lost machine: reports of the others")?;
        scene.round(1)?;
    }
    scene.agents[0].fall();
    scene.both.begin("lost machine: it comes back")?;
    scene.report(0)?;
    scene
        .both
        .begin("lost machine: reports until all is ready")?;
    scene.until_done(2).map(drop)
}

fn end(mut scene: Scene) -> io::Result<Vec<Part>> {
    scene.both.begin("")?;
    let parts = std::mem::take(&mut scene.both.parts);
    scene.both.end()?;
    Ok(parts)
}

/// 125 jobs of 8 tasks that no machine has room for, and 131 whose tasks stand on 8 machines; the others never came up.
fn no_room(mut scene: Scene) -> io::Result<Vec<Part>> {
    scene.both.begin("set up: time")?;
    scene.tell(0)?;
    scene.both.begin("set up: set a job, no machines")?;
    for job in 0..LIMITS.jobs {
        scene.set(job, 1, if job < 125 { HUGE } else { SMALL })?;
    }
    scene.both.begin("set up: add a machine")?;
    scene.add_all()?;
    scene.agents.truncate(8);
    scene.both.begin("set up: reports")?;
    while scene.round(0)? {}
    scene.both.begin("show an empty name")?;
    show(&mut scene, 2000, "")?;
    scene.both.begin("time")?;
    (0..4).try_for_each(|_| scene.tell(1))?;
    scene.both.begin("steady report")?;
    scene.round(0)?;
    end(scene)
}

impl Size {
    fn none(mut self) -> Size {
        (self.machines, self.jobs) = (0, 0);
        self
    }
}
