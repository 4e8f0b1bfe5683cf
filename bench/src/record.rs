//! Lines for counting instructions: a herd that is set up, kept in its folder, and lines of one kind each for it once it has woken.

use std::fs;
use std::io;
use std::path::Path;

use crate::play::start;
use crate::program::in_hex;
use crate::scene::Scene;
use crate::size::{HOUSE, LIMITS, Size};
use second::bytes::{call_bytes, framed};
use second::calls::Call;

/// Lines of each kind.
const EACH: u64 = 20;

/// The house; one much like it, and the same with twice the machines, twice the tasks, or twice the jobs with as many tasks; the limits.
pub fn record(herd: &Path, folder: &Path) -> io::Result<()> {
    let plain = Size {
        count: 4,
        mixed: false,
        ..HOUSE
    };
    let sizes = [
        ("house", HOUSE),
        ("base", plain),
        (
            "machines",
            Size {
                machines: 60,
                ..plain
            },
        ),
        ("tasks", Size { count: 8, ..plain }),
        (
            "jobs",
            Size {
                jobs: 120,
                count: 2,
                ..plain
            },
        ),
        ("limits", LIMITS),
    ];
    for (name, size) in sizes {
        let scene = Scene::new(start(herd, folder, name)?, size);
        one(scene, &folder.join(name))?;
    }
    Ok(())
}

/// The herd wakes with what it kept: `wake` has the time and all machines' reports, the other files calls of one kind each.
fn one(mut scene: Scene, folder: &Path) -> io::Result<()> {
    scene.set_up()?;
    fs::copy(folder.join("kept"), folder.join("kept.set"))?;
    scene.both.sent = Some(Vec::new());
    scene.tell(1)?;
    scene.round(0)?;
    write(&mut scene, folder, "wake")?;
    for i in 0..EACH as usize {
        scene.report(i % usize::from(scene.size.machines))?;
    }
    write(&mut scene, folder, "report")?;
    let now = scene.now;
    let times = (1..=EACH).map(|i| line(&Call::Time(now + i)));
    fs::write(folder.join("time"), times.collect::<String>())?;
    for (file, name) in [("show-empty", ""), ("show-job", "job 7")] {
        let shows = line(&Call::Show(name.as_bytes().to_vec()));
        fs::write(folder.join(file), shows.repeat(EACH as usize))?;
    }
    scene.both.end()
}

fn write(scene: &mut Scene, folder: &Path, file: &str) -> io::Result<()> {
    let sent = scene.both.sent.replace(Vec::new());
    fs::write(folder.join(file), sent.unwrap_or_default().concat())
}

fn line(call: &Call) -> String {
    in_hex(&framed(1, &call_bytes(call)))
}
