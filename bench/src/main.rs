//! What the herd's calls cost, beside those of the second program: see docs/PERFORMANCE.md.

mod both;
mod play;
mod program;
mod record;
mod scene;
mod serve;
mod size;
mod table;

use std::io;
use std::path::Path;
use std::process::ExitCode;

fn main() -> io::Result<ExitCode> {
    let words: Vec<String> = std::env::args().skip(1).collect();
    let words: Vec<&str> = words.iter().map(String::as_str).collect();
    match words[..] {
        ["second"] => serve::serve()?,
        ["play", herd, folder] => play::play(Path::new(herd), Path::new(folder))?,
        ["record", herd, folder] => record::record(Path::new(herd), Path::new(folder))?,
        _ => {
            eprintln!("usage: bench play HERD FOLDER, or bench record HERD FOLDER");
            return Ok(ExitCode::from(2));
        }
    }
    Ok(ExitCode::SUCCESS)
}
