//! The herd a second time: plays scripts, and writes them.

use std::io::{self, Read, Write};
use std::path::Path;
use std::process::ExitCode;

use second::{cuts, generate, play};

fn main() -> ExitCode {
    let words: Vec<String> = std::env::args().skip(1).collect();
    let words: Vec<&str> = words.iter().map(String::as_str).collect();
    match words[..] {
        ["play"] => play(),
        ["generate", seed] => generate(seed),
        ["cuts", folder] => cuts(folder),
        _ => usage(),
    }
    .unwrap_or(ExitCode::FAILURE)
}

fn play() -> io::Result<ExitCode> {
    let mut script = Vec::new();
    io::stdin().read_to_end(&mut script)?;
    let (out, well) = play::play(&script);
    let mut text = out.join("\n");
    text.push('\n');
    io::stdout().write_all(text.as_bytes())?;
    Ok(if well {
        ExitCode::SUCCESS
    } else {
        ExitCode::FAILURE
    })
}

fn generate(seed: &str) -> io::Result<ExitCode> {
    let Ok(seed) = seed.parse() else {
        return usage();
    };
    io::stdout().write_all(generate::generate(seed).as_bytes())?;
    Ok(ExitCode::SUCCESS)
}

fn cuts(folder: &str) -> io::Result<ExitCode> {
    for (name, script) in cuts::all() {
        std::fs::write(Path::new(folder).join(name), script)?;
    }
    Ok(ExitCode::SUCCESS)
}

fn usage() -> io::Result<ExitCode> {
    eprintln!("usage: second play <SCRIPT");
    eprintln!("       second generate SEED");
    eprintln!("       second cuts FOLDER");
    Ok(ExitCode::from(2))
}
