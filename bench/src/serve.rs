//! The second program's herd as a child: it reads what `herd` reads and answers the same, and behind each answer how many words were stored.

use std::io::{self, BufRead, Write};

use crate::program::{bytes, hex};
use second::herd::Herd;

pub fn serve() -> io::Result<()> {
    let mut herd = Herd::new();
    let mut out = io::stdout().lock();
    for line in io::stdin().lock().lines() {
        let line = line?;
        let read = line.strip_prefix("in ").and_then(bytes);
        let answer = herd.answer(&read.unwrap_or_default());
        let answer = answer.map_err(|_| io::Error::other("dark"))?;
        let stores = herd.kept.take_stores();
        out.write_all(format!("out {} {stores}\n", hex(&answer)).as_bytes())?;
        out.flush()?;
    }
    Ok(())
}
