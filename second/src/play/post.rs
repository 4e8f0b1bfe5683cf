//! The lines of a script that is played: letters are delivered, lost, doubled.

use super::{Play, read};
use crate::calls::Answer;
use crate::lines::{Fate, Letter};
use crate::show;

/// What came of a letter: its words, and whether the power failed.
pub(super) struct Delivered {
    words: String,
    pub(super) dark: bool,
}

impl Play {
    pub(super) fn set_lines(&mut self, bad: bool) {
        self.lines.bad = bad;
        self.print(if bad { "lines bad" } else { "lines good" });
    }

    pub(super) fn seed(&mut self, seed: u64) {
        self.lines.seed(seed);
        self.print(format!("seed {seed}"));
    }

    pub(super) fn deliver_and_print(&mut self) {
        self.deliver(&mut |play, delivered| play.out.push(delivered.words));
    }

    /// Good lines deliver all, bad ones what chance draws.
    pub(super) fn deliver(&mut self, came: &mut dyn FnMut(&mut Play, Delivered)) {
        let draws = 3 * self.lines.letters.len();
        if !self.lines.bad {
            while !self.lines.letters.is_empty() {
                let letter = self.lines.letters.remove(0);
                let delivered = self.hand_over(letter);
                came(self, delivered);
            }
            return;
        }
        for _ in 0..draws {
            if self.lines.letters.is_empty() {
                return;
            }
            if let Some(delivered) = self.draw() {
                came(self, delivered);
            }
        }
    }

    fn draw(&mut self) -> Option<Delivered> {
        match self.lines.draw() {
            Fate::Nothing => None,
            Fate::Delivered(letter) => Some(self.hand_over(letter)),
            Fate::Lost(letter) => Some(Delivered {
                words: format!("lost: {}", show::letter(&letter)),
                dark: false,
            }),
        }
    }

    fn hand_over(&mut self, letter: Letter) -> Delivered {
        let words = show::letter(&letter);
        if !letter.to_herd {
            let deeds = self.obey(&letter);
            return Delivered {
                words: format!("{words}: {deeds}"),
                dark: false,
            };
        }
        let answer = self.carry(&letter.line);
        if let Ok(line) = &answer {
            self.send(letter.machine, line.clone(), false);
        }
        let dark = answer.is_err();
        let answered = show::answered(&answer.map(|line| read(&line)));
        Delivered {
            words: format!("{words}: {answered}"),
            dark,
        }
    }

    fn obey(&mut self, letter: &Letter) -> String {
        let mut all = self.agents.iter_mut();
        let agent = all.find(|agent| agent.machine == letter.machine);
        let obeyed = match (agent, read(&letter.line)) {
            (Some(agent), Answer::Run(run)) => agent.obey(run),
            _ => None,
        };
        obeyed.map_or("passed over".into(), |deeds| show::deeds(&deeds))
    }

    pub(super) fn letters(&mut self) {
        for (i, letter) in self.lines.letters.iter().enumerate() {
            let words = show::letter(letter);
            self.out.push(format!("letter {}: {words}", i + 1));
        }
        if self.lines.letters.is_empty() {
            self.print("letters: none");
        }
    }

    /// Where letter K stands.
    fn letter(&self, k: u64) -> Result<usize, String> {
        if k == 0 || k > self.lines.letters.len() as u64 {
            return Err(format!("there is no letter {k}"));
        }
        Ok(k as usize - 1)
    }

    pub(super) fn hand(&mut self, k: u64) -> Result<(), String> {
        let i = self.letter(k)?;
        let letter = self.lines.letters.remove(i);
        let delivered = self.hand_over(letter);
        self.print(delivered.words);
        Ok(())
    }

    pub(super) fn lose(&mut self, k: u64) -> Result<(), String> {
        let i = self.letter(k)?;
        let letter = self.lines.letters.remove(i);
        self.print(format!("lose {k}: {}", show::letter(&letter)));
        Ok(())
    }

    pub(super) fn double(&mut self, k: u64) -> Result<(), String> {
        let letter = self.lines.letters[self.letter(k)?].clone();
        self.print(format!("double {k}: {}", show::letter(&letter)));
        self.lines.letters.push(letter);
        Ok(())
    }
}
