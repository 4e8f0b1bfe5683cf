//! The herd: a line of bytes in, a line of bytes out, over kept words.

use crate::bytes::{answer_bytes, framed, read_call, unframed};
use crate::calls::{Answer, NO_TIME, NOT_BUILT, RANGE, does};
use crate::kept::{Dark, Kept};
use crate::rows::{follow, read};
use crate::rules::State;

/// The kinds of call that are built; the other known ones (1 to 9) are turned away. All is done here for all nine already.
const BUILT: [u8; 5] = [1, 3, 7, 8, 9];

#[derive(Clone)]
pub struct Herd {
    pub state: State,
    pub kept: Kept,
}

impl Default for Herd {
    fn default() -> Herd {
        Herd::new()
    }
}

impl Herd {
    pub fn new() -> Herd {
        Herd {
            state: State::blank(),
            kept: Kept::new(),
        }
    }

    /// The answer to a line; or the power failed, and the herd has woken.
    pub fn answer(&mut self, line: &[u8]) -> Result<Vec<u8>, Dark> {
        let (tag, body) = unframed(line);
        let mut home = self.kept.home().to_vec();
        let answer = self.say(body, &mut home);
        if matches!(answer, Answer::Yes | Answer::Run(_)) {
            follow(&mut home, &self.state);
            if let Err(dark) = self.kept.commit(&home) {
                self.state = read(self.kept.home());
                return Err(dark);
            }
        }
        Ok(framed(tag, &answer_bytes(&answer)))
    }

    fn say(&mut self, body: &[u8], home: &mut [u64]) -> Answer {
        let kind = body.first().copied().unwrap_or(0);
        if (1..=9).contains(&kind) && !BUILT.contains(&kind) {
            return Answer::No(NOT_BUILT);
        }
        if self.state.now == 0 && kind != 8 {
            return Answer::No(NO_TIME);
        }
        match read_call(body) {
            Some(call) => does(&call, &mut self.state, &mut |s| follow(home, s)),
            None => Answer::No(RANGE),
        }
    }
}
