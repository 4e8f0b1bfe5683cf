//! The words that a battery keeps: two halves that take turns, and the dark.

use crate::rows::HOME_WORDS;

const WORDS: usize = 262_144;

/// The power failed.
#[derive(Debug, PartialEq, Eq)]
pub struct Dark;

#[derive(Clone)]
pub struct Kept {
    words: Vec<u64>,
    stores: u64,
    /// After how many more stores the power fails, if it is to.
    fuse: Option<u64>,
}

impl Kept {
    pub(crate) fn new() -> Kept {
        Kept {
            words: vec![0; WORDS],
            stores: 0,
            fuse: None,
        }
    }

    pub fn dark_after(&mut self, stores: u64) {
        self.fuse = Some(stores);
    }

    pub fn stay_up(&mut self) {
        self.fuse = None;
    }

    /// How many words were stored since this was last asked.
    pub fn take_stores(&mut self) -> u64 {
        std::mem::take(&mut self.stores)
    }

    /// The half that holds.
    pub fn home(&self) -> &[u64] {
        &self.words[self.held()..][..HOME_WORDS]
    }

    fn is_turned(&self) -> bool {
        self.words[0] % 2 == 1
    }

    fn held(&self) -> usize {
        1 + if self.is_turned() { HOME_WORDS } else { 0 }
    }

    fn spare(&self) -> usize {
        1 + if self.is_turned() { 0 } else { HOME_WORDS }
    }

    /// Makes these the home words. Where the power fails in it, what was stored so far stays.
    pub fn commit(&mut self, home: &[u64]) -> Result<(), Dark> {
        let pairs = self.home().iter().zip(home);
        if pairs.filter(|(was, is)| was != is).count() <= 1 {
            return self.store_all(self.held(), home);
        }
        self.store_all(self.spare(), home)?;
        self.store(0, u64::from(!self.is_turned()))
    }

    fn store_all(&mut self, from: usize, home: &[u64]) -> Result<(), Dark> {
        for (i, word) in home.iter().enumerate() {
            if self.words[from + i] != *word {
                self.store(from + i, *word)?;
            }
        }
        Ok(())
    }

    fn store(&mut self, at: usize, word: u64) -> Result<(), Dark> {
        match &mut self.fuse {
            Some(0) => {
                self.fuse = None;
                return Err(Dark);
            }
            Some(left) => *left -= 1,
            None => {}
        }
        self.words[at] = word;
        self.stores += 1;
        Ok(())
    }
}
