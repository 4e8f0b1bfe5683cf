//! The lines between: letters in the order in which they were sent, and a generator by which they go wrong.

#[derive(Clone)]
pub struct Letter {
    pub machine: u16,
    pub line: Vec<u8>,
    pub to_herd: bool,
}

#[derive(Clone)]
pub struct Lines {
    pub letters: Vec<Letter>,
    pub bad: bool,
    pub chance: Chance,
}

/// What becomes of a letter that is drawn.
pub enum Fate {
    Lost(Letter),
    Delivered(Letter),
    Nothing,
}

impl Lines {
    pub fn new() -> Lines {
        Lines {
            letters: Vec::new(),
            bad: false,
            chance: Chance(0),
        }
    }

    pub fn seed(&mut self, seed: u64) {
        self.chance = Chance(seed);
        self.bad = true;
    }

    /// One turn of bad lines. There is a letter.
    pub fn draw(&mut self) -> Fate {
        let i = self.chance.below(self.letters.len() as u64) as usize;
        match self.chance.below(8) {
            0 => Fate::Lost(self.letters.remove(i)),
            1 => Fate::Delivered(self.letters[i].clone()),
            2 | 3 => Fate::Nothing,
            _ => Fate::Delivered(self.letters.remove(i)),
        }
    }
}

/// splitmix64.
#[derive(Clone)]
pub struct Chance(pub u64);

impl Chance {
    pub fn draw(&mut self) -> u64 {
        self.0 = self.0.wrapping_add(0x9E37_79B9_7F4A_7C15);
        let mut z = self.0;
        z = (z ^ (z >> 30)).wrapping_mul(0xBF58_476D_1CE4_E5B9);
        z = (z ^ (z >> 27)).wrapping_mul(0x94D0_49BB_1331_11EB);
        z ^ (z >> 31)
    }

    pub fn below(&mut self, n: u64) -> u64 {
        self.draw() % n
    }
}

#[cfg(test)]
mod tests {
    use super::Chance;

    #[test]
    fn the_generator_is_splitmix64() {
        assert_eq!(Chance(0).draw(), 0xE220_A839_7B1D_CDAF);
        let mut chance = Chance(1_234_567);
        assert_eq!(chance.draw(), 6_457_827_717_110_365_317);
        assert_eq!(chance.draw(), 3_203_168_211_198_807_973);
    }
}
