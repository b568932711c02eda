//! A set of numbers below 262,144: words of bits, with two levels of summaries above them.

const LEVELS: usize = 3;

pub struct Set {
    /// The lowest level has a bit for each number, each other one a bit for each word below that
    /// isn't 0.
    levels: [Vec<u64>; LEVELS],
}

impl Set {
    pub fn new() -> Set {
        Set { levels: [vec![0; 64 * 64], vec![0; 64], vec![0; 1]] }
    }

    pub fn insert(&mut self, number: usize) {
        let mut at = number;
        for words in &mut self.levels {
            words[at / 64] |= 1 << (at % 64);
            at /= 64;
        }
    }

    pub fn remove(&mut self, number: usize) {
        let mut at = number;
        for words in &mut self.levels {
            words[at / 64] &= !(1 << (at % 64));
            if words[at / 64] != 0 {
                return;
            }
            at /= 64;
        }
    }

    pub fn least(&self) -> Option<usize> {
        (self.levels[LEVELS - 1][0] != 0).then(|| self.least_below(LEVELS, 0))
    }

    pub fn greatest(&self) -> Option<usize> {
        (self.levels[LEVELS - 1][0] != 0).then(|| {
            let words = self.levels.iter().rev();
            words.fold(0, |at, words| at * 64 + 63 - words[at].leading_zeros() as usize)
        })
    }

    /// The least member from this number on.
    pub fn least_from(&self, number: usize) -> Option<usize> {
        let mut at = number;
        for (level, words) in self.levels.iter().enumerate() {
            let word = words.get(at / 64)? & (u64::MAX << (at % 64));
            if word != 0 {
                let found = at / 64 * 64 + word.trailing_zeros() as usize;
                return Some(self.least_below(level, found));
            }
            at = at / 64 + 1;
        }
        None
    }

    /// The least member under a word of the level below.
    fn least_below(&self, level: usize, word: usize) -> usize {
        let words = self.levels[..level].iter().rev();
        words.fold(word, |at, words| at * 64 + words[at].trailing_zeros() as usize)
    }
}
