//! The register page of a module, after document 02, E1, E5, E10 and E11. Numbers 9, 17 and 18.

use super::step::Outcome;
use super::words::{bytes_of, full, has, words_of};
use super::{refusal, Refusal};

const HEALTH: usize = 0;
const VIEW: usize = 1;
const FLAGS: usize = 2;
const ENABLE: usize = 3;
/// The first of four words with the causes of the last read.
const CAUSES: usize = 4;

/// Flags: the view changed, somebody was charged.
const VIEW_CHANGED: u32 = 1;
const SOMEBODY_CHARGED: u32 = 2;

/// The 16 words of a page.
#[derive(Clone, PartialEq, Eq, Debug)]
pub struct Page {
    words: [u32; 16],
}

impl Page {
    /// Number 9 for a page that is not of 64 bytes.
    pub fn read(bytes: &[u8]) -> Result<Page, Refusal> {
        let words = words_of(bytes).and_then(|words| words.try_into().ok());
        words.map(|words| Page { words }).ok_or(refusal(9, 0))
    }

    /// Health all ones, the view that the module shows, no flags, enable 0, all heard.
    pub fn opened(n: usize, view: u32) -> Page {
        let mut words = [0; 16];
        words[HEALTH] = full(n);
        words[VIEW] = view;
        Page { words }
    }

    pub fn bytes(&self) -> Vec<u8> {
        bytes_of(&self.words)
    }

    /// A step of n modules that left the shown view `after`. Who was charged goes by the local view that rule 8 found.
    pub fn step(&mut self, n: usize, outcome: &Outcome, after: u32) {
        let health = outcome.health;
        if self.words[VIEW] != after {
            self.words[FLAGS] |= VIEW_CHANGED;
        }
        if (1..=n).any(|j| has(outcome.found, j) && !has(health, j)) {
            self.words[FLAGS] |= SOMEBODY_CHARGED;
        }
        self.words[HEALTH] = health;
        self.words[VIEW] = after;
        // Four modules a word, one byte each, module 1 topmost.
        for (word, four) in outcome.causes.chunks(4).enumerate() {
            self.words[CAUSES + word] = four[0] << 24 | four[1] << 16 | four[2] << 8 | four[3];
        }
    }

    /// Number 17 for an offset that starts no word.
    pub fn word(&self, offset: u32) -> Result<u32, Refusal> {
        Ok(self.words[at(offset)?])
    }

    /// Numbers 17 and 18. A one written to the flags clears that flag; enable is stored whole.
    pub fn write(&mut self, offset: u32, value: u32) -> Result<(), Refusal> {
        match at(offset)? {
            FLAGS => self.words[FLAGS] &= !value,
            ENABLE => self.words[ENABLE] = value,
            _ => return Err(refusal(18, 0)),
        }
        Ok(())
    }

    pub fn interrupt(&self) -> bool {
        self.words[FLAGS] & self.words[ENABLE] != 0
    }
}

/// The word that a byte offset starts.
fn at(offset: u32) -> Result<usize, Refusal> {
    match (offset / 4, offset % 4) {
        (word @ 0..=15, 0) => Ok(word as usize),
        _ => Err(refusal(17, 0)),
    }
}
