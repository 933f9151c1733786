//! Document 02, E8: a rack whose modules stand in other slots.

use crate::model::change::Pending;
use crate::model::setup::{Module, Setup};
use crate::model::state::{Entry, State};
use crate::model::views::Views;
use crate::model::words::{full, has, only, MAX};
use crate::random::Random;
use crate::script::{Item, Script};

/// A permutation of 1..N.
#[derive(Clone, PartialEq, Eq, Debug)]
pub struct Renumbering {
    /// Module j becomes `numbers[j-1]`.
    numbers: Vec<usize>,
}

impl Renumbering {
    /// `None` if a number is left out, stands twice or is out of range.
    pub fn new(numbers: Vec<usize>) -> Option<Renumbering> {
        let all = (1..=numbers.len()).all(|number| numbers.contains(&number));
        all.then_some(Renumbering { numbers })
    }

    /// Any permutation, each as likely as the others.
    pub fn random(random: &mut Random, n: usize) -> Renumbering {
        let mut numbers: Vec<usize> = (1..=n).collect();
        for at in (1..n).rev() {
            numbers.swap(at, random.below(at + 1));
        }
        Renumbering { numbers }
    }

    pub fn n(&self) -> usize {
        self.numbers.len()
    }

    /// The new number of module j.
    pub fn of(&self, j: usize) -> usize {
        self.numbers[j - 1]
    }

    /// Whether some module gets another number.
    pub fn moves(&self) -> bool {
        (1..=self.n()).any(|j| self.of(j) != j)
    }

    /// A health vector, a view, a row, a mask or a cast: the bit of each module at its new number.
    pub fn vector(&self, vector: u32) -> u32 {
        (1..=self.n()).filter(|&j| has(vector, j)).fold(0, |moved, j| moved | only(self.of(j)))
    }

    /// A word of any kind: the vector in its N low bits, all others as they are.
    pub fn word(&self, word: u32) -> u32 {
        word & !full(self.n()) | self.vector(word & full(self.n()))
    }

    /// What each module has, at its new number.
    pub fn each<T: Copy>(&self, of_modules: &[T; MAX]) -> [T; MAX] {
        let mut moved = *of_modules;
        for j in 1..=self.n() {
            moved[self.of(j) - 1] = of_modules[j - 1];
        }
        moved
    }

    /// A read: the word of each sender, renumbered, at its new number. Of view words behind the syndromes the same.
    pub fn read(&self, read: &[u32]) -> Vec<u32> {
        let mut moved = read.to_vec();
        for (words, moved) in read.chunks(self.n()).zip(moved.chunks_mut(self.n())) {
            for j in 1..=self.n() {
                moved[self.of(j) - 1] = self.word(words[j - 1]);
            }
        }
        moved
    }

    /// Each module keeps its criticality. A read place of N stays N; what another becomes is not said by E8, here it stays too.
    pub fn setup(&self, setup: &Setup) -> Setup {
        let modules: [Module; MAX] = self.each(&setup.modules);
        Setup { modules, ..*setup }
    }

    pub fn script(&self, script: &Script) -> Script {
        let items = script.items.iter().map(|item| self.item(item)).collect();
        Script { setup: self.setup(&script.setup), cast: self.vector(script.cast), items }
    }

    fn item(&self, item: &Item) -> Item {
        match *item {
            Item::Loss { sender, receivers } => {
                Item::Loss { sender: self.of(sender), receivers: self.vector(receivers) }
            }
            Item::Lie { sender, receivers, told, told_view } => Item::Lie {
                sender: self.of(sender),
                receivers: self.vector(receivers),
                told: self.word(told),
                told_view: told_view.map(|word| self.word(word)),
            },
            Item::Play { rounds } => Item::Play { rounds },
        }
    }

    /// The state of a module becomes that of the module with its new number.
    pub fn state(&self, state: &State) -> State {
        let row = |entry: Entry| Entry { heard: entry.heard, row: self.vector(entry.row) };
        State {
            own: self.of(state.own),
            view: self.vector(state.view),
            previous: self.each(&state.previous.map(row)),
            latest: self.vector(state.latest),
            before: self.vector(state.before),
            penalty: self.each(&state.penalty),
            reward: self.each(&state.reward),
            score: self.each(&state.score),
            returns: self.each(&state.returns),
            pending: state.pending.map(|pending| Pending { setup: self.setup(&pending.setup), ..pending }),
            views: state.views.map(|views| self.views(&views)),
        }
    }

    /// Views, and those in view words; who is out stays out.
    fn views(&self, views: &Views) -> Views {
        Views {
            words: self.each(&views.words.map(|word| self.word(word))),
            earlier: self.vector(views.earlier),
            adopted: self.vector(views.adopted),
            out: views.out,
        }
    }

    /// The words of a register page: health, view, flags, enable, then the causes, a byte for each module.
    pub fn page(&self, page: &[u32; 16]) -> [u32; 16] {
        let mut causes = [0; MAX];
        for (at, word) in page[4..8].iter().enumerate() {
            causes[4 * at..4 * at + 4].copy_from_slice(&word.to_be_bytes());
        }
        let mut moved = *page;
        moved[0] = self.word(page[0]);
        moved[1] = self.word(page[1]);
        for (word, four) in moved[4..8].iter_mut().zip(self.each(&causes).chunks(4)) {
            *word = u32::from_be_bytes([four[0], four[1], four[2], four[3]]);
        }
        moved
    }

    /// What the bench prints: the lines of each round by new numbers, with health and view renumbered. `None` if these are no such lines.
    pub fn output(&self, output: &str) -> Option<String> {
        let mut moved = Vec::new();
        for line in output.lines() {
            let fields: Vec<&str> = line.split(' ').collect();
            let [round, module, health, view, limit] = fields[..] else {
                return None;
            };
            let number = self.of(module.parse().ok().filter(|j| (1..=self.n()).contains(j))?);
            let (health, view) = (self.printed(health)?, self.printed(view)?);
            let text = format!("{round} {number} {health} {view} {limit}\n");
            moved.push((round.parse::<u32>().ok()?, number, text));
        }
        moved.sort();
        Some(moved.into_iter().map(|(_, _, text)| text).collect())
    }

    /// A vector as it is printed, module 1 leftmost.
    fn printed(&self, vector: &str) -> Option<String> {
        if vector.len() != self.n() {
            return None;
        }
        let mut moved = vec![' '; self.n()];
        for (at, digit) in vector.chars().enumerate() {
            moved[self.of(at + 1) - 1] = digit;
        }
        Some(moved.into_iter().collect())
    }
}
