//! Random events: mostly about few modules and axes, so that they meet.

use super::event::Event;
use crate::random::Random;

/// How a history is made: how many modules and axes are mostly named.
pub struct Crowd {
    pub n: u32,
    modules: u32,
    axes: u32,
}

impl Crowd {
    pub fn any(random: &mut Random) -> Crowd {
        let n = random.between(2, 16);
        Crowd { n, modules: random.between(1, n.min(3)), axes: random.between(1, 3) }
    }

    pub fn event(&self, random: &mut Random) -> Event {
        let module = if random.chance(1, 12) { random.between(0, self.n + 2) } else { random.between(1, self.modules) };
        let axis = if random.chance(1, 12) { random.between(0, 10) } else { random.between(1, self.axes) };
        match random.below(16) {
            0 => Event::View(self.view(random)),
            1..=6 => Event::Begin { module, axis },
            7..=9 => Event::End { module, axis },
            10 | 11 => Event::Start { module, axis },
            12 => Event::Abort { module, axis },
            13 => Event::Finished { axis },
            _ => Event::Stopped { axis },
        }
    }

    /// Often full, often without one module, at times any bits.
    fn view(&self, random: &mut Random) -> u32 {
        match random.below(20) {
            0 => random.word(),
            1 => 1 << self.n,
            _ => random.vector(self.n as usize),
        }
    }
}
