//! The fault limit.

use super::backplane::Arrivals;
use crate::model::step::read_word;
use crate::model::words::{has, only};

/// How the rule-followers heard the senders of one round.
#[derive(Clone, Copy, PartialEq, Eq, Debug)]
pub struct Hearing {
    /// Two rule-followers differ in hearing the sender, or both hear it with different words.
    pub half_heard: u32,
    /// No rule-follower hears the sender.
    pub unheard: u32,
}

impl Hearing {
    pub fn of(n: usize, cast: u32, arrivals: &Arrivals) -> Hearing {
        let mut hearing = Hearing { half_heard: 0, unheard: 0 };
        for sender in 1..=n {
            let mut first = None;
            let mut differs = false;
            let mut heard = false;
            for receiver in 1..=n {
                if has(cast, receiver) {
                    continue;
                }
                let arrival = arrivals[sender - 1][receiver - 1];
                let entry = read_word(n, arrival.controller_bit, arrival.word).entry();
                heard = heard || entry.heard;
                match first {
                    None => first = Some(entry),
                    Some(other) => differs = differs || entry != other,
                }
            }
            if differs {
                hearing.half_heard |= only(sender);
            }
            if !heard {
                hearing.unheard |= only(sender);
            }
        }
        hearing
    }
}

/// The limit over round rho and round rho-u-1. N, s and b are taken over the rule-followers' view at the end of round rho+u-1, a over all modules
/// (document 02, E4).
pub fn kept(n: usize, cast: u32, view: u32, now: &Hearing, earlier: &Hearing) -> bool {
    let voters = (1..=n).filter(|&j| has(view, j)).count();
    let mut a = 0;
    let mut s = 0;
    let mut b = 0;
    for j in 1..=n {
        let heard_in_either = !has(now.unheard, j) || !has(earlier.unheard, j);
        let unheard_in_either = has(now.unheard, j) || has(earlier.unheard, j);
        if has(now.half_heard, j) || has(earlier.half_heard, j) {
            a += 1;
        } else if !has(view, j) {
            continue;
        } else if has(cast, j) && heard_in_either {
            s += 1;
        } else if unheard_in_either {
            b += 1;
        }
    }
    a + s == 0 || (a <= 1 && voters > 2 * a + 2 * s + b + 1)
}
