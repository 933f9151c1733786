//! A backplane played by the calls as C makes them: image in, image out, each module with a register page. Every read place is N, so that u is 0
//! and each module reads the words of its own round.

use super::backplane::{Event, Events};
use crate::model::calls::{Answer, Functions};
use crate::model::setup::Setup;
use crate::model::state::{read_image, stepped_length, State};
use crate::model::words::{bytes_of, only};

pub struct Images<'a> {
    calls: &'a dyn Functions,
    n: usize,
    /// Module j stands at j-1.
    pub images: Vec<Vec<u8>>,
    pub pages: Vec<Vec<u8>>,
    /// The health vectors of the round played last.
    pub health: Vec<u32>,
}

impl<'a> Images<'a> {
    pub fn opened(calls: &'a dyn Functions, setup: &Setup) -> Result<Images<'a>, String> {
        assert_eq!(setup.u(), 0, "every read place is N");
        let n = setup.n;
        let mut opened = Images { calls, n, images: Vec::new(), pages: Vec::new(), health: vec![0; n] };
        for own in 1..=n as u32 {
            let mut image = vec![0; 4 * setup.image_length()];
            let mut page = vec![0; 64];
            accepted(calls.page_open(&bytes_of(&setup.words()), own, &mut image, &mut page))?;
            opened.images.push(image);
            opened.pages.push(page);
        }
        Ok(opened)
    }

    /// Between two rounds: all are offered the same change (document 02, E10); the number that each answers.
    pub fn offer(&mut self, new: &Setup, lead: u32) -> Vec<u32> {
        let mut numbers = Vec::new();
        for image in &mut self.images {
            let (setup, _) = held(image);
            let mut out = vec![0; 4 * setup.shape().pending_image_length()];
            let answer = self.calls.change(image, &bytes_of(&new.words()), lead, &mut out);
            if answer.number == 0 {
                *image = out;
            }
            numbers.push(answer.number);
        }
        numbers
    }

    /// All send what their images hand out, then all step; the events count for the words sent.
    pub fn play_round(&mut self, events: &Events) -> Result<(), String> {
        let sent: Vec<u32> = self.images.iter().map(|image| self.calls.outgoing(image).word).collect();
        let views: Vec<u32> = self.images.iter().map(|image| self.calls.outgoing_view(image).word).collect();
        for receiver in 1..=self.n {
            let at = receiver - 1;
            let (setup, state) = held(&self.images[at]);
            let (mut read, controller) = arrived(&sent, &views, events, receiver);
            read.truncate(setup.read_length());
            let mut image = vec![0; 4 * stepped_length(&setup, &state)];
            let page = &mut self.pages[at];
            let answer = self.calls.page_step(&self.images[at], &bytes_of(&read), controller, &mut image, page);
            self.health[at] = accepted(answer)?;
            self.images[at] = image;
        }
        Ok(())
    }
}

/// Setup and state of an image.
pub fn held(image: &[u8]) -> (Setup, State) {
    read_image(image).expect("the image that a call wrote is accepted")
}

/// The words that reach a receiver, syndromes first and then views, and its controller word.
fn arrived(sent: &[u32], views: &[u32], events: &Events, receiver: usize) -> (Vec<u32>, u32) {
    let n = sent.len();
    let mut read = [sent, views].concat();
    let mut controller = 0;
    for sender in 1..=n {
        match events[sender - 1][receiver - 1] {
            Some(Event::Loss) => continue,
            Some(Event::Lie { told, told_view }) => (read[sender - 1], read[n + sender - 1]) = (told, told_view),
            None => {}
        }
        controller |= only(sender);
    }
    (read, controller)
}

/// The health vector of an accepted call.
fn accepted(answer: Answer) -> Result<u32, String> {
    match answer.number {
        0 => Ok(answer.health),
        number => Err(format!("refused {number} at {}", answer.index)),
    }
}
