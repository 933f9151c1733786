//! Lines of calls: `lock N EVENTS.. = NUMBER:JOYSTICK..`, an answer after each event, from a full view.

use super::event::Event;

pub struct Line {
    pub n: u32,
    pub events: Vec<Event>,
    /// Number and joystick after each event.
    pub answers: Vec<(u32, bool)>,
}

impl Line {
    /// Nothing for an empty line and for a comment.
    pub fn parse(text: &str) -> Result<Option<Line>, String> {
        if text.is_empty() || text.starts_with('#') {
            return Ok(None);
        }
        let (asked, answered) = text.split_once(" = ").ok_or("no ' = '")?;
        let mut words = asked.split(' ');
        if words.next() != Some("lock") {
            return Err("not a line of the scan lock".into());
        }
        let n = words.next().and_then(|word| word.parse().ok()).ok_or("no number of modules")?;
        let events: Option<Vec<Event>> = words.map(Event::parse).collect();
        let answers: Option<Vec<(u32, bool)>> = answered.split(' ').map(answer).collect();
        let line = Line { n, events: events.ok_or("an event is wrong")?, answers: answers.ok_or("an answer is wrong")? };
        if line.events.len() == line.answers.len() {
            Ok(Some(line))
        } else {
            Err("other events than answers".into())
        }
    }
}

fn answer(text: &str) -> Option<(u32, bool)> {
    let (number, joystick) = text.split_once(':')?;
    let live = match joystick {
        "0" => false,
        "1" => true,
        _ => return None,
    };
    Some((number.parse().ok()?, live))
}
