//! The scan lock's model by history, on the lines of calls that came with request E2 and on those written by hand.

use harness::lock::history::History;
use harness::lock::line::Line;

fn lines(text: &str) -> Vec<Line> {
    text.lines().filter_map(|line| Line::parse(line).unwrap()).collect()
}

fn answers_as_written(text: &str, count: usize) {
    let lines = lines(text);
    assert_eq!(lines.len(), count);
    for line in lines {
        let mut history = History::new(line.n);
        let found: Vec<(u32, bool)> =
            line.events.iter().map(|&event| (history.tell(event), history.joystick())).collect();
        assert_eq!(found, line.answers);
    }
}

#[test]
fn lines_of_the_request() {
    answers_as_written(include_str!("../data/scanlock/calls.txt"), 40);
}

#[test]
fn lines_written_by_hand() {
    answers_as_written(include_str!("../data/scanlock/own.txt"), 21);
}
