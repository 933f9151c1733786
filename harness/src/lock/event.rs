//! What a scan lock is told.

#[derive(Clone, Copy, Debug, PartialEq, Eq)]
pub enum Event {
    View(u32),
    Begin { module: u32, axis: u32 },
    End { module: u32, axis: u32 },
    Start { module: u32, axis: u32 },
    Abort { module: u32, axis: u32 },
    Finished { axis: u32 },
    Stopped { axis: u32 },
}

impl Event {
    /// vXXXX view, bM,A begin, eM,A end, mM,A start of a move, aM,A abort, fA finished, sA stopped.
    pub fn parse(text: &str) -> Option<Event> {
        let (kind, rest) = text.split_at_checked(1)?;
        if kind == "v" {
            return Some(Event::View(u32::from_str_radix(rest, 16).ok()?));
        }
        if kind == "f" || kind == "s" {
            let axis = rest.parse().ok()?;
            return Some(if kind == "f" { Event::Finished { axis } } else { Event::Stopped { axis } });
        }
        let (module, axis) = rest.split_once(',')?;
        let (module, axis) = (module.parse().ok()?, axis.parse().ok()?);
        match kind {
            "b" => Some(Event::Begin { module, axis }),
            "e" => Some(Event::End { module, axis }),
            "m" => Some(Event::Start { module, axis }),
            "a" => Some(Event::Abort { module, axis }),
            _ => None,
        }
    }
}
