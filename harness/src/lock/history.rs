//! A scan lock without a state: what was told so far, and every answer read off that list, after document 02's text.

use super::event::Event;

pub const AXES: u32 = 8;
const DEPTHS: usize = 8;

/// An event, whether it was accepted, and how it found the axis that it names.
struct Told {
    event: Event,
    accepted: bool,
    found_moving: bool,
    found_stopping: bool,
}

pub struct History {
    pub n: u32,
    told: Vec<Told>,
}

impl History {
    /// A full view, and nothing told.
    pub fn new(n: u32) -> History {
        History { n, told: Vec::new() }
    }

    /// The number by which the event is refused, or 0.
    pub fn tell(&mut self, event: Event) -> u32 {
        let number = self.number(event);
        let axis = axis_of(event).unwrap_or(0);
        let found_moving = self.moving(axis);
        let found_stopping = self.stopping(axis);
        self.told.push(Told { event, accepted: number == 0, found_moving, found_stopping });
        number
    }

    pub fn joystick(&self) -> bool {
        (1..=AXES).all(|axis| self.locks(axis).is_empty() && !self.stopping(axis))
    }

    pub fn view(&self) -> u32 {
        let full = (1 << self.n) - 1;
        self.accepted(0).filter_map(|told| if let Event::View(view) = told.event { Some(view) } else { None }).last().unwrap_or(full)
    }

    /// The holder of each lock on an axis that was neither ended nor lost, the outermost first.
    pub fn locks(&self, axis: u32) -> Vec<u32> {
        let begins = self.told.iter().enumerate().filter(|(_, told)| told.accepted);
        begins
            .filter_map(|(at, told)| match told.event {
                Event::Begin { module, axis: on } if on == axis && self.stands(at, module, axis) => Some(module),
                _ => None,
            })
            .collect()
    }

    /// A move was started, and since then neither finished nor stopped.
    pub fn moving(&self, axis: u32) -> bool {
        (0..self.told.len()).any(|at| {
            let started = matches!(self.told[at].event, Event::Start { axis: on, .. } if on == axis);
            self.told[at].accepted
                && started
                && !self.accepted(at + 1).any(|later| match later.event {
                    Event::Finished { axis: on } => on == axis && !later.found_stopping,
                    Event::Stopped { axis: on } => on == axis && later.found_stopping,
                    _ => false,
                })
        })
    }

    /// A move was aborted, and since then the axis has not reported that it has stopped.
    pub fn stopping(&self, axis: u32) -> bool {
        (0..self.told.len()).any(|at| {
            let told = &self.told[at];
            let aborted = matches!(told.event, Event::Abort { axis: on, .. } if on == axis);
            told.accepted
                && aborted
                && told.found_moving
                && !self.accepted(at + 1).any(|later| later.event == Event::Stopped { axis })
        })
    }

    /// The lock begun at `at` was neither lost, nor ended by a stop report, nor by an end of its own: one after which more
    /// ends than begins have followed.
    fn stands(&self, at: usize, module: u32, axis: u32) -> bool {
        let mut inner = 0;
        for later in self.accepted(at + 1) {
            match later.event {
                Event::View(view) if !holds(view, module) => return false,
                Event::Stopped { axis: on } if on == axis && later.found_stopping => return false,
                Event::Begin { axis: on, .. } if on == axis => inner += 1,
                Event::End { axis: on, .. } if on == axis && inner == 0 => return false,
                Event::End { axis: on, .. } if on == axis => inner -= 1,
                _ => {}
            }
        }
        true
    }

    fn accepted(&self, from: usize) -> impl Iterator<Item = &Told> {
        self.told[from..].iter().filter(|told| told.accepted)
    }

    /// Checks in document 02's order.
    fn number(&self, event: Event) -> u32 {
        if let Event::View(view) = event {
            return if view >> self.n == 0 { 0 } else { 19 };
        }
        let axis = axis_of(event).unwrap_or(0);
        if !(1..=AXES).contains(&axis) {
            return 19;
        }
        if let Some(module) = module_of(event) {
            if !(1..=self.n).contains(&module) || !holds(self.view(), module) {
                return 19;
            }
            let locks = self.locks(axis);
            let others = locks.iter().any(|&holder| holder != module);
            return match event {
                Event::Abort { .. } => 0,
                _ if others || self.stopping(axis) => 20,
                Event::Begin { .. } if locks.len() == DEPTHS => 21,
                Event::End { .. } | Event::Start { .. } if locks.is_empty() => 21,
                _ => 0,
            };
        }
        0
    }
}

fn holds(view: u32, module: u32) -> bool {
    view >> (module - 1) & 1 == 1
}

fn axis_of(event: Event) -> Option<u32> {
    match event {
        Event::View(_) => None,
        Event::Begin { axis, .. } | Event::End { axis, .. } | Event::Start { axis, .. } | Event::Abort { axis, .. } => Some(axis),
        Event::Finished { axis } | Event::Stopped { axis } => Some(axis),
    }
}

fn module_of(event: Event) -> Option<u32> {
    match event {
        Event::Begin { module, .. } | Event::End { module, .. } | Event::Start { module, .. } | Event::Abort { module, .. } => Some(module),
        _ => None,
    }
}
