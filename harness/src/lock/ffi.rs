//! The scan lock's functions as C sees them, and safe wrappers on slices.

use super::event::Event;

#[repr(C)]
#[derive(Clone, Copy, Debug, PartialEq, Eq)]
pub struct Answer {
    pub number: u32,
    pub index: u32,
    pub joystick: u32,
}

extern "C" {
    fn scanlock_open(n: u32, out: *mut u8, out_len: usize) -> Answer;
    fn scanlock_view(image: *const u8, image_len: usize, view: u32, out: *mut u8, out_len: usize) -> Answer;
    fn scanlock_begin(image: *const u8, image_len: usize, module: u32, axis: u32, out: *mut u8, out_len: usize) -> Answer;
    fn scanlock_end(image: *const u8, image_len: usize, module: u32, axis: u32, out: *mut u8, out_len: usize) -> Answer;
    fn scanlock_start(image: *const u8, image_len: usize, module: u32, axis: u32, out: *mut u8, out_len: usize) -> Answer;
    fn scanlock_abort(image: *const u8, image_len: usize, module: u32, axis: u32, out: *mut u8, out_len: usize) -> Answer;
    fn scanlock_finished(image: *const u8, image_len: usize, axis: u32, out: *mut u8, out_len: usize) -> Answer;
    fn scanlock_stopped(image: *const u8, image_len: usize, axis: u32, out: *mut u8, out_len: usize) -> Answer;
    fn scanlock_joystick(image: *const u8, image_len: usize) -> Answer;
}

pub fn open(n: u32, out: &mut [u8]) -> Answer {
    // Each pointer and length come from one live slice.
    unsafe { scanlock_open(n, out.as_mut_ptr(), out.len()) }
}

pub fn joystick(image: &[u8]) -> Answer {
    unsafe { scanlock_joystick(image.as_ptr(), image.len()) }
}

pub fn tell(image: &[u8], event: Event, out: &mut [u8]) -> Answer {
    let (i, il, o, ol) = (image.as_ptr(), image.len(), out.as_mut_ptr(), out.len());
    unsafe {
        match event {
            Event::View(view) => scanlock_view(i, il, view, o, ol),
            Event::Begin { module, axis } => scanlock_begin(i, il, module, axis, o, ol),
            Event::End { module, axis } => scanlock_end(i, il, module, axis, o, ol),
            Event::Start { module, axis } => scanlock_start(i, il, module, axis, o, ol),
            Event::Abort { module, axis } => scanlock_abort(i, il, module, axis, o, ol),
            Event::Finished { axis } => scanlock_finished(i, il, axis, o, ol),
            Event::Stopped { axis } => scanlock_stopped(i, il, axis, o, ol),
        }
    }
}
