//! The scan lock of document 02 (E2): a model by history, and the library beside it.

pub mod event;
#[cfg(feature = "library")]
pub mod ffi;
pub mod history;
pub mod image;
pub mod line;
pub mod random;
