//! Run scripts: checking, playing a whole backplane, the fault limit and the printed lines.

pub mod backplane;
pub mod check;
pub mod images;
pub mod limit;
pub mod print;
pub mod program;

pub use check::{check, Item, Script};
pub use print::run;
