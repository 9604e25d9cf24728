//! The published `signals.rs`, as `build` copied it.

#[path = "../../published/signals.rs"]
mod signals;

pub use signals::*;
