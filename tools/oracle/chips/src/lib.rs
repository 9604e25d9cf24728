//! The published `i2c/mod.rs` and `i2c/ds3231.rs`, as `build` copied them.

#[allow(dead_code)]
#[path = "../../published/i2c/mod.rs"]
pub mod i2c;
