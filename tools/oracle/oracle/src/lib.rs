//! The Rust's answers to scripts and to calls of the DS3231 clock model: the published files run,
//! and what they answer is written as text. A tool that compares another model with the Rust can
//! call, on byte slices and in one process, [`script::lines`], [`script::check`], [`script::run`],
//! [`file::lists_answers`] and [`file::scripts_answers`], with inputs from [`families`].

pub mod answer;
pub mod bytes;
pub mod call;
pub mod families;
pub mod file;
pub mod random;
pub mod script;
pub mod text;
pub mod vectors;
pub mod watch;
