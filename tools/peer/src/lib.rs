//! A panel of gas flow channels on one line, in plain Rust.
//!
//! It does what `docs/` says of linerun and supplyrun, is written from there alone,
//! and shares nothing with the crates. They are compared and timed beside it.

pub mod answer;
pub mod command;
pub mod event;
pub mod frame;
pub mod hex;
pub mod panel;
pub mod player;
pub mod rack_file;
pub mod receiver;
pub mod record;
pub mod refusal;
pub mod setpoint;
pub mod supply;
