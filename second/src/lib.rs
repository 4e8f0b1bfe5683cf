//! The herd a second time: its rules, agents, lines and kept words, and the script language.

mod acts;
pub mod agent;
pub mod bytes;
pub mod calls;
#[cfg(test)]
mod cases;
mod check;
pub mod cuts;
#[cfg(test)]
mod darkness;
pub mod generate;
pub mod herd;
pub mod kept;
mod kinds;
mod lines;
pub mod play;
pub mod rows;
pub mod rules;
mod script;
mod show;
mod sweeps;
