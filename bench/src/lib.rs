//! The enforcement library measured against a plain program doing the same
//! work.

#[path = "../../independent/src/basis.rs"]
pub mod basis;
pub mod cases;
pub mod cleanings;
mod clock;
#[path = "../../independent/src/command.rs"]
pub mod command;
pub mod engine;
pub mod engines;
mod falling;
pub mod file;
mod generated;
#[cfg(feature = "library")]
#[path = "../../include/groovepawn.rs"]
mod groovepawn;
pub mod indexes;
pub mod instructions;
#[cfg(feature = "library")]
pub mod library;
pub mod maker;
pub mod measure;
pub mod plain;
mod policies;
mod random;
mod ready;
pub mod report;
pub mod streams;
pub mod texts;
pub mod why_runs;
pub mod whys;
pub mod work;
