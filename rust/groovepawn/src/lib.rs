//! A runtime enforcer for transfer stations, over the proved library.
//!
//! A policy is a table as bytes: locations, clocks in ticks, rules. It is checked
//! and prepared once; then each tick is corrected, the input before the controller
//! sees it and the output before it is put out.
//!
//! ```
//! use groovepawn::{Policy, Reading, Station};
//!
//! // After R, C at latest on the fourth tick.
//! let policy = Policy::check(&[
//!     1, b'R', 1, b'C', 1, 0, 3, 2, 0, 0, 0, 4, //
//!     0, 1, 1, 0, 0, 1, 1, 0, 0, 255, 255, //
//!     0, 0, 0, 0, 0, 1, 0, 0, 0, 255, 255, //
//!     1, 0, 0, 1, 1, 1, 0, 0, 0, 255, 255, //
//!     1, 0, 0, 1, 0, 0, 1, 0, 0, 0, 2,
//! ])?;
//! let (marks, summary) = policy.prepare(Reading::AtStart)?;
//! assert_eq!((summary.states, summary.live), (8, 8));
//!
//! let mut station = Station::new(&policy, &marks);
//! for (tick, read) in [1, 0, 0, 0, 0].into_iter().enumerate() {
//!     let x = station.input(read)?; // what the controller is to see
//!     let y = station.output(x, 0)?; // it never gives C
//!     assert_eq!(y, u8::from(tick == 4)); // the enforcer does, at the last moment
//! }
//! # Ok::<(), groovepawn::Refusal>(())
//! ```
//!
//! What decides is the library; this package gives its functions the types and the
//! names that a Rust program expects. Each function of `groovepawn.h` has its place:
//!
//! | Function | Here |
//! |---|---|
//! | `check` | [`Policy::check`] |
//! | `prepare`, `prepare_fast` | [`Policy::prepare`], [`Policy::prepare_fast`] |
//! | `input`, `output`, `run` | [`Station::input`], [`Station::output`], [`Station::run`] |
//! | `index`, `input_indexed`, `output_indexed` | [`Policy::index`], [`Station::input_indexed`], [`Station::output_indexed`] |
//! | `why`, `why_run` | [`Station::why`], [`Station::why_run`] |
//! | `join`, `clean` | [`Policy::join`], [`Policy::clean`] |
//! | `text_read`, `text_write` | [`PolicyText::read`], [`Policy::text`] |
//! | `text_line_of_rule` | [`PolicyText::line_of_rule`] |
//! | `text_name_of_signal`, `_clock`, `_location` | [`PolicyText::name_of_signal`], [`PolicyText::name_of_clock`], [`PolicyText::name_of_location`] |
//! | `wave_write`, `wave_read` | [`Policy::wave`], [`Policy::wave_events`] |
//! | `bays_new`, `bay_input`, `bay_output` | [`Bays::new`], [`Bays::input`], [`Bays::output`] |
//! | `meter_new`, `meter_input`, `meter_output` | [`Meter::new`], [`Meter::input`], [`Meter::output`] |
//! | `ticks` | [`ticks`] |

#![warn(missing_docs)]
#![deny(unsafe_code)]

mod answer;
mod bays;
#[allow(unsafe_code)]
mod call;
mod clean;
mod event;
mod index;
mod marks;
mod meter;
mod policy;
mod reading;
mod reason;
mod refusal;
mod rule;
mod state;
mod station;
mod text;
mod ticks;

pub use bays::Bays;
pub use clean::{Cleaned, Struck};
pub use event::Event;
pub use index::Index;
pub use marks::{Marks, Summary};
pub use meter::{Meter, Totals};
pub use policy::{Location, Policy, MOST_FILE_BYTES, MOST_STATES};
pub use reading::Reading;
pub use reason::{Reason, Reasons, WhyRoom};
pub use refusal::Refusal;
pub use rule::{Bounds, Rule, Target};
pub use state::State;
pub use station::{Run, Station};
pub use text::PolicyText;
pub use ticks::{ticks, Rounding};

/// The version of the functions that the library is called by: of its header.
pub const HEADER_VERSION: (u32, u32, u32) = call::VERSION;

/// The most events that a wave can have.
pub const MOST_EVENTS_OF_A_WAVE: usize = call::MOST_EVENTS_OF_A_WAVE;
