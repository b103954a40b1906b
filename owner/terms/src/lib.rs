//! Terms as people and pages write them: IRIs under a table of prefixes, numbers, times, and each of them written out.
//!
//! What a record can hold is said by [`willetcoffer::Term`]; what a text of a person means is said here, once for scripts and
//! for pages.
#![forbid(unsafe_code)]
#![warn(missing_docs)]

mod number;
mod prefixes;
mod time;
mod write;

pub use number::{number, NumberError};
pub use prefixes::{is_prefix_name, BadPrefix, IriError, Prefixes};
pub use time::{date_time, TimeError};
pub use write::{iri, is_local, literal, plain};
