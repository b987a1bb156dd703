//! A second, plain implementation of 01-scope.md, "The purpose gate", and of the requests of 02-change-requests.md that have landed.

mod answer;
mod ask;
mod check;
mod clock;
mod condition;
mod date;
mod forms;
mod import;
mod join;
mod nest;
mod policy;
pub mod program;
pub mod purpose;
mod query;
mod refusal;
mod rules;
mod text;
mod why;

pub use answer::Answer;
pub use ask::{ask, measure};
pub use check::{check, Accepted};
pub use clock::Clock;
pub use import::{import, measure_import};
pub use refusal::{Refusal, Source};
pub use why::why;
