//! The enrolment script engine, written three times and independently of the proved one:
//! `copy_rule` runs a script by copying text and is meant to be read as a specification,
//! `fast` runs it with static links and a display and is meant to be measured against,
//! `search` runs it by the F-search of source 001, section 5, and follows that text.

pub mod answer;
pub mod bounds;
pub mod cause;
pub mod check;
pub mod copy_rule;
pub mod fast;
pub mod judge;
pub mod reader;
pub mod request;
pub mod scope;
pub mod search;
pub mod structure;
pub mod table;
pub mod tree;

pub use answer::{Answer, End};
pub use cause::{Refusal, Refused, Stop};
pub use check::check;
pub use copy_rule::run;
pub use request::{Engine, Lent, Request};
