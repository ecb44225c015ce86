//! The C functions of the proved libraries, declared here for all Rust code of the repository.
//! A function is there as it is, and as `guarded` with guards around all that is lent.

#[cfg(feature = "enrol")]
pub mod enrol;
mod lent;
#[cfg(feature = "measure")]
pub mod measure;

pub use lent::{Lent, Strayed};
