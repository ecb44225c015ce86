//! Differential tests: the same generated calls to several implementations, every word compared.

pub mod call;
pub mod compare;
pub mod damage;
pub mod edges;
pub mod encode;
pub mod generate;
pub mod inputs;
pub mod lent;
pub mod listing;
pub mod lists;
pub mod names;
pub mod parties;
pub mod passing;
pub mod quiet;
pub mod random;
pub mod reduce;
pub mod report;
pub mod shapes;
pub mod statements;
pub mod table_work;
