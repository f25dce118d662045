//! The Rust of rafter-sim as a judge of document 01. See README.md.

pub mod compare;
pub mod converting;
pub mod decode;
pub mod figures;
pub mod judge;
pub mod ledger;
pub mod library;
pub mod limits;
pub mod marked;
pub mod model;
pub mod oracle;
pub mod random;
pub mod record;
pub mod rust_state;
pub mod sheet;
pub mod small;
pub mod state;
pub mod subject;
pub mod writing;
