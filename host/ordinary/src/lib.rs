//! Huxowisp, the record store of a gas cabinet controller, in ordinary Rust.
//!
//! A store is a lent byte buffer, the image, cut into pages of 512 bytes: a
//! header, a tree of inner nodes and leaves, chains of overflow pages for the
//! long values, and a list of free pages. This crate is the second opinion on
//! the proved store and its baseline for speed.
//!
//! | module | what it holds |
//! |---|---|
//! | [`page`] | pages, the three kinds of number, the numbers in a page |
//! | [`refusal`] | the refusal numbers |
//! | [`header`] | page 0 |
//! | [`free`] | free pages and the free list |
//! | [`leaf`] | leaves: slots, cells, holes, compaction, the split rule |
//! | [`inner`] | inner nodes: records of separator and child |
//! | [`overflow`] | overflow pages and chains |
//! | [`check`] | what an accepted image is: one walk over all pages |
//! | [`tree`] | descent, growing, mending |
//! | [`calls`] | format, check, get, view, put, delete, scan, and the host's four |
//! | [`batch`] | the batch of text lines |
//!
//! Only the calls face unknown bytes. All that lies below `check` works on
//! pages that `check` has accepted, or that came from such pages by the rules
//! of change.

#![forbid(unsafe_code)]
#![warn(missing_docs)]

pub mod batch;
pub mod calls;
pub mod check;
pub mod free;
pub mod header;
pub mod inner;
pub mod leaf;
pub mod overflow;
pub mod page;
pub mod refusal;
pub mod tree;

pub use batch::{batch, BatchAnswer};
pub use calls::{
    check, delete, format, get, host_check, host_delete, host_get, host_put, put, scan, view,
    CheckAnswer, GetAnswer, ScanAnswer, ViewAnswer,
};
pub use check::Counts;
pub use refusal::Refusal;
