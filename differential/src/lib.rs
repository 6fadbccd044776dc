//! The plain implementation of document 01, and the plain reader of typed lines: what the differential test and `stored` both build on.
//! Neither needs the proved library.

pub mod document;
pub mod typed;
