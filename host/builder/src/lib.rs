//! VHDX images made from document 01 alone, with a checksum of their own: headers and log entries, tables, and a small disk to
//! try first.
pub mod image;
pub mod sample;
pub mod tables;
