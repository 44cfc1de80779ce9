//! What tests and benchmarks share: the proved functions with their answers taken apart, images with a pending log and the model
//! of their replay and of closing them, the log's work in pieces with what holds of every request, what interrupted calls and power
//! failures leave, causes of refusals, disks for lookups, files drawn at random, long files and long logs, programs that tests run, the
//! memory that they take and the JSON that they print, and measuring.
pub mod api;
pub mod causes;
pub mod closing;
pub mod command;
pub mod drawn;
pub mod files;
pub mod interrupted;
pub mod json;
pub mod list_writes;
pub mod long_file;
pub mod long_log;
pub mod measure;
pub mod peak;
pub mod pending;
pub mod pieces;
pub mod random;
pub mod sample;
pub mod vhdx;

pub use vhdx_builder::{image, tables};
pub use vhdx_model as model;
