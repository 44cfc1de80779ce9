//! Shrunvaki from Rust: virtual disk files whose bytes nobody vouches for.
//!
//! The functions behind these calls are proved: whatever bytes and numbers come in, each answers what the project's definitions
//! say, or refuses by a number. This crate gives them Rust's types; it decides nothing by itself. [`vhdx`] has the calls for VHDX
//! files, [`mapping`] puts a file into a buffer without reading it.
//!
//! An image is the first bytes of a buffer. The rest of the buffer is space for what the file's pending log adds.
//!
//! ```
//! use shrunvaki::vhdx::{Image, Lookup};
//!
//! let mut buffer = vdisk();
//! let length = buffer.len() as u64;
//! buffer.resize(buffer.len() + (1 << 20), 0); // the log may grow the image by 1 MiB
//!
//! let mut image = Image::new(&mut buffer, length);
//! let attachment = image.attach();
//! match attachment.facts {
//!     Ok(facts) => {
//!         println!("{} bytes to charge, {} sectors replayed", facts.disk_size, attachment.count);
//!         assert_eq!(image.lookup(&facts, 0), Ok(Lookup::File(4 << 20)));
//!     }
//!     Err(refusal) => println!("refused: {refusal}"),
//! }
//! # fn vdisk() -> Vec<u8> {
//! #     let image = vhdx_builder::sample::pending();
//! #     image.buffer[..image.length as usize].to_vec()
//! # }
//! ```
//!
//! A file in one call, changed in memory alone:
//!
//! ```no_run
//! # fn main() -> std::io::Result<()> {
//! // SAFETY: nobody else has the file open.
//! let mut image = unsafe { shrunvaki::vhdx::Image::open("disk.vhdx", 1 << 30)? };
//! println!("{:?}", image.attach());
//! # Ok(())
//! # }
//! ```
#![warn(missing_docs)]

pub mod mapping;
pub mod vhdx;
