//! VHDX: an image in a buffer, what it is, where its sectors are, and why it is refused; and a file that no buffer holds.
mod facts;
mod identifier;
mod image;
pub mod pieces;
pub mod raw;
mod refusal;
mod ucs2;
mod window;

pub use facts::{Extent, Facts};
pub use identifier::{identifier_from_text, identifier_text};
pub use image::{Attachment, Closed, Image, Lookup, Plan};
pub use refusal::Refusal;
pub use ucs2::{from_ucs2, to_ucs2};
