//! The program `list_writes` (document 02, Q-13), as it is built: what it prints of files is what the model lists, it says which
//! cannot be read, and no file is changed by it.
mod changing;
mod drawn;
mod files;
mod lengths;
mod listing;
mod names;
mod unreadable;
