//! The command `shrunvaki`, run as a user runs it: what it prints, how it ends, and that the file stays as it is where it should.
mod apply;
mod attach;
mod cat;
mod changing;
mod close;
mod crash;
mod files;
mod limits;
mod lookup;
mod output;
mod parent;
mod pieces;
mod power;
mod sample;
mod usage;
mod watched;
