//! Files drawn at random, each from a seed: sound ones of many kinds, logs for them, and damage to them.
pub mod damage;
pub mod draw;
pub mod fields;
pub mod files;
pub mod rings;
pub mod seeds;
