//! Links the archive of `capi`, the proved library as C programs link it.
#[path = "../build/archive.rs"]
mod archive;

fn main() {
    archive::link("capi", "../..");
}
