//! Links the archive of `bench_api`, parts of the proved library that tests and benchmarks alone call.
#[path = "../build/archive.rs"]
mod archive;

fn main() {
    archive::link("bench_api", "../..");
}
