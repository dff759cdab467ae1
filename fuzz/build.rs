//! Wraps what takes and gives back memory, so that `bench/src/memory.rs` can count it. The library of the benchmark links the proved agent.

fn main() {
    for name in ["malloc", "realloc", "free"] {
        println!("cargo:rustc-link-arg=-Wl,--wrap={name}");
    }
}
