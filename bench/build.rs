//! Links the static library of the crate `srm_bench`, and the toolchain's two small C libraries. KIT_C names the folder of
//! these. In the program that counts memory, what takes and gives it back is wrapped.

fn main() {
    let kit = std::env::var("KIT_C").expect("KIT_C: the folder of the toolchain's C libraries");
    let root = std::env::var("CARGO_MANIFEST_DIR").expect("cargo sets it");
    println!("cargo:rustc-link-search=native={root}/../crates/srm_bench/out");
    println!("cargo:rustc-link-search=native={kit}");
    for name in ["srm_bench", "os_c", "libc_c"] {
        println!("cargo:rustc-link-lib=static={name}");
    }
    for name in ["malloc", "realloc", "free"] {
        println!("cargo:rustc-link-arg-bin=memory=-Wl,--wrap={name}");
    }
    println!("cargo:rerun-if-changed=../crates/srm_bench/out/libsrm_bench.a");
    println!("cargo:rerun-if-env-changed=KIT_C");
}
