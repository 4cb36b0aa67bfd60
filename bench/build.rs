//! Links the static library of `crates/lru_bench_half`, the toolchain's C part, and the watch over the allocator.
use std::env;
use std::path::Path;

fn main() {
    let here = env::var("CARGO_MANIFEST_DIR").expect("cargo sets it");
    let kit = env::var("RATTLE_KIT").expect("the command `run` sets it");
    let library = Path::new(&here).join("../crates/lru_bench_half/out");
    println!("cargo:rustc-link-search=native={}", library.display());
    println!("cargo:rustc-link-search=native={kit}/c");
    println!("cargo:rustc-link-lib=static=lru_bench_half");
    println!("cargo:rustc-link-lib=static=libc_c");
    println!("cargo:rustc-link-lib=static=os_c");
    for name in ["malloc", "calloc", "realloc", "free", "posix_memalign"] {
        println!("cargo:rustc-link-arg-bin=bench=-Wl,--wrap={name}");
    }
    println!("cargo:rerun-if-changed={}", library.join("liblru_bench_half.a").display());
}
