//! Links the static library of `crates/ipx_bench`, and the C part of the toolchain's allocator.
//!
//! `RATTLE_C` names the toolchain's folder of C libraries.

use std::env;
use std::path::Path;

fn main() {
    let library = Path::new(env!("CARGO_MANIFEST_DIR")).join("../crates/ipx_bench/out");
    let c = env::var("RATTLE_C").expect("RATTLE_C names the toolchain's folder of C libraries");
    println!("cargo::rerun-if-env-changed=RATTLE_C");
    println!(
        "cargo::rerun-if-changed={}",
        library.join("libipx_bench.a").display()
    );
    println!("cargo::rustc-link-search=native={}", library.display());
    println!("cargo::rustc-link-search=native={c}");
    println!("cargo::rustc-link-lib=static=ipx_bench");
    println!("cargo::rustc-link-lib=static=libc_c");
    // The program that counts has each call of the C allocator go through its counters.
    for name in ["malloc", "calloc", "realloc", "posix_memalign", "free"] {
        println!("cargo::rustc-link-arg-bin=allocations=-Wl,--wrap={name}");
    }
}
