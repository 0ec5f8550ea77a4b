// Links the library that `rt lib` leaves in crates/fulatzebi/out, and the allocator's C part of the toolchain.
use std::env;

fn main() {
    let root = env::var("CARGO_MANIFEST_DIR").unwrap() + "/../..";
    let part = env::var("RATTLE_C").unwrap_or("/opt/rattle/c".to_string());
    println!("cargo:rustc-link-search=native={root}/crates/fulatzebi/out");
    println!("cargo:rustc-link-search=native={part}");
    println!("cargo:rustc-link-lib=static=fulatzebi");
    println!("cargo:rustc-link-lib=static=libc_c");
    println!("cargo:rerun-if-changed={root}/crates/fulatzebi/out/libfulatzebi.a");
    println!("cargo:rerun-if-env-changed=RATTLE_C");
}
