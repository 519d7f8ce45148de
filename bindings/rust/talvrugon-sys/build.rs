// libfast_c.a is in the folder FAST_C_DIR, or, in a release, in lib/ of this crate. In the repository `tools/library fast_c` makes it, in
// crates/fast_c/out.
use std::{env, path::Path};

fn main() {
    println!("cargo:rerun-if-env-changed=FAST_C_DIR");
    let own = env::var("CARGO_MANIFEST_DIR").map(|it| it + "/lib");
    let dir = env::var("FAST_C_DIR").or(own).expect("Cargo names the folder of a crate");
    assert!(Path::new(&dir).join("libfast_c.a").is_file(), "FAST_C_DIR names the folder of libfast_c.a");
    println!("cargo:rerun-if-changed={dir}/libfast_c.a");
    println!("cargo:rustc-link-search=native={dir}");
    println!("cargo:rustc-link-lib=static=fast_c");
}
