//! Links the static libraries of the folder that SLOTLOCK_LIB_DIR names.
use std::env;

fn main() {
    println!("cargo:rerun-if-env-changed=SLOTLOCK_LIB_DIR");
    let Ok(dir) = env::var("SLOTLOCK_LIB_DIR") else {
        panic!("set SLOTLOCK_LIB_DIR to the folder with libslotlock_c.a and librattle_c.a (scripts/library shows how to make it)");
    };
    for library in ["slotlock_c", "rattle_c"] {
        println!("cargo:rerun-if-changed={dir}/lib{library}.a");
        println!("cargo:rustc-link-lib=static={library}");
    }
    println!("cargo:rustc-link-search=native={dir}");
}
