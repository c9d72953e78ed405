//! Links the static library of the crate, whose folder is given in the environment.

fn main() {
    let folder = std::env::var("PLACEMENT_LIBRARY").expect("PLACEMENT_LIBRARY is the library's folder");
    println!("cargo::rerun-if-env-changed=PLACEMENT_LIBRARY");
    println!("cargo::rustc-link-search=native={folder}");
    println!("cargo::rustc-link-lib=static=dm_placement_c");
    if let Ok(kit) = std::env::var("RATTLE_C") {
        println!("cargo::rustc-link-search=native={kit}");
        println!("cargo::rustc-link-lib=static=libc_c");
    }
}
