//! Has the linker look for libti in the directory that `LIBTI_DIR` names, if it does.

fn main() {
    println!("cargo:rerun-if-env-changed=LIBTI_DIR");
    if let Ok(directory) = std::env::var("LIBTI_DIR") {
        println!("cargo:rustc-link-search=native={directory}");
    }
}
