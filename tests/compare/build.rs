//! Where libpreview.a is: the folder PREVIEW_LIB_DIR, else target/staticlib of the repository.

use std::path::PathBuf;

fn main() {
    let folder = match std::env::var_os("PREVIEW_LIB_DIR") {
        Some(folder) => PathBuf::from(folder),
        None => PathBuf::from(env!("CARGO_MANIFEST_DIR")).join("../../target/staticlib"),
    };
    println!("cargo:rustc-link-search=native={}", folder.display());
    println!(
        "cargo:rerun-if-changed={}",
        folder.join("libpreview.a").display()
    );
    println!("cargo:rerun-if-env-changed=PREVIEW_LIB_DIR");
}
