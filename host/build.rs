//! Links the archive of the proved table.

use std::path::Path;

fn main() {
    println!("cargo::rerun-if-env-changed=ARCHIVE");
    let folder = std::env::var("ARCHIVE").unwrap_or_default();
    let archive = Path::new(&folder).join("libanwalghid.a");
    if !archive.is_absolute() || !archive.is_file() {
        println!(
            "cargo::error=ARCHIVE has to be the full path of a folder with libanwalghid.a: \
             host/archive.sh builds the archive and prints its folder"
        );
        return;
    }
    println!("cargo::rerun-if-changed={}", archive.display());
    println!("cargo::rustc-link-search=native={folder}");
    println!("cargo::rustc-link-lib=static=anwalghid");
}
