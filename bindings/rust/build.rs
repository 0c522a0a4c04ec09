//! Where the library is: HEDGEMALLOW_LIB, or where `./build bridge` leaves it in this repository, as libbridge.a. In an installation it is
//! libhedgemallow.a: then a copy is linked under the name that the wrapper knows. A new library is linked anew, and one that is missing is
//! said so, with the command that makes it.

use std::path::{Path, PathBuf};

fn main() {
    println!("cargo:rerun-if-env-changed=HEDGEMALLOW_LIB");
    let folder = std::env::var("HEDGEMALLOW_LIB")
        .unwrap_or_else(|_| concat!(env!("CARGO_MANIFEST_DIR"), "/../../target/staticlib").to_string());
    // A path that is not whole is meant from the wrapper's folder, where cargo starts this; what is told is whole.
    let folder = Path::new(env!("CARGO_MANIFEST_DIR")).join(folder);
    let [built, installed] = ["libbridge.a", "libhedgemallow.a"].map(|name| folder.join(name));
    println!("cargo:rerun-if-changed={}", built.display());
    println!("cargo:rerun-if-changed={}", installed.display());
    let folder = if built.is_file() {
        folder
    } else if installed.is_file() {
        copied(&installed)
    } else {
        eprintln!("There is no {}, and no {}.", built.display(), installed.display());
        eprintln!("`./build bridge`, in the repository, makes it; HEDGEMALLOW_LIB names the folder where it lies elsewhere, by its whole path.");
        std::process::exit(1);
    };
    println!("cargo:rustc-link-search=native={}", folder.display());
}

/// The folder of a copy that has the name of the library as it is built.
fn copied(library: &Path) -> PathBuf {
    let folder = PathBuf::from(std::env::var_os("OUT_DIR").expect("cargo names a folder to write to"));
    if let Err(error) = std::fs::copy(library, folder.join("libbridge.a")) {
        eprintln!("{} was not copied: {error}", library.display());
        std::process::exit(1);
    }
    folder
}
