//! Links libzamgyorud.a, which the repository's `make lib` puts into target/lib. ZAMGYORUD_LIB names another folder, by a whole path or by a
//! path from the folder in which cargo is run.

use std::os::unix::process::parent_id;
use std::path::{Path, PathBuf};
use std::{env, fs, io};

fn main() {
    println!("cargo::rerun-if-env-changed=ZAMGYORUD_LIB");
    let folder = match env::var_os("ZAMGYORUD_LIB") {
        Some(given) if !given.is_empty() => whole(Path::new(&given)),
        _ => Ok(default_folder()),
    };
    match folder {
        Ok(folder) => link(&folder),
        Err(error) => {
            println!("cargo::error=ZAMGYORUD_LIB isn't a whole path, and cargo's folder isn't known ({error}): give the whole path")
        }
    }
}

/// Has the program linked with the library in a folder, or says that it isn't there.
fn link(folder: &Path) {
    let library = folder.join("libzamgyorud.a");
    println!("cargo::rerun-if-changed={}", library.display());
    if library.is_file() {
        println!("cargo::rustc-link-search=native={}", folder.display());
        println!("cargo::rustc-link-lib=static=zamgyorud");
    } else {
        println!(
            "cargo::error={} isn't there: run `make lib`, or set ZAMGYORUD_LIB to the folder that has libzamgyorud.a",
            library.display()
        );
    }
}

/// The whole path of one that the user gave. Cargo runs this script in the crate's folder. Cargo itself, the parent of this process, runs in
/// the user's.
fn whole(given: &Path) -> io::Result<PathBuf> {
    if given.is_absolute() {
        return Ok(given.to_path_buf());
    }
    // Cargo runs this script again only when something that it named has changed. The same path means another folder from elsewhere.
    println!("cargo::rerun-if-env-changed=PWD");
    Ok(fs::read_link(format!("/proc/{}/cwd", parent_id()))?.join(given))
}

/// The folder target/lib of the repository that this crate stands in, in rust/zamgyorud.
fn default_folder() -> PathBuf {
    let here = env::var_os("CARGO_MANIFEST_DIR").expect("cargo sets it");
    PathBuf::from(here).join("../../target/lib")
}
