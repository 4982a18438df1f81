//! Links the proved library, a static archive. `GROOVEPAWN_LIB` names another one.

use std::env;
use std::path::PathBuf;

const DEFAULT_LIBRARY: &str = "../../target/staticlib/libgroovepawn.a";

fn main() {
    println!("cargo:rerun-if-env-changed=GROOVEPAWN_LIB");
    let library = library_path();
    println!("cargo:rerun-if-changed={}", library.display());
    let Ok(library) = library.canonicalize() else {
        panic!(
            "{} is not there: `make library` makes it, or GROOVEPAWN_LIB names it",
            library.display()
        );
    };
    let (Some(folder), Some(name)) = (library.parent(), library.file_name()) else {
        panic!("{} is no archive", library.display());
    };
    println!("cargo:rustc-link-search=native={}", folder.display());
    println!(
        "cargo:rustc-link-lib=static:+verbatim={}",
        name.to_string_lossy()
    );
}

fn library_path() -> PathBuf {
    match env::var_os("GROOVEPAWN_LIB") {
        Some(path) => PathBuf::from(path),
        None => {
            let here = env::var_os("CARGO_MANIFEST_DIR").expect("cargo sets CARGO_MANIFEST_DIR");
            PathBuf::from(here).join(DEFAULT_LIBRARY)
        }
    }
}
