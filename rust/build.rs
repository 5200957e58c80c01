// Says where liblu62.a lies: the directory in LU62_LIB, else lib beside this crate's directory (a package), else target/staticlib
// beside it (the repository).
use std::env;
use std::path::PathBuf;
use std::process::exit;

const ARCHIVE: &str = "liblu62.a";

fn main() {
    println!("cargo:rerun-if-env-changed=LU62_LIB");
    let beside = PathBuf::from(env::var_os("CARGO_MANIFEST_DIR").unwrap_or_default()).join("..");
    let places = match env::var_os("LU62_LIB") {
        Some(place) => vec![PathBuf::from(place)],
        None => vec![beside.join("lib"), beside.join("target").join("staticlib")],
    };
    let Some(place) = places.iter().find(|place| place.join(ARCHIVE).is_file()) else {
        eprintln!(
            "lu62: there is no {ARCHIVE} in {places:?}: build it with `package/library`, or name its directory in LU62_LIB"
        );
        exit(1);
    };
    println!("cargo:rerun-if-changed={}", place.join(ARCHIVE).display());
    println!("cargo:rustc-link-search=native={}", place.display());
    println!("cargo:rustc-link-lib=static=lu62");
}
