//! Finds the archive of the two C calls and hands it to the linker.

use std::env;
use std::path::{Path, PathBuf};
use std::process::exit;

const NAMED: &str = "CARTWHISKER_LIB";
const FILE: &str = "libcartwhisker.a";
const BUILT: &str = "../../crates/cartwhisker/out/libcartwhisker.a";

/// The archive that `CARTWHISKER_LIB` names (the file, or the folder that holds it), or else the
/// one that the repository's own build writes.
fn archive(here: &Path) -> Result<PathBuf, String> {
    let Some(named) = env::var_os(NAMED) else {
        let built = here.join(BUILT);
        return if built.is_file() { Ok(built) } else { Err(unbuilt(&built)) };
    };
    let named = PathBuf::from(named);
    let file = if named.is_dir() { named.join(FILE) } else { named };
    if !file.is_file() {
        return Err(format!("{NAMED} names no archive: there is no file {}", file.display()));
    }
    // The linker looks for it by this name.
    if file.file_name().is_some_and(|name| name == FILE) {
        Ok(file)
    } else {
        Err(format!("{NAMED} must name a {FILE} or its folder, and not {}", file.display()))
    }
}

fn unbuilt(file: &Path) -> String {
    format!(
        "the archive is not built: there is no file {}. \
         Run `rt lib` in the repository's crates/cartwhisker, \
         or let {NAMED} name a libcartwhisker.a that is built already.",
        file.display()
    )
}

fn main() {
    println!("cargo:rerun-if-env-changed={NAMED}");
    let here = PathBuf::from(env::var_os("CARGO_MANIFEST_DIR").expect("set by cargo"));
    println!("cargo:rerun-if-changed={}", here.join(BUILT).display());
    let found = archive(&here).and_then(|file| file.canonicalize().map_err(|e| e.to_string()));
    let file = match found {
        Ok(file) => file,
        Err(message) => {
            eprintln!("{message}");
            exit(1);
        }
    };
    let folder = file.parent().expect("a file has a folder");
    println!("cargo:rerun-if-changed={}", file.display());
    println!("cargo:rustc-link-search=native={}", folder.display());
    println!("cargo:rustc-link-lib=static=cartwhisker");
    // For the test that links the archive from C.
    println!("cargo:rustc-env=CARTWHISKER_ARCHIVE={}", file.display());
}
