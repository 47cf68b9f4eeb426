//! Links liblahzavar.a from the folder that `LAHZAVAR_LIB_DIR` names, or from the repository's
//! target/staticlib. A relative folder is taken from where cargo was started, or else from this
//! crate's own folder.

use std::env;
use std::path::PathBuf;
use std::process::exit;

const NAMED: &str = "LAHZAVAR_LIB_DIR";
const BUILT: &str = "../../target/staticlib";
const ARCHIVE: &str = "liblahzavar.a";

fn main() {
    println!("cargo:rerun-if-env-changed={NAMED}");
    let folders = folders();
    let Some(found) = folders.iter().find(|folder| folder.join(ARCHIVE).is_file()) else {
        not_found(&folders);
    };
    let folder = found.canonicalize().unwrap_or_else(|_| found.clone());
    println!("cargo:rerun-if-changed={}", folder.join(ARCHIVE).display());
    println!("cargo:rustc-link-search=native={}", folder.display());
    println!("cargo:rustc-link-lib=static=lahzavar");
}

/// Where to look, in this order.
fn folders() -> Vec<PathBuf> {
    // Cargo runs this program in the crate's own folder.
    let own = env::current_dir().unwrap_or_default();
    match env::var_os(NAMED).filter(|named| !named.is_empty()).map(PathBuf::from) {
        None => vec![own.join(BUILT)],
        Some(named) if named.is_absolute() => vec![named],
        Some(named) => {
            // A shell names the folder in which cargo was started.
            println!("cargo:rerun-if-env-changed=PWD");
            let started = env::var_os("PWD").map(PathBuf::from).filter(|place| *place != own);
            started.into_iter().chain([own]).map(|place| place.join(&named)).collect()
        }
    }
}

fn not_found(folders: &[PathBuf]) -> ! {
    eprintln!("there is no {ARCHIVE}. It was looked for in");
    for folder in folders {
        eprintln!("    {}", folder.display());
    }
    eprintln!(
        "`make` or `tools/proved lahzavar` in the repository builds it, in target/staticlib."
    );
    eprintln!("Where it stands elsewhere, the environment variable {NAMED} names the folder.");
    exit(1);
}
