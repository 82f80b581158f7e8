//! Links the proved host edge, the static library of the crate `edge_c`, which
//! `bin/build` puts into target/staticlib. The archive of the crate `trial` lies
//! in the same folder: only one test links it, and is told here whether it is
//! there.

use std::path::Path;

/// Where the repository keeps the archive, from this package on.
const ARCHIVE: &str = "../target/staticlib/libedge.a";

/// Functions that not every archive has, and what is set where one has it.
const FUNCTIONS: [(&str, &str, &str); 3] = [
    ("libedge.a", "y86_replay_set", "edge_set"),
    ("libedge.a", "y86_replay_split", "edge_split"),
    ("libtrial.a", "trial_split_fetch", "trial_split"),
];

fn main() {
    let package = std::env::var_os("CARGO_MANIFEST_DIR").expect("cargo names the package");
    let archive = Path::new(&package).join(ARCHIVE);
    let folder = archive.parent().expect("an archive lies in a folder");
    println!("cargo::rerun-if-changed={}", folder.display());
    if !archive.is_file() {
        println!(
            "cargo::error=the proved host edge is not built: \
             target/staticlib/libedge.a is missing. \
             Run `bin/build` at the root of the repository, which makes it"
        );
        return;
    }
    println!("cargo::rustc-check-cfg=cfg(trial_archive)");
    if folder.join("libtrial.a").is_file() {
        println!("cargo::rustc-cfg=trial_archive");
    }
    for (archive, function, set) in FUNCTIONS {
        println!("cargo::rustc-check-cfg=cfg({set})");
        if has_function(&folder.join(archive), function) {
            println!("cargo::rustc-cfg={set}");
        }
    }
    println!("cargo::rustc-link-search=native={}", folder.display());
    println!("cargo::rustc-link-lib=static=edge");
}

/// Whether an archive names a function, between two bytes that are 0.
fn has_function(archive: &Path, name: &str) -> bool {
    let bytes = std::fs::read(archive).unwrap_or_default();
    let named = [b"\0", name.as_bytes(), b"\0"].concat();
    bytes.windows(named.len()).any(|part| part == named)
}
