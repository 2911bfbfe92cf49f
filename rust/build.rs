//! Points the linker at the static library of the proved bench, `target/staticlib/libembed.a`
//! of the repository. `ci/library` at the repository's top makes it. Under the feature
//! `engines` the benchmark of the CRC engines takes `libengines.a` beside it, which `ci/library engines` makes.

use std::env;
use std::path::Path;
use std::process::exit;

const LIBRARY: &str = "embed";

fn main() {
    let package = env::var("CARGO_MANIFEST_DIR").expect("cargo names the package's folder");
    let folder = Path::new(&package).join("../target/staticlib");
    let library = folder.join(format!("lib{LIBRARY}.a"));
    println!("cargo:rerun-if-changed={}", library.display());
    if !library.exists() {
        eprintln!(
            "{library:?} is missing: run `ci/library {LIBRARY}` at the repository's top first"
        );
        exit(1);
    }
    println!("cargo:rustc-link-search=native={}", folder.display());
    println!("cargo:rustc-link-lib=static={LIBRARY}");
    if env::var_os("CARGO_FEATURE_ENGINES").is_some() {
        let engines = folder.join("libengines.a");
        println!("cargo:rerun-if-changed={}", engines.display());
        println!("cargo:rustc-link-arg-bin=crc={}", engines.display());
    }
}
