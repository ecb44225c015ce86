//! Links the static libraries asked for, of the repository or of the folder that
//! ENROL_STATICLIB names.

use std::env;
use std::path::PathBuf;

fn main() {
    println!("cargo:rerun-if-env-changed=ENROL_STATICLIB");
    let root = PathBuf::from(env!("CARGO_MANIFEST_DIR")).join("..");
    let folder = env::var_os("ENROL_STATICLIB").map(PathBuf::from);
    let folder = root.join(folder.unwrap_or_else(|| "target/staticlib".into()));
    println!("cargo:rustc-link-search=native={}", folder.display());
    for (asked, name) in [("CARGO_FEATURE_ENROL", "enrol"), ("CARGO_FEATURE_MEASURE", "measure")] {
        if env::var_os(asked).is_some() {
            let library = folder.join(format!("lib{name}.a"));
            assert!(library.is_file(), "no {}: `tools/staticlib {name}` writes it", library.display());
            println!("cargo:rerun-if-changed={}", library.display());
            println!("cargo:rustc-link-lib=static={name}");
        }
    }
}
