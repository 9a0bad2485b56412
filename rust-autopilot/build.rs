//! Links the proved library as tools/native-archive writes it: from the folder $AUTOPILOT_LIB, else from the
//! repository's target/native.

use std::env;
use std::path::PathBuf;

fn main() {
    let repository =
        PathBuf::from(env::var("CARGO_MANIFEST_DIR").expect("cargo names the package's folder")).join("..");
    let folder = env::var_os("AUTOPILOT_LIB").map_or_else(|| repository.join("target/native"), PathBuf::from);
    let archive = folder.join("libautopilot.a");
    println!("cargo:rerun-if-env-changed=AUTOPILOT_LIB");
    println!("cargo:rerun-if-changed={}", archive.display());
    if !archive.is_file() {
        panic!("no {}: tools/native-archive autopilot makes it", archive.display());
    }
    println!("cargo:rustc-link-search=native={}", folder.display());
    println!("cargo:rustc-link-lib=static=autopilot");
}
