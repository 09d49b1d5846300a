//! Says where the planner's library is: in the folder that CLOCK_API_LIB names, else where the project leaves it. For an Arm target that is
//! one of the archives for Cortex-M33 in target/firmware, and otherwise target/staticlib/libclock_api.a.
use std::env;
use std::path::PathBuf;

fn main() {
    println!("cargo:rerun-if-env-changed=CLOCK_API_LIB");
    let target = env::var("TARGET").unwrap_or_default();
    let (folder, name) = match (env::var("CARGO_CFG_TARGET_ARCH").as_deref(), target.ends_with("eabihf")) {
        (Ok("arm"), false) => ("firmware", "clock_api-cortex-m33"),
        (Ok("arm"), true) => ("firmware", "clock_api-cortex-m33-hard"),
        _ => ("staticlib", "clock_api"),
    };
    let beside = || PathBuf::from(env!("CARGO_MANIFEST_DIR")).join("../../target").join(folder);
    let folder = env::var_os("CLOCK_API_LIB").map_or_else(beside, PathBuf::from);
    let library = folder.join(format!("lib{name}.a"));
    println!("cargo:rerun-if-changed={}", library.display());
    if !library.is_file() {
        println!("cargo:warning=no {}: CLOCK_API_LIB says which folder has it", library.display());
    }
    println!("cargo:rustc-link-search=native={}", folder.display());
    println!("cargo:rustc-link-lib=static:-bundle={name}");
}
