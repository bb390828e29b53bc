//! Links `libdimetumble.a`. The project's script `tools/native-archive` says where it is, and makes it first where it must; the environment
//! variable `DIMETUMBLE_ARCHIVE_DIR` names the folder (its whole path) of one that is made already, and then no toolchain but Rust's is needed.

use std::env;
use std::path::Path;
use std::process::{Command, Stdio};

fn main() {
    let here = env::var("CARGO_MANIFEST_DIR").expect("cargo sets CARGO_MANIFEST_DIR");
    let root = Path::new(&here).join("../..");
    let script = root.join("tools/native-archive");
    println!("cargo:rerun-if-env-changed=DIMETUMBLE_ARCHIVE_DIR");
    if env::var_os("DIMETUMBLE_ARCHIVE_DIR").is_none() {
        println!("cargo:rerun-if-changed={}", root.join("crates").display());
        println!("cargo:rerun-if-changed={}", root.join("crates.txt").display());
    }
    println!("cargo:rerun-if-changed={}", script.display());

    let run = Command::new(&script).stderr(Stdio::inherit()).output();
    let run = run.unwrap_or_else(|e| panic!("{}: {e}", script.display()));
    if !run.status.success() {
        panic!("{} gave no archive ({})", script.display(), run.status);
    }
    let folder = String::from_utf8(run.stdout).expect("the folder's name is UTF-8");
    let folder = folder.trim_end();
    println!("cargo:rerun-if-changed={folder}/libdimetumble.a");
    println!("cargo:rustc-link-search=native={folder}");
    println!("cargo:rustc-link-lib=static=dimetumble");
}
