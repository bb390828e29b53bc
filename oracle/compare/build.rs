// Links the archive of the proved functions: DIMETUMBLE_ARCHIVE_DIR names the folder that holds libdimetumble.a.
fn main() {
    println!("cargo:rerun-if-env-changed=DIMETUMBLE_ARCHIVE_DIR");
    let folder = std::env::var("DIMETUMBLE_ARCHIVE_DIR").expect("DIMETUMBLE_ARCHIVE_DIR names no folder: start through oracle/run");
    println!("cargo:rerun-if-changed={folder}/libdimetumble.a");
    println!("cargo:rustc-link-search=native={folder}");
    println!("cargo:rustc-link-lib=static=dimetumble");
}
