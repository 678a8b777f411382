// Links the bench's archive: libapi.a in the folder that BENCH_ARCHIVE names; else, where this crate was installed (tools/install), the archive that was installed with it; else the one
// that tools/host-archive builds in the tree.
fn main() {
    println!("cargo:rerun-if-env-changed=BENCH_ARCHIVE");
    let here = std::env::var("CARGO_MANIFEST_DIR").unwrap();
    let installed = std::path::Path::new(&here).join("../installed").exists();
    let (folder, name) = match std::env::var("BENCH_ARCHIVE") {
        Ok(folder) => (folder, "api"),
        Err(_) if installed => (format!("{here}/../../../lib"), "mass_bench"),
        Err(_) => (format!("{here}/../../crates/api/out"), "api"),
    };
    println!("cargo:rerun-if-changed={folder}/lib{name}.a");
    println!("cargo:rustc-link-search=native={folder}");
    println!("cargo:rustc-link-lib=static={name}");
}
