//! Links the proved reader's static library, if `READER_LIBRARY` names one: files apart by `:`, in the linker's order.

fn main() {
    println!("cargo:rerun-if-env-changed=READER_LIBRARY");
    println!("cargo:rustc-check-cfg=cfg(reader_library)");
    let files = std::env::var("READER_LIBRARY").unwrap_or_default();
    for file in files.split(':').filter(|file| !file.is_empty()) {
        let file = std::fs::canonicalize(file).unwrap_or_else(|e| panic!("{}: {}", file, e));
        println!("cargo:rerun-if-changed={}", file.display());
        println!("cargo:rustc-link-arg={}", file.display());
        println!("cargo:rustc-cfg=reader_library");
    }
}
