// Links the static library that `tools/build tunesaturn` writes.
fn main() {
    let root = std::path::Path::new(env!("CARGO_MANIFEST_DIR")).parent().unwrap();
    let folder = root.join("target/staticlib");
    println!("cargo:rustc-link-search=native={}", folder.display());
    println!("cargo:rustc-link-lib=static=tunesaturn");
    println!("cargo:rerun-if-changed={}", folder.join("libtunesaturn.a").display());
}
