// Links the proved archive, which `.ci/archive` writes below the repository's root.
use std::path::Path;

fn main() {
    let own = std::env::var("CARGO_MANIFEST_DIR").expect("cargo names the folder of the manifest");
    let folder = Path::new(&own).join("../../target/staticlib");
    let archive = folder.join("libvuyekhang.a");
    if !archive.exists() {
        // No error: `cargo check` needs no archive.
        println!("cargo:warning=no archive to link: run `.ci/archive` at the repository's root");
    }
    println!("cargo:rustc-link-search=native={}", folder.display());
    println!("cargo:rustc-link-lib=static=vuyekhang");
    println!("cargo:rerun-if-changed={}", archive.display());
}
