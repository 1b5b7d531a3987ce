//! Links the libraries of both trees as `tools/build quadtree octree` leaves them, or from the folder that
//! RALIKUDO_LIBRARY names.

fn main() {
    let here = std::env::var("CARGO_MANIFEST_DIR").expect("cargo names the package's folder");
    let usual = format!("{here}/../../target/staticlib");
    let folder = std::env::var("RALIKUDO_LIBRARY").unwrap_or(usual);
    println!("cargo:rerun-if-env-changed=RALIKUDO_LIBRARY");
    println!("cargo:rustc-link-search=native={folder}");
    for tree in ["quadtree", "octree"] {
        println!("cargo:rerun-if-changed={folder}/lib{tree}.a");
        println!("cargo:rustc-link-lib=static={tree}");
    }
}
