//! Links our static libraries: libprobe.a, libprobe_quad.a and libprobe_oct.a as `tools/build` leaves them, or from the folder
//! that ORACLE_PROBE names. What is called of a tree stands in a library of its own, as in the host's libraries.

fn main() {
    let here = std::env::var("CARGO_MANIFEST_DIR").expect("cargo names the package's folder");
    let usual = format!("{here}/../../target/staticlib");
    let folder = std::env::var("ORACLE_PROBE").unwrap_or(usual);
    println!("cargo:rerun-if-env-changed=ORACLE_PROBE");
    println!("cargo:rustc-link-search=native={folder}");
    for library in ["probe", "probe_quad", "probe_oct"] {
        println!("cargo:rerun-if-changed={folder}/lib{library}.a");
        println!("cargo:rustc-link-lib=static={library}");
    }
}
