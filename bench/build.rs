//! Links what a user might pick instead, where BENCH_OTHERS names the folder that has it.

fn main() {
    println!("cargo:rustc-check-cfg=cfg(others)");
    println!("cargo:rerun-if-env-changed=BENCH_OTHERS");
    if let Ok(folder) = std::env::var("BENCH_OTHERS") {
        println!("cargo:rerun-if-changed={folder}/libothers.a");
        println!("cargo:rustc-link-search=native={folder}");
        println!("cargo:rustc-link-lib=static=others");
        println!("cargo:rustc-link-lib=stdc++");
        println!("cargo:rustc-cfg=others");
    }
}
