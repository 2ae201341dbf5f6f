//! Links the static library of the calls that are compared, from the folder that `OURS` names.
fn main() {
    println!("cargo:rerun-if-env-changed=OURS");
    let folder = std::env::var("OURS").expect("OURS: the folder of the static library");
    println!("cargo:rerun-if-changed={folder}");
    println!("cargo:rustc-link-search=native={folder}");
    println!("cargo:rustc-link-lib=static=bench_exports");
    println!("cargo:rustc-link-lib=static=libc_c");
}
