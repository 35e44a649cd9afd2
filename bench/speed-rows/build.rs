//! Links the proved reader's archive, which `bench/speed` has built.

fn main() {
    let folder = std::env::var("TREVOSKEL_ARCHIVE").expect("TREVOSKEL_ARCHIVE: use bench/speed");
    println!("cargo:rerun-if-env-changed=TREVOSKEL_ARCHIVE");
    println!("cargo:rerun-if-changed={folder}/libtrevoskel.a");
    println!("cargo:rustc-link-search=native={folder}");
    println!("cargo:rustc-link-lib=static=trevoskel");
}
