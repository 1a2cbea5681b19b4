//! Links bench/gmp.c, which the script `run` compiles into the folder GMP_CONTENDER, and GMP.

fn main() {
    println!("cargo:rerun-if-env-changed=GMP_CONTENDER");
    let folder = std::env::var("GMP_CONTENDER").expect("bench/run sets GMP_CONTENDER");
    println!("cargo:rerun-if-changed={folder}/libgmpcontender.a");
    println!("cargo:rustc-link-search=native={folder}");
    println!("cargo:rustc-link-lib=static=gmpcontender");
    println!("cargo:rustc-link-lib=gmp");
}
