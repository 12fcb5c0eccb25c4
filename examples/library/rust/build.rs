//! Links the library that is installed under `BYZLAB_PREFIX`.
fn main() {
    println!("cargo:rerun-if-env-changed=BYZLAB_PREFIX");
    if let Ok(prefix) = std::env::var("BYZLAB_PREFIX") {
        println!("cargo:rustc-link-search=native={prefix}/lib");
    }
    println!("cargo:rustc-link-lib=static=byzlab");
}
