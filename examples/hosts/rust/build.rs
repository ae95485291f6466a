// Links the static library, which is in the folder that VINO_LIBRARY names.
fn main() {
    println!("cargo:rustc-link-search=native={}", std::env::var("VINO_LIBRARY").unwrap_or_default());
    println!("cargo:rustc-link-lib=static=vino_host");
    println!("cargo:rerun-if-env-changed=VINO_LIBRARY");
}
