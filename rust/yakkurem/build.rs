// Links target/staticlib/libstation.a, which `tools/build station` makes; YAKKUREM_LIB names another directory.
fn main() {
    println!("cargo:rerun-if-env-changed=YAKKUREM_LIB");
    let directory = std::env::var("YAKKUREM_LIB")
        .unwrap_or_else(|_| format!("{}/../../target/staticlib", std::env::var("CARGO_MANIFEST_DIR").unwrap()));
    println!("cargo:rerun-if-changed={directory}/libstation.a");
    println!("cargo:rustc-link-search=native={directory}");
    println!("cargo:rustc-link-lib=static=station");
}
