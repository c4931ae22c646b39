// Links the product: a static library named `exports` in the folder that the
// environment variable GELFOST_LIB_DIR names. Without it the build stops, so
// that no test can pass by chance.
fn main() {
    println!("cargo:rerun-if-changed=build.rs");
    println!("cargo:rerun-if-env-changed=GELFOST_LIB_DIR");
    let Ok(folder) = std::env::var("GELFOST_LIB_DIR") else {
        panic!("name the folder of libexports.a in GELFOST_LIB_DIR");
    };
    println!("cargo:rerun-if-changed={folder}/libexports.a");
    println!("cargo:rustc-link-search=native={folder}");
    println!("cargo:rustc-link-lib=static=exports");
}
