//! Links the port's archive, in the folder that PORT_LIB names, where the feature `port` is on.
fn main() {
    println!("cargo:rerun-if-env-changed=PORT_LIB");
    if std::env::var_os("CARGO_FEATURE_PORT").is_some() {
        let folder = std::env::var("PORT_LIB").expect("PORT_LIB is the folder of libbench.a");
        println!("cargo:rerun-if-changed={folder}/libbench.a");
        println!("cargo:rustc-link-search=native={folder}");
        println!("cargo:rustc-link-lib=static=bench");
    }
}
