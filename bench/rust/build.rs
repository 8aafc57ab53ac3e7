//! The program `measure` links libhead.a from the folder that HEAD_LIB names.

fn main() {
    println!("cargo:rerun-if-env-changed=HEAD_LIB");
    if std::env::var_os("CARGO_FEATURE_HEAD").is_some() {
        let folder = std::env::var("HEAD_LIB").expect("HEAD_LIB: the folder of libhead.a");
        println!("cargo:rerun-if-changed={folder}/libhead.a");
        println!("cargo:rustc-link-arg-bin=measure={folder}/libhead.a");
    }
}
