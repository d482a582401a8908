//! Links the proved library, from the folder that `run` names.
fn main() {
    println!("cargo:rerun-if-env-changed=FIRMESKAL_LIBRARY");
    let folder = std::env::var("FIRMESKAL_LIBRARY").expect("FIRMESKAL_LIBRARY names the folder of libscript.a; start `run`");
    println!("cargo:rerun-if-changed={folder}/libscript.a");
    println!("cargo:rustc-link-search=native={folder}");
    println!("cargo:rustc-link-lib=static=script");
}
