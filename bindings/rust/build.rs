//! Links the proved archive: `ARIES_LIB` names the folder of `libaries_c.a`.

fn main() {
    println!("cargo:rerun-if-env-changed=ARIES_LIB");
    let folder = std::env::var("ARIES_LIB").expect("ARIES_LIB names the folder of libaries_c.a");
    println!("cargo:rerun-if-changed={folder}/libaries_c.a");
    println!("cargo:rustc-link-search=native={folder}");
    println!("cargo:rustc-link-lib=static=aries_c");
}
