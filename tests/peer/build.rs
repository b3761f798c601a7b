//! Links the static libraries in the folder that JALOOSEWIN_LIBS names.

fn main() {
    println!("cargo:rerun-if-env-changed=JALOOSEWIN_LIBS");
    let Ok(folder) = std::env::var("JALOOSEWIN_LIBS") else { return };
    println!("cargo:rustc-link-search=native={folder}");
    for name in ["jaloosewin", "testing"] {
        println!("cargo:rustc-link-lib=static={name}");
        println!("cargo:rerun-if-changed={folder}/lib{name}.a");
    }
}
