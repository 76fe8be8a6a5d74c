//! Links libmarlinfold.a from the folder that MARLINFOLD_LIB names.

fn main() {
    println!("cargo:rerun-if-env-changed=MARLINFOLD_LIB");
    let Ok(folder) = std::env::var("MARLINFOLD_LIB") else {
        eprintln!("set MARLINFOLD_LIB to the folder of libmarlinfold.a");
        std::process::exit(1);
    };
    println!("cargo:rerun-if-changed={folder}/libmarlinfold.a");
    println!("cargo:rustc-link-search=native={folder}");
    println!("cargo:rustc-link-lib=static=marlinfold");
}
