//! Tells a program of tests/ where libmoortangle.a is; its library and the tests of that do without it.

fn main() {
    println!("cargo:rustc-check-cfg=cfg(library_given)");
    println!("cargo:rerun-if-env-changed=MOORTANGLE_LIB_DIR");
    let Ok(folder) = std::env::var("MOORTANGLE_LIB_DIR") else {
        return;
    };
    let archive = std::path::Path::new(&folder).join("libmoortangle.a");
    assert!(archive.is_file(), "MOORTANGLE_LIB_DIR is given, but there is no {}", archive.display());
    let folder = std::path::absolute(&folder).expect("the folder's path can be made absolute");
    println!("cargo:rerun-if-changed={}", archive.display());
    println!("cargo:rustc-link-search=native={}", folder.display());
    println!("cargo:rustc-cfg=library_given");
}
