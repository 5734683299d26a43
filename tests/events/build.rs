fn main() {
    let here = std::env::var("CARGO_MANIFEST_DIR").unwrap();
    let given = std::env::var("DISK_LIBRARY");
    for library in ["disk", "bench"] {
        let built = || format!("{here}/../../crates/{library}/out");
        let folder = given.clone().unwrap_or_else(|_| built());
        println!("cargo:rustc-link-search=native={folder}");
        println!("cargo:rustc-link-lib=static={library}");
        println!("cargo:rerun-if-changed={folder}/lib{library}.a");
    }
    println!("cargo:rerun-if-env-changed=DISK_LIBRARY");
}
