//! Links libbolt.a: that of the folder BOLT_LIB, else of `out/unproved` or `out/proved` in the repository.

fn main() {
    println!("cargo:rerun-if-env-changed=BOLT_LIB\ncargo:rustc-link-lib=static=bolt");
    let named = std::env::var("BOLT_LIB").unwrap_or_default();
    let built = ["../out/unproved", "../out/proved"];
    let folders = if named.is_empty() { built.as_slice() } else { &[named.as_str()] };
    for folder in folders {
        // Cargo links again if the library has changed or appears.
        println!("cargo:rerun-if-changed={folder}/libbolt.a");
        // The linker may run in another folder, so it needs an absolute path.
        match std::fs::canonicalize(folder) {
            Ok(path) if path.join("libbolt.a").is_file() => {
                println!("cargo:rustc-link-search=native={}", path.display());
                return;
            }
            _ => {}
        }
    }
    if named.is_empty() {
        println!(
            "cargo:warning=there is no libbolt.a: run `scripts/build_unproved bolt_c` in the repository, or set \
             BOLT_LIB to the folder of one"
        );
    } else {
        println!(
            "cargo:warning=BOLT_LIB: there is no {named}/libbolt.a (a relative folder starts at the crate's folder); \
             `scripts/build_libbolt FOLDER` makes one"
        );
    }
}
