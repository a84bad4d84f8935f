//! Links the proved library. `STIR_SHARED` is a folder with `libstir.so` (`host/shared`). Without
//! it the library goes into the program: `STIR_LIB` is the folder with `libstir_c.a`, and
//! `RATTLE_C` that with Rattle's `liblibc_c.a`.
use std::env;

fn main() {
    println!("cargo:rerun-if-env-changed=STIR_SHARED");
    match env::var("STIR_SHARED") {
        Ok(folder) => link("dylib", "stir", &folder, "so"),
        Err(_) => {
            for (name, library) in [("STIR_LIB", "stir_c"), ("RATTLE_C", "libc_c")] {
                println!("cargo:rerun-if-env-changed={name}");
                let folder = env::var(name).unwrap_or_else(|_| {
                    panic!(
                        "{name}: the folder of lib{library}.a (host/check and host/build set it)"
                    )
                });
                link("static", library, &folder, "a");
            }
        }
    }
}

/// Links a library of this kind from this folder.
fn link(kind: &str, library: &str, folder: &str, ending: &str) {
    println!("cargo:rerun-if-changed={folder}/lib{library}.{ending}");
    println!("cargo:rustc-link-search=native={folder}");
    println!("cargo:rustc-link-lib={kind}={library}");
}
