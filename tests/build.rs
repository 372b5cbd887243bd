//! Links static libraries of proved crates. LANES_LIBRARY=FOLDER links FOLDER/liblanes_c.a, the engine's calls, and FOLDER/libfiles_c.a, its
//! look-up, and sets cfg(lanes_library), and LANES_LINKED to what was linked; a crate below it likewise, as SEARCH_LIBRARY=FOLDER with
//! FOLDER/libsearch.a. Without them the tests are built alone, and try the reference engine.

use std::env;

/// What is linked, and its libraries.
const LIBRARIES: [(&str, &[&str]); 4] =
    [("lanes", &["lanes_c", "files_c"]), ("frames", &["frames"]), ("search", &["search"]), ("pairing", &["pairing"])];

fn main() {
    for (name, libraries) in LIBRARIES {
        let variable = format!("{}_LIBRARY", name.to_uppercase());
        println!("cargo:rustc-check-cfg=cfg({name}_library)");
        println!("cargo:rerun-if-env-changed={variable}");
        if let Ok(folder) = env::var(&variable) {
            println!("cargo:rustc-link-search=native={folder}");
            println!("cargo:rustc-cfg={name}_library");
            let files: Vec<String> = libraries.iter().map(|library| format!("{folder}/lib{library}.a")).collect();
            for (library, file) in libraries.iter().zip(&files) {
                println!("cargo:rerun-if-changed={file}");
                println!("cargo:rustc-link-lib=static={library}");
            }
            println!("cargo:rustc-env={}_LINKED={}", name.to_uppercase(), files.join(" and "));
        }
    }
}
