//! Links libcapt.a, from the folder that the environment's CAPT_LIB_DIR names. A relative name is taken from the folder in
//! which cargo was called, else from those above the build, where the workspace is, else from this crate's.
use std::env::var_os;
use std::path::{Path, PathBuf};

fn main() {
    println!("cargo:rerun-if-env-changed=CAPT_LIB_DIR");
    let Some(named) = var_os("CAPT_LIB_DIR").map(PathBuf::from) else {
        stop("CAPT_LIB_DIR isn't set: it names the folder of libcapt.a, as ./build.sh lib leaves it");
    };
    let folders = folders_of(&named);
    let Some(folder) = folders.iter().find(|folder| folder.join("libcapt.a").is_file()) else {
        let tried: Vec<_> = folders.iter().map(|folder| folder.display().to_string()).collect();
        stop(&format!("CAPT_LIB_DIR is {}: there is no libcapt.a in {}", named.display(), tried.join(", nor in ")));
    };
    println!("cargo:rerun-if-changed={}", folder.join("libcapt.a").display());
    println!("cargo:rustc-link-search=native={}", folder.display());
    println!("cargo:rustc-link-lib=static=capt");
}

/// The folders that a name may mean, the likeliest first.
fn folders_of(named: &Path) -> Vec<PathBuf> {
    if named.is_absolute() {
        return vec![named.to_path_buf()];
    }
    println!("cargo:rerun-if-env-changed=PWD");
    let here = var_os("PWD").map(PathBuf::from);
    let out = var_os("OUT_DIR").map(PathBuf::from).unwrap_or_default();
    let above = out.ancestors().filter(|folder| folder.join("Cargo.toml").is_file()).map(Path::to_path_buf);
    let own = std::env::current_dir().ok();
    let mut folders = Vec::new();
    for folder in here.into_iter().chain(above).chain(own) {
        let folder = folder.join(named);
        if !folders.contains(&folder) {
            folders.push(folder);
        }
    }
    folders
}

fn stop(why: &str) -> ! {
    eprintln!("error: {why}");
    std::process::exit(1)
}
