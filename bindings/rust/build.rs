//! Links `liburlpattern.a`, which lies in the folder that URLPATTERN_DIR names, absolutely or from
//! the folder of this crate, or else in the first of FOLDERS that has it.
use std::path::PathBuf;
use std::{env, process};

const NAME: &str = "liburlpattern.a";

/// Where it may lie, from the folder of this crate: in the repository, where `./build` puts it; where
/// `./build` and `install.sh` put both; and in Debian.
const FOLDERS: [&str; 3] = [
    "../../dist/lib",
    "../../../lib",
    "../../../lib/x86_64-linux-gnu",
];

fn main() {
    let crate_folder = PathBuf::from(env::var_os("CARGO_MANIFEST_DIR").unwrap());
    let folders: Vec<PathBuf> = match env::var_os("URLPATTERN_DIR") {
        Some(named) => vec![crate_folder.join(named)],
        None => FOLDERS.iter().map(|it| crate_folder.join(it)).collect(),
    };
    let mut found = folders.iter().filter(|it| it.join(NAME).exists());
    let folder = found.next().unwrap_or_else(|| {
        eprintln!("{NAME} is not found in {folders:?}: URLPATTERN_DIR has to name its folder");
        process::exit(1);
    });
    println!("cargo:rustc-link-search=native={}", folder.display());
    println!("cargo:rustc-link-lib=static=urlpattern");
    println!("cargo:rerun-if-env-changed=URLPATTERN_DIR");
    println!("cargo:rerun-if-changed={}", folder.join(NAME).display());
}
