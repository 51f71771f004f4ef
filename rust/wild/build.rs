//! Links two archives: `libwild_c.a`, which `./build --library` makes, and the toolchain's `liblibc_c.a`. `WILD_LIB` and `WILD_KIT` name
//! their folders; without them the folders are those of this checkout, and of the `rt` on the path.
use std::env;
use std::path::PathBuf;

/// The folder of the toolchain's archive, beside that of the command `rt`.
fn kit() -> Option<PathBuf> {
    let path = env::var_os("PATH")?;
    let command = env::split_paths(&path).map(|folder| folder.join("rt")).find(|command| command.exists())?;
    Some(command.canonicalize().ok()?.parent()?.parent()?.join("c"))
}

fn main() {
    let here = PathBuf::from(env::var_os("CARGO_MANIFEST_DIR").unwrap());
    let library = env::var_os("WILD_LIB").map_or_else(|| here.join("../../crates/wild_c/out"), PathBuf::from);
    let heap = env::var_os("WILD_KIT").map(PathBuf::from).or_else(kit).unwrap_or_else(|| library.clone());
    println!("cargo::rerun-if-env-changed=WILD_LIB");
    println!("cargo::rerun-if-env-changed=WILD_KIT");
    for (name, folder) in [("wild_c", library), ("libc_c", heap)] {
        println!("cargo::rerun-if-changed={}/lib{name}.a", folder.display());
        println!("cargo::rustc-link-search=native={}", folder.display());
        println!("cargo::rustc-link-lib=static={name}");
    }
}
