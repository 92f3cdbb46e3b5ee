//! Finds libmmdb and tells cargo how to link it.
//!
//! The folder of the library is `MMDB_LIB_DIR`, or else the one that pkg-config knows, or else one of the linker's. With `MMDB_STATIC=1`
//! the archive libmmdb.a becomes part of the program; without it, the program loads libmmdb.so when it starts.

use std::env;
use std::path::{Path, PathBuf};
use std::process::{exit, Command};

const HELP: &str = "Do one of these:
  - install it with `tools/install PREFIX` of mmdb's repository, and set PKG_CONFIG_PATH=PREFIX/lib/pkgconfig
  - set MMDB_LIB_DIR to the folder that has libmmdb.so and libmmdb.a
With MMDB_STATIC=1 libmmdb.a becomes part of the program; without it, the program loads libmmdb.so, which LD_LIBRARY_PATH or the system
must lead to.";

/// The folders that the linker searches by default.
const SYSTEM_FOLDERS: [&str; 6] =
    ["/usr/local/lib", "/usr/lib", "/usr/lib64", "/usr/lib/x86_64-linux-gnu", "/lib", "/lib64"];

fn main() {
    for variable in ["MMDB_LIB_DIR", "MMDB_STATIC", "PKG_CONFIG", "PKG_CONFIG_PATH", "LIBRARY_PATH"] {
        println!("cargo:rerun-if-env-changed={variable}");
    }
    println!("cargo:rerun-if-changed=build.rs");
    if env::var_os("DOCS_RS").is_some() {
        return;
    }
    let is_static = env::var("MMDB_STATIC").as_deref() == Ok("1");
    let file = if is_static { "libmmdb.a" } else { "libmmdb.so" };
    let folders = folders();
    let folder = folders.iter().find(|folder| folder.join(file).is_file()).unwrap_or_else(|| {
        eprintln!("libmmdb was not found: {file} is in none of {folders:?}.\n{HELP}");
        exit(1);
    });
    println!("cargo:rerun-if-changed={}", folder.join(file).display());
    println!("cargo:rustc-link-search=native={}", folder.display());
    println!("cargo:rustc-link-lib={}=mmdb", if is_static { "static" } else { "dylib" });
}

/// Returns the folders in which the library may be, the first choice first. If `MMDB_LIB_DIR` is set, there is no other.
fn folders() -> Vec<PathBuf> {
    if let Some(folder) = env::var_os("MMDB_LIB_DIR") {
        return vec![PathBuf::from(folder)];
    }
    let mut folders = folders_of_pkg_config();
    if let Some(path) = env::var_os("LIBRARY_PATH") {
        folders.extend(env::split_paths(&path));
    }
    folders.extend(SYSTEM_FOLDERS.iter().map(|folder| Path::new(folder).to_path_buf()));
    folders
}

/// Returns the folders that `pkg-config --libs mmdb` names, or none if there is no pkg-config or it does not know mmdb.
fn folders_of_pkg_config() -> Vec<PathBuf> {
    let program = env::var_os("PKG_CONFIG").unwrap_or_else(|| "pkg-config".into());
    let output = Command::new(program).args(["--libs", "mmdb"]).env("PKG_CONFIG_ALLOW_SYSTEM_LIBS", "1").output();
    match output {
        Ok(output) if output.status.success() => String::from_utf8_lossy(&output.stdout)
            .split_whitespace()
            .filter_map(|word| word.strip_prefix("-L"))
            .map(PathBuf::from)
            .collect(),
        _ => Vec::new(),
    }
}
