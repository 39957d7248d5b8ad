//! Finds libamqp1.a: in the folder that AMQP1_LIB_DIR names, else where pkg-config says.

use std::path::Path;
use std::process::Command;

/// The folder that pkg-config names, as `tools/build_c.sh` writes its file.
fn by_pkg_config() -> Option<String> {
    let told = Command::new("pkg-config").args(["--variable=libdir", "amqp1"]).output().ok()?;
    let folder = String::from_utf8(told.stdout).ok()?.trim().to_owned();
    (told.status.success() && !folder.is_empty()).then_some(folder)
}

fn main() {
    println!("cargo:rerun-if-env-changed=AMQP1_LIB_DIR");
    println!("cargo:rerun-if-env-changed=PKG_CONFIG_PATH");
    let Some(folder) = std::env::var("AMQP1_LIB_DIR").ok().or_else(by_pkg_config) else {
        panic!("no libamqp1.a: set AMQP1_LIB_DIR to PREFIX/lib, or PKG_CONFIG_PATH to PREFIX/lib/pkgconfig");
    };
    let archive = Path::new(&folder).join("libamqp1.a");
    assert!(archive.exists(), "there is no {}", archive.display());
    println!("cargo:rerun-if-changed={}", archive.display());
    println!("cargo:rustc-link-search=native={folder}");
    println!("cargo:rustc-link-lib=static=amqp1");
}
