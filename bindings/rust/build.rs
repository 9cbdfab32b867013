//! Where the archive is: the folder that `SEDVOKT_LIB` says, or else the one that pkg-config tells.

use std::env;
use std::process::Command;

fn main() {
    println!("cargo:rerun-if-env-changed=SEDVOKT_LIB");
    println!("cargo:rerun-if-env-changed=PKG_CONFIG_PATH");
    println!("cargo:rustc-link-lib=static=sedvokt");
    if let Some(folder) = env::var("SEDVOKT_LIB").ok().or_else(installed) {
        println!("cargo:rustc-link-search=native={folder}");
    }
}

/// The folder of the installed archive.
fn installed() -> Option<String> {
    let told = Command::new("pkg-config")
        .args(["--variable=libdir", "sedvokt"])
        .output()
        .ok()?;
    let folder = String::from_utf8(told.stdout).ok()?;
    told.status.success().then(|| folder.trim().to_owned())
}
