//! What `--version` says of the build.

use std::env;
use std::process::Command;

fn main() {
    println!("cargo:rerun-if-env-changed=GROOVEPAWN_KIT");
    let kit = env::var("GROOVEPAWN_KIT").unwrap_or_else(|_| "not named".to_string());
    let target = env::var("TARGET").unwrap_or_default();
    println!("cargo:rustc-env=DESK_KIT={}", kit.trim());
    println!("cargo:rustc-env=DESK_BUILT={} for {target}", compiler());
}

/// The compiler's name and version.
fn compiler() -> String {
    let rustc = env::var_os("RUSTC").unwrap_or_else(|| "rustc".into());
    match Command::new(rustc).arg("--version").output() {
        Ok(said) => String::from_utf8_lossy(&said.stdout).trim().to_string(),
        Err(_) => "a Rust compiler".to_string(),
    }
}
