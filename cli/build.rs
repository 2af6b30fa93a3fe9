//! Where the proved static library is, and the identity of the toolchain that this build is made with.
use std::path::Path;
use std::process::Command;

fn toolchain() -> Option<String> {
    let output = Command::new("rt").arg("version").output().ok().filter(|output| output.status.success())?;
    let line = String::from_utf8(output.stdout).ok()?;
    line.lines().next().map(str::to_owned)
}

fn find_library() {
    let folder = Path::new(env!("CARGO_MANIFEST_DIR")).join("../target/staticlib");
    println!("cargo:rustc-link-search=native={}", folder.display());
    println!("cargo:rerun-if-changed={}", folder.join("libc_interface.a").display());
}

fn main() {
    println!("cargo:rerun-if-changed=build.rs");
    if std::env::var_os("CARGO_FEATURE_PROGRAMS").is_none() {
        find_library();
    }
    let identity = toolchain().unwrap_or("unknown (no rt on the path)".into());
    println!("cargo:rustc-env=TICKBOUND_TOOLCHAIN={identity}");
}
