//! Where the static libraries are: of the analyser, and of the functions for tests.
fn main() {
    let root = std::path::Path::new(env!("CARGO_MANIFEST_DIR")).join("../target/staticlib");
    println!("cargo:rustc-link-search=native={}", root.display());
    for library in ["libc_interface.a", "libtest_interrupts.a"] {
        println!("cargo:rerun-if-changed={}", root.join(library).display());
    }
}
