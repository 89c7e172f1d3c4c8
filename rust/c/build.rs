//! Programs look for the shared library by a name with its major version.

fn main() {
    if std::env::var("CARGO_CFG_TARGET_OS").as_deref() == Ok("linux") {
        println!("cargo::rustc-cdylib-link-arg=-Wl,-soname,libbitpacking.so.{}", env!("CARGO_PKG_VERSION_MAJOR"));
    }
    println!("cargo::rerun-if-changed=build.rs");
}
