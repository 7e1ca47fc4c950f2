//! Links the monitor's archive into the binaries that call its entries, and into no other.

/// From the package's folder, in which cargo runs the build.
const ARCHIVE: &str = "../target/staticlib/libmonitor.a";
const CALLERS: [&str; 2] = ["compare", "bench"];

fn main() {
    println!("cargo:rerun-if-changed=build.rs");
    if std::env::var_os("CARGO_FEATURE_ARCHIVE").is_some() {
        println!("cargo:rerun-if-changed={ARCHIVE}");
        for caller in CALLERS {
            println!("cargo:rustc-link-arg-bin={caller}={ARCHIVE}");
        }
    }
}
