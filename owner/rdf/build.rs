//! Links libraptor2, found by pkg-config.

fn main() {
    if let Err(error) = pkg_config::probe_library("raptor2") {
        println!("cargo::error=libraptor2 is not to be found (Debian: libraptor2-dev): {error}");
    }
}
