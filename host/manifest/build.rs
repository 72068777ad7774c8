//! Where the port's archives are, for a program that cargo itself links. Without the variable nothing is linked here, and
//! host/build does it.

fn main() {
    println!("cargo:rerun-if-env-changed=PORT_LIBRARY");
    if let Ok(place) = std::env::var("PORT_LIBRARY") {
        println!("cargo:rustc-link-search=native={place}");
        // Union's entry point has a crate of its own, for the prover's time.
        for name in ["exports", "exports_union"] {
            println!("cargo:rerun-if-changed={place}/lib{name}.a");
            println!("cargo:rustc-link-lib=static={name}");
        }
    }
}
