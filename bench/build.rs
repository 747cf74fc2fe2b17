//! Links the archive of the target for C, with the heap that bench/run puts beside it.

fn main() {
    let library = std::env::var("SANDBAR_LIBRARY").unwrap_or_else(|_| panic!("SANDBAR_LIBRARY is not set: call bench/run"));
    println!("cargo::rustc-link-search=native={library}");
    println!("cargo::rustc-link-lib=static=sandbarstove");
    println!("cargo::rerun-if-env-changed=SANDBAR_LIBRARY");
    println!("cargo::rerun-if-changed={library}/libsandbarstove.a");
}
