//! Runs `configure`, and links the library that stands in `lib`.

fn main() {
    println!("cargo:rustc-link-search=native=lib");
    println!("cargo:rustc-link-lib=static=codec");
}
