// The static library is linked by `mogtriz`; ISA-L is Debian's.
fn main() {
    println!("cargo:rustc-link-lib=dylib=isal");
    println!("cargo:rerun-if-changed=build.rs");
}
