// Links the static library from the folder in MOGTRIZ_LIB, or from where `bash build.sh` puts it.
use std::env;
use std::ffi::OsString;
use std::path;

fn main() {
    // a build script runs in its package's folder, the compiler may not
    let folder = env::var_os("MOGTRIZ_LIB").unwrap_or(OsString::from("../target/staticlib"));
    let folder = path::absolute(folder).expect("a folder for the static library");
    let archive = folder.join("libmogtriz.a");
    if !archive.exists() {
        println!(
            "cargo:warning=`bash build.sh` makes the missing {}",
            archive.display()
        );
    }
    println!("cargo:rustc-link-search=native={}", folder.display());
    println!("cargo:rustc-link-lib=static=mogtriz");
    println!("cargo:rerun-if-env-changed=MOGTRIZ_LIB");
    println!("cargo:rerun-if-changed={}", archive.display());
}
