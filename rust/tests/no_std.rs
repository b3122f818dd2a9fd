//! Without its features the package needs no standard library and no allocator: a program that has neither is built with it
//! and run.
use std::path::Path;
use std::process::Command;

#[test]
fn a_program_without_std_and_alloc_is_served() {
    let folder = Path::new(env!("CARGO_TARGET_TMPDIR")).join("no_std");
    let built = Command::new(env!("CARGO"))
        .args(["build", "--release", "--offline", "--quiet"])
        .args(["--manifest-path", "tests/no_std/Cargo.toml"])
        .arg("--target-dir")
        .arg(&folder)
        .status();
    assert!(built.expect("cargo").success());
    let program = folder.join("release/no_std");
    let ran = Command::new(&program).status();
    assert!(ran.expect("the program").success(), "{}", program.display());
}
