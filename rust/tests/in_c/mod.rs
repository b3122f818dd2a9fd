//! Programs in C that include the header.
use std::fs;
use std::path::Path;
use std::process::Command;

pub const HEADER: &str = concat!(env!("CARGO_MANIFEST_DIR"), "/../include/mogtriz.h");

/// What a program prints whose `main` has these lines. It is not linked with the library.
pub fn printed_by(name: &str, lines: &str) -> String {
    let folder = Path::new(env!("CARGO_TARGET_TMPDIR"));
    let (source, made) = (folder.join(format!("{name}.c")), folder.join(name));
    let program = format!(
        "#include <stdio.h>\n#include \"{HEADER}\"\nint main(void)\n{{\n{lines}    return 0;\n}}\n"
    );
    fs::write(&source, program).expect("a place for the program in C");
    let compiled = Command::new("cc")
        .arg(&source)
        .arg("-o")
        .arg(&made)
        .status();
    assert!(compiled.expect("cc").success(), "{}", source.display());
    let printed = Command::new(&made).output().expect("the program in C");
    String::from_utf8(printed.stdout).expect("text")
}
