//! The version and the layouts of the C interface: each struct of include/mogtriz.h has in C the size, the fields and their places
//! that it has in `raw`, and the header has no other.
mod in_c;

use mogtriz::raw::{
    Carried, Converted, PairsFound, Part, PlanChecked, ReadOut, Repairs, Session, Started, Stepped,
    Written,
};
use std::fmt::Write;
use std::fs;
use std::mem::{offset_of, size_of};

/// A line for a struct and one for each field. The pattern names every field, or it is no Rust.
macro_rules! layout {
    ($name:literal $of:ident { $($field:ident),* }) => {{
        let _: fn($of) = |$of { $($field: _),* }| ();
        let mut lines = format!("{} size {}\n", $name, size_of::<$of>());
        $(
            let (place, size) = (offset_of!($of, $field), size_of_field(|of: &$of| &of.$field));
            let field = stringify!($field);
            lines += &format!("{}.{field} at {place} size {size}\n", $name);
        )*
        lines
    }};
}

fn size_of_field<Of, Field>(_: fn(&Of) -> &Field) -> usize {
    size_of::<Field>()
}

/// In the order of the header.
fn layouts_in_rust() -> String {
    [
        format!("version {}\n", mogtriz::version()),
        layout!("mogtriz_session" Session { family, k, len, steps, live, reads }),
        layout!("mogtriz_started" Started { refusal, session }),
        layout!("mogtriz_written" Written { refusal, length, session }),
        layout!("mogtriz_read_out_answer" ReadOut { refusal, block, session }),
        layout!("mogtriz_pairs_found" PairsFound { refusal, smaller, larger, count, session }),
        layout!("mogtriz_stepped" Stepped { refusal, session }),
        layout!("mogtriz_repairs" Repairs { refusal, steps, rounds, left, session }),
        layout!("mogtriz_plan_checked" PlanChecked { refusal, bad_step, session }),
        layout!("mogtriz_carried" Carried { refusal, bad_step, session }),
        layout!("mogtriz_part" Part { refusal, from, length }),
        layout!("mogtriz_converted" Converted { refusal, length }),
    ]
    .concat()
}

/// The structs that the header defines, each with its name and those of its fields.
fn structs(header: &str) -> Vec<(&str, Vec<&str>)> {
    let bodies = header.split("typedef struct {").skip(1);
    let named = bodies.map(|rest| {
        let (body, after) = rest.split_once('}').expect("the struct's end");
        let (name, _) = after.split_once(';').expect("the struct's name");
        (
            name.trim(),
            body.split_terminator(';').filter_map(field_name).collect(),
        )
    });
    named.collect()
}

/// `live` of `uint8_t live[256]`.
fn field_name(declaration: &str) -> Option<&str> {
    let last = declaration.split_whitespace().last()?;
    last.split('[').next()
}

/// The lines of a program in C that prints what Rust's lines say.
fn program(header: &str) -> String {
    let mut lines = String::from("    printf(\"version %d\\n\", MOGTRIZ_VERSION);\n");
    for (name, fields) in structs(header) {
        let _ = writeln!(lines, r#"    printf("{name} size %zu\n", sizeof({name}));"#);
        for field in fields {
            let place = format!("offsetof({name}, {field})");
            let size = format!("sizeof((({name} *)0)->{field})");
            let _ = writeln!(
                lines,
                r#"    printf("{name}.{field} at %zu size %zu\n", {place}, {size});"#
            );
        }
    }
    lines
}

fn layouts_in_c() -> String {
    let header = fs::read_to_string(in_c::HEADER).expect("the header");
    assert_eq!(structs(&header).len(), header.matches("typedef").count());
    in_c::printed_by("layouts", &program(&header))
}

#[test]
fn version_and_layouts_in_rust_are_those_in_c() {
    assert_eq!(mogtriz::VERSION, mogtriz::version());
    assert_eq!(layouts_in_rust(), layouts_in_c());
}
