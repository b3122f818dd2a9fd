//! The header's names go with the package's: families, limits and room for a plan have the same numbers, and each refusal has the same
//! number, name and text.
mod in_c;

use mogtriz::{
    MARKS, MOST_K, MOST_LEN, MOST_NODES, PLAN_ROOM, Refusal, SIMPLEX, TETRAHEDRON, WEIGHT_TWO,
};

/// `FAMILY_UNKNOWN` of `FamilyUnknown`, and of `BlockMissing { .. }` the name alone.
fn name_in_c(refusal: Refusal) -> String {
    let debug = format!("{refusal:?}");
    let name = debug.split(' ').next().expect("a name");
    let letters = name.chars().enumerate().flat_map(|(place, letter)| {
        let divide = place > 0 && letter.is_uppercase();
        divide.then_some('_').into_iter().chain([letter])
    });
    letters.collect::<String>().to_uppercase()
}

fn refusals_in_rust() -> String {
    let named = (1..=u8::MAX).map_while(|number| {
        Refusal::from_number(number).filter(|refusal| !matches!(refusal, Refusal::Unnamed { .. }))
    });
    let lines = named.map(|refusal| {
        let (number, name) = (refusal.number(), name_in_c(refusal));
        let said = refusal.to_string();
        let text = said.strip_prefix(&format!("refused {number}: "));
        let text = text.expect("the number before the text");
        format!("{number} MOGTRIZ_REFUSED_{name} {text}\n")
    });
    lines.collect()
}

#[test]
fn refusals_in_rust_are_those_in_c() {
    let lines = r##"
#define ROW(number, name, text) printf("%d %s %s\n", name, #name, text);
    MOGTRIZ_REFUSALS(ROW)
"##;
    assert_eq!(refusals_in_rust(), in_c::printed_by("refusals", lines));
}

#[test]
fn families_limits_and_room_in_rust_are_those_in_c() {
    let lines = r#"
    printf("%d %d %d\n", MOGTRIZ_SIMPLEX, MOGTRIZ_WEIGHT_TWO, MOGTRIZ_TETRAHEDRON);
    printf("%d %d\n", MOGTRIZ_PLAN_ROOM, MOGTRIZ_MOST_NODES + 1);
    printf("%d %d %d\n", MOGTRIZ_MOST_LEN, MOGTRIZ_MOST_K, MOGTRIZ_MOST_NODES);
"#;
    let wanted = format!(
        "{SIMPLEX} {WEIGHT_TWO} {TETRAHEDRON}\n{PLAN_ROOM} {MARKS}\n{MOST_LEN} {MOST_K} {MOST_NODES}\n"
    );
    assert_eq!(wanted, in_c::printed_by("families", lines));
}
