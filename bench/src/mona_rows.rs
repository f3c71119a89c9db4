//! A row claim as MONA reads it in its mode M2L-Str, whose `$` is the set of the row's places.
//!
//! The text has names of sets alone: wherever it has a name of a place, MONA passes over the empty row (docs/CLAIMS.md).

use ceivuron::row_part::RowPart;

/// The text of a file for MONA: the same sets, the same claim.
///
/// # Panics
///
/// Where the claim counts by a number, which MONA has no words for.
pub fn text(name: &str, sets: u8, part: &RowPart) -> String {
    let names: Vec<String> = (0..sets).map(|x| format!("X{x}")).collect();
    let said = said(part, &names, &mut 0);
    format!("m2l-str;\n# {name}\nvar2 {};\n{said};\n", names.join(","))
}

/// Each `some` gets a name of its own.
fn said(part: &RowPart, names: &[String], fresh: &mut usize) -> String {
    let set = |x: &u8| &names[usize::from(*x)];
    // a set is single if it is that of its first place; of the empty set the first place is 0
    let single = |x: &u8| format!("{0} ~= empty & {0} = {{min {0}}}", set(x));
    match part {
        RowPart::Within(x, y) => format!("({} sub {})", set(x), set(y)),
        RowPart::Single(x) => format!("({})", single(x)),
        RowPart::Next(x, y) => format!("({} & {} & min {} + 1 = min {})", single(x), single(y), set(x), set(y)),
        RowPart::Before(x, y) => format!("({} & {} & min {} < min {})", single(x), single(y), set(x), set(y)),
        RowPart::Multiple(..) => panic!("MONA does not count"),
        RowPart::Last(x) => format!("($ = empty & {0} = empty | $ ~= empty & {0} = {{max $}})", set(x)),
        RowPart::Not(c) => format!("~{}", said(c, names, fresh)),
        RowPart::And(c, d) => format!("({} & {})", said(c, names, fresh), said(d, names, fresh)),
        RowPart::Some(x, c) => {
            *fresh += 1;
            let name = format!("Y{fresh}");
            let mut inner = names.to_vec();
            inner[usize::from(*x)] = name.clone();
            format!("(ex2 {name}: {})", said(c, &inner, fresh))
        }
    }
}
