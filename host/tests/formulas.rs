//! The formulas of the searches say what docs/CLAIMS.md says: each holds of just these rows, or rings, of one bit.

mod formula;

use formula::Formula;

/// The rows of up to three modules of which a formula holds, as marks: `#` for a module that has the bit, else a point.
fn holds_of(ring: bool, text: &str) -> String {
    let bits = ["X".to_string()];
    let formula = Formula::read(&bits, ring, text);
    let rows = (0..=3).flat_map(|length| (0..1 << length).map(move |row| (length, row)));
    let mut marks = Vec::new();
    for (length, row) in rows {
        let modules: Vec<usize> = (0..length).map(|at| row >> (length - 1 - at) & 1).collect();
        if formula.holds(1, ring, &modules) {
            let row: String = modules.iter().map(|module| if *module == 1 { '#' } else { '.' }).collect();
            marks.push(if row.is_empty() { "empty".to_string() } else { row });
        }
    }
    marks.join(" ")
}

const ALL: &str = "empty . # .. .# #. ## ... ..# .#. .## #.. #.# ##. ###";
const NOT_EMPTY: &str = ". # .. .# #. ## ... ..# .#. .## #.. #.# ##. ###";

#[test]
fn rows_with_ends() {
    for (text, rows) in [
        ("true", ALL),
        ("ex1 p: true", NOT_EMPTY),
        ("all1 p: p in row", ALL),
        ("all1 p: false", "empty"),
        ("0 in X", "# #. ## #.. #.# ##. ###"),
        ("last in X", "# .# ## ..# .## #.# ###"),
        // of the empty row, and of a set without a place, it is place 0
        ("last = 0", "empty . #"),
        ("min X = max X", "empty . # .. .# #. ... ..# .#. #.."),
        ("max row = last", ALL),
        // behind the end are places that no set has, and which are numbers
        ("last + 1 in X", ""),
        ("ex1 p: p = last + 1", ""),
        ("last + 1 > last & last + 1 ~= last + 2", ALL),
        ("{last + 1} sub row", ""),
        ("last + 1 in row union {last + 1}", ALL),
        ("all1 p: p in X => p + 1 in X", "empty . .. ..."),
        // place 0 has none before it
        ("0 - 1 = 0", ALL),
        ("ex1 p: p = 1 & p - 2 in X", "#. ## #.. #.# ##. ###"),
        ("2 in row", "... ..# .#. .## #.. #.# ##. ###"),
        ("|X| mod 2 = 1", "# .# #. ..# .#. #.. ###"),
        ("|row \\ X| mod 3 = 2", ".. ..# .#. #.."),
        ("X = row", "empty # ## ###"),
        ("X = empty", "empty . .. ..."),
        ("~empty(row) & row sub {0, 1}", ". # .. .# #. ##"),
        ("all1 p, q: p in X & q in X => p = q", "empty . # .. .# #. ... ..# .#. #.."),
        // every second place, from the first on
        ("ex2 Y: 0 in Y & (all1 p: p ~= last => (p in Y <=> p + 1 notin Y)) & Y = X", "# #. #.#"),
        ("all2 Y: Y sub X => |Y| mod 2 = 0", "empty . .. ..."),
    ] {
        assert_eq!(holds_of(false, text), rows, "{text}");
    }
}

#[test]
fn rings_go_round() {
    for (text, rings) in [
        ("all1 p: p in ring & p + 1 in ring", ALL),
        ("ex1 p: p + 1 = p", ". #"),
        ("ex1 p: p + 2 = p", ". # .. .# #. ##"),
        ("all1 p: p + 3 = p", "empty . # ... ..# .#. .## #.. #.# ##. ###"),
        ("all1 p: p + 1 - 1 = p", ALL),
        ("ex1 p: p in X & p + 1 in X", "# ## .## #.# ##. ###"),
        ("ex1 p: p in X & p - 4 in X", "# .# #. ## .## #.# ##. ###"),
        ("ex1 p: {p + 1} = X", "# .# #. ..# .#. #.."),
    ] {
        assert_eq!(holds_of(true, text), rings, "{text}");
    }
}

#[test]
fn how_tight_signs_bind() {
    for (text, same) in [
        ("~0 in X & 1 in X", "(~(0 in X)) & (1 in X)"),
        ("0 in X | 1 in X & 2 in X", "0 in X | (1 in X & 2 in X)"),
        ("0 in X => 1 in X => 2 in X", "0 in X => (1 in X => 2 in X)"),
        ("0 in X => 1 in X <=> 2 in X", "(0 in X => 1 in X) <=> 2 in X"),
        ("0 in X <=> 1 in X => 2 in X", "0 in X <=> (1 in X => 2 in X)"),
        ("ex1 p: p in X & 0 notin X", "ex1 p: (p in X & 0 notin X)"),
        ("true & ex1 p: p in X | false", "true & (ex1 p: (p in X | false))"),
        ("min X union {1} = 1", "(min (X union {1})) = 1"),
        ("row \\ X inter {0} = {0}", "((row \\ X) inter {0}) = {0}"),
        ("row inter {0} union X = X", "((row inter {0}) union X) = X"),
        ("~|X| mod 2 = 1 | 0 in X", "(~(|X| mod 2 = 1)) | (0 in X)"),
        ("last - 1 + 1 = last", "((last - 1) + 1) = last"),
        ("ex1 p, q: p < q", "ex1 p: ex1 q: p < q"),
    ] {
        let holds = holds_of(false, text);
        assert_eq!(holds, holds_of(false, same), "{text}");
        assert!(!holds.is_empty() && holds != ALL, "{text}");
    }
}
