//! A claim as MONA reads it, and what MONA says of it.

use std::fmt::Write;
use std::io;
use std::path::Path;
use std::process::Command;

use ceivuron::part::Part;
use ceivuron::{Answer, RowAnswer};

/// The text of a file for MONA: the same sets, the same claim.
///
/// # Panics
///
/// Where the claim counts by a number, which MONA has no words for.
pub fn text(name: &str, sets: u8, part: &Part) -> String {
    let names: Vec<String> = (0..sets).map(|x| format!("X{x}")).collect();
    let mut text = format!("# {name}\nvar2 {};\n", names.join(","));
    let mut fresh = 0;
    write_part(part, &names, &mut fresh, &mut text);
    text.push_str(";\n");
    text
}

/// Each `some` gets a name of its own, and so does each place.
fn write_part(part: &Part, names: &[String], fresh: &mut usize, text: &mut String) {
    let set = |x: &u8| &names[usize::from(*x)];
    let mut new = || {
        *fresh += 1;
        *fresh
    };
    // writing into a string cannot fail
    let _ = match part {
        Part::Within(x, y) => write!(text, "({} sub {})", set(x), set(y)),
        Part::Single(x) => {
            let p = new();
            write!(text, "(ex1 p{p}: {}={{p{p}}})", set(x))
        }
        Part::Next(x, y) => {
            let p = new();
            write!(text, "(ex1 p{p}: {}={{p{p}}} & {}={{p{p}+1}})", set(x), set(y))
        }
        Part::Before(x, y) => {
            let p = new();
            write!(text, "(ex1 p{p}: ex1 q{p}: {}={{p{p}}} & {}={{q{p}}} & p{p}<q{p})", set(x), set(y))
        }
        Part::Multiple(..) => panic!("MONA does not count"),
        Part::Not(c) => {
            text.push('~');
            write_part(c, names, fresh, text);
            Ok(())
        }
        Part::And(c, d) => {
            text.push('(');
            write_part(c, names, fresh, text);
            text.push_str(" & ");
            write_part(d, names, fresh, text);
            text.push(')');
            Ok(())
        }
        Part::Some(x, c) => {
            let mut inner = names.to_vec();
            inner[usize::from(*x)] = format!("Y{}", new());
            let _ = write!(text, "(ex2 {}: ", inner[usize::from(*x)]);
            write_part(c, &inner, fresh, text);
            text.push(')');
            Ok(())
        }
    };
}

/// The lengths of the shortest sets of which a claim holds and of which it does not, where there are any.
#[derive(Clone, Copy, Debug, PartialEq, Eq)]
pub struct Shortest {
    pub holds: Option<usize>,
    pub fails: Option<usize>,
}

impl Shortest {
    /// By an answer of the call; `None` where it says nothing of the claim.
    pub fn judged(answer: &Answer) -> Option<Shortest> {
        match answer {
            Answer::Always => Some(Shortest { holds: Some(0), fails: None }),
            Answer::Never => Some(Shortest { holds: None, fails: Some(0) }),
            Answer::Both { holds, fails } => Some(Shortest { holds: Some(holds.len()), fails: Some(fails.len()) }),
            _ => None,
        }
    }

    /// The same of rows, by an answer of the call on row claims.
    pub fn row_judged(answer: &RowAnswer) -> Option<Shortest> {
        match answer {
            RowAnswer::Always => Some(Shortest { holds: Some(0), fails: None }),
            RowAnswer::Never => Some(Shortest { holds: None, fails: Some(0) }),
            RowAnswer::Both { holds, fails } => Some(Shortest { holds: Some(holds.len()), fails: Some(fails.len()) }),
            _ => None,
        }
    }

    /// By MONA, of the claim in a file.
    pub fn by_mona(path: &Path) -> io::Result<Shortest> {
        let output = Command::new("mona").arg("-q").arg(path).output()?;
        let text = String::from_utf8_lossy(&output.stdout);
        let length = |sort: &str| {
            let (_, rest) = text.split_once(&format!("{sort} of least length ("))?;
            rest.split_once(')')?.0.parse().ok()
        };
        if !output.status.success() {
            return Err(io::Error::other(format!("mona on {}: {text}", path.display())));
        }
        Ok(Shortest { holds: length("satisfying example"), fails: length("counter-example") })
    }
}
