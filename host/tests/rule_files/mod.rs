//! A small reader of rule files, for searches that take no part of the proved code: the bits, whether there is a ring, the
//! patterns of allowed rows, the limits that count, the table, and as they stand there other limits, the starts, what is
//! claimed to be kept and the list of helpers. What else stands in a file is passed over.

#![allow(dead_code)] // each search takes a part of it

use std::fs;
use std::path::Path;

/// What a pattern asks of one module.
#[derive(Clone, Copy, Debug)]
enum Asked {
    There(bool),
    Bit(usize, bool),
}

/// What is asked of the left neighbour, of the module, and of the right neighbour.
type Pattern = [Vec<Asked>; 3];

/// A module with its neighbours, each by its bits; beyond an end of a row there is none.
pub type Seen = [Option<usize>; 3];

/// `allowed: |SET| mod MODULUS = REST`: so many modules have the bit, or there are so many modules, but for multiples.
#[derive(Clone, Copy, Debug)]
struct Count {
    /// The bit, or none where all modules are counted.
    bit: Option<usize>,
    modulus: usize,
    rest: usize,
}

/// A bit after a step: set or not, or as a bit was of the module (1) or of its left (0) or right neighbour (2).
#[derive(Clone, Copy, Debug)]
enum New {
    Fixed(bool),
    AsWas(usize, usize),
}

/// A line of the table: a pattern, the bits that change, and whether the module moves.
struct Line {
    when: Pattern,
    changes: Vec<(usize, New)>,
    moves: bool,
}

/// What the lines below a heading are.
#[derive(Clone, Copy)]
enum Section {
    Outside,
    Allowed,
    Table,
    Helpers,
}

pub struct Rule {
    pub bits: Vec<String>,
    pub ring: bool,
    allowed: Vec<Pattern>,
    counts: Vec<Count>,
    /// The limits that do not count, as formulas.
    pub formulas: Vec<String>,
    table: Vec<Line>,
    /// The starts, as formulas.
    pub starts: Vec<String>,
    /// What is claimed to be kept: names, and formulas.
    pub kept: Vec<(String, String)>,
    /// The list of helpers: names, and formulas.
    pub helpers: Vec<(String, String)>,
    /// The lines of the file but for the list of helpers.
    others: Vec<String>,
}

fn bit(bits: &[String], name: &str) -> usize {
    bits.iter().position(|bit| bit == name).unwrap()
}

/// A name with or without `!` before it: the bit, and whether it is set.
fn signed(bits: &[String], word: &str) -> (usize, bool) {
    match word.strip_prefix('!') {
        Some(name) => (bit(bits, name), false),
        None => (bit(bits, word), true),
    }
}

fn pattern(bits: &[String], text: &str) -> Pattern {
    let parts: Vec<Vec<Asked>> = text
        .split('|')
        .map(|part| {
            part.split_whitespace()
                .filter(|word| *word != "*")
                .map(|word| match word {
                    "module" => Asked::There(true),
                    "none" => Asked::There(false),
                    word => {
                        let (bit, set) = signed(bits, word);
                        Asked::Bit(bit, set)
                    }
                })
                .collect()
        })
        .collect();
    parts.try_into().expect("three parts")
}

/// Of `|SET| mod MODULUS = REST` the count.
fn count(bits: &[String], text: &str) -> Option<Count> {
    let words: Vec<&str> = text.split_whitespace().collect();
    let [set, "mod", modulus, "=", rest] = words[..] else {
        return None;
    };
    let bit = match set.strip_prefix('|')?.strip_suffix('|')? {
        "row" | "ring" => None,
        name => Some(bits.iter().position(|bit| bit == name)?),
    };
    Some(Count { bit, modulus: modulus.parse().unwrap(), rest: rest.parse().unwrap() })
}

/// What a word of a line of the table does to a bit: `tray`, `!tray`, `tray=drive`, `tray=left.tray` or `tray=right.tray`.
fn change(bits: &[String], word: &str) -> (usize, New) {
    let Some((name, source)) = word.split_once('=') else {
        let (bit, set) = signed(bits, word);
        return (bit, New::Fixed(set));
    };
    let (side, from) = match source.split_once('.') {
        Some(("left", from)) => (0, from),
        Some(("right", from)) => (2, from),
        _ => (1, source),
    };
    (bit(bits, name), New::AsWas(side, bit(bits, from)))
}

fn table_line(bits: &[String], text: &str) -> Line {
    let (when, what) = text.split_once("->").unwrap();
    let (motion, changes): (Vec<&str>, Vec<&str>) =
        what.split_whitespace().partition(|word| ["moves", "waits"].contains(word));
    Line {
        when: pattern(bits, when),
        changes: changes.into_iter().map(|word| change(bits, word)).collect(),
        moves: motion == ["moves"],
    }
}

/// The lines of a file without their comments. A formula goes on in the next line where a bracket is open.
fn lines(text: &str) -> Vec<String> {
    let mut lines: Vec<String> = Vec::new();
    let mut open = 0usize;
    for line in text.lines().map(|line| line.split('#').next().unwrap().trim()) {
        match lines.last_mut() {
            Some(last) if open > 0 => *last += &format!(" {line}"),
            _ => lines.push(line.to_string()),
        }
        open = line.chars().fold(open, |open, sign| match sign {
            '(' | '{' => open + 1,
            ')' | '}' => open.saturating_sub(1),
            _ => open,
        });
    }
    lines
}

impl Rule {
    pub fn of(text: &str) -> Rule {
        let mut rule = Rule {
            bits: Vec::new(),
            ring: false,
            allowed: Vec::new(),
            counts: Vec::new(),
            formulas: Vec::new(),
            table: Vec::new(),
            starts: Vec::new(),
            kept: Vec::new(),
            helpers: Vec::new(),
            others: Vec::new(),
        };
        let mut section = Section::Outside;
        for line in lines(text).into_iter().filter(|line| !line.is_empty()) {
            section = match line.split_once(':') {
                Some((head, said)) => rule.statement(section, head, said.trim()),
                None => rule.in_section(section, &line),
            };
            if !matches!(section, Section::Helpers) {
                rule.others.push(line);
            }
        }
        rule
    }

    /// A line that begins with words and a colon; as what the lines below it are to be read.
    fn statement(&mut self, section: Section, head: &str, said: &str) -> Section {
        let bits = &self.bits;
        match head.split_whitespace().collect::<Vec<_>>()[..] {
            ["bits"] => self.bits = said.split_whitespace().map(String::from).collect(),
            ["ring"] => self.ring = true,
            ["allowed"] if said.is_empty() => return Section::Allowed,
            ["allowed"] => match count(bits, said) {
                Some(count) => self.counts.push(count),
                None => self.formulas.push(said.to_string()),
            },
            ["table"] => return Section::Table,
            ["helpers"] => return Section::Helpers,
            ["start"] => self.starts.push(said.to_string()),
            ["kept", name] => self.kept.push((name.to_string(), said.to_string())),
            ["never" | "claim", _] | ["row"] => {}
            [name] if matches!(section, Section::Helpers) => {
                self.helpers.push((name.to_string(), said.to_string()));
                return section;
            }
            _ => panic!("no line of a rule file begins so: {head}"),
        }
        Section::Outside
    }

    /// A line below `allowed:` or `table:`; the next one is to be read as it was.
    fn in_section(&mut self, section: Section, line: &str) -> Section {
        match section {
            Section::Outside | Section::Helpers => panic!("a line in no section: {line}"),
            Section::Allowed => self.allowed.push(pattern(&self.bits, line)),
            Section::Table => self.table.push(table_line(&self.bits, line)),
        }
        section
    }

    /// The rule of a file of the repository.
    pub fn read(path: &str) -> Rule {
        Rule::of(&read(path))
    }

    /// The file with one more claim to be kept, and without its list of helpers.
    pub fn claiming(&self, name: &str, claim: &str) -> String {
        format!("{}\nkept {name}: {claim}\n", self.others.join("\n"))
    }

    /// How many columns a module may be.
    pub fn columns(&self) -> usize {
        1 << self.bits.len()
    }

    pub fn allows(&self, seen: Seen) -> bool {
        self.allowed.iter().any(|pattern| fits(pattern, seen))
    }

    /// The number of the line of the table that counts: the first that fits.
    pub fn line_number(&self, seen: Seen) -> Option<usize> {
        self.table.iter().position(|line| fits(&line.when, seen))
    }

    fn line(&self, seen: Seen) -> Option<&Line> {
        Some(&self.table[self.line_number(seen)?])
    }

    pub fn moves(&self, seen: Seen) -> bool {
        self.line(seen).is_some_and(|line| line.moves)
    }

    /// The module after a step.
    pub fn after(&self, seen: Seen) -> usize {
        let own = seen[1].unwrap();
        let Some(line) = self.line(seen) else {
            return own;
        };
        line.changes.iter().fold(own, |module, (bit, new)| {
            let set = match *new {
                New::Fixed(set) => set,
                New::AsWas(side, from) => seen[side].is_some_and(|bits| bits >> from & 1 == 1),
            };
            if set { module | 1 << bit } else { module & !(1 << bit) }
        })
    }

    /// Module `at` of a row, or of a ring, with its neighbours: in a ring the last stands before the first, and the first behind the last.
    pub fn seen(&self, row: &[usize], at: usize) -> Seen {
        let length = row.len();
        if self.ring {
            [(at + length - 1) % length, at, (at + 1) % length].map(|at| Some(row[at]))
        } else {
            [at.checked_sub(1), Some(at), Some(at + 1)].map(|at| row.get(at?).copied())
        }
    }

    /// Whether the limits that count hold of a row.
    pub fn counted(&self, row: &[usize]) -> bool {
        self.counts.iter().all(|count| {
            let have = row.iter().filter(|module| count.bit.is_none_or(|bit| *module >> bit & 1 == 1)).count();
            have % count.modulus == count.rest
        })
    }
}

/// Whether a module with its neighbours is as the pattern says. Beyond an end there is no module, and no bit is set.
fn fits(pattern: &Pattern, seen: Seen) -> bool {
    pattern.iter().zip(seen).all(|(asked, module)| {
        asked.iter().all(|asked| match *asked {
            Asked::There(wanted) => module.is_some() == wanted,
            Asked::Bit(bit, wanted) => module.is_some_and(|bits| bits >> bit & 1 == 1) == wanted,
        })
    })
}

/// A file of the repository.
pub fn read(path: &str) -> String {
    fs::read_to_string(Path::new(env!("CARGO_MANIFEST_DIR")).join("..").join(path)).unwrap()
}

/// The rule files of the repository's examples.
pub fn examples() -> Vec<String> {
    let folder = Path::new(env!("CARGO_MANIFEST_DIR")).join("../examples/rules");
    let files = fs::read_dir(folder).unwrap().map(|entry| entry.unwrap().path());
    let rules = files.filter(|path| path.extension().is_some_and(|end| end == "txt"));
    rules.map(|path| fs::read_to_string(path).unwrap()).collect()
}

/// The marks of each bit of a row: `#` for a module that has it, else a point.
pub fn marks(rule: &Rule, row: &[usize]) -> Vec<String> {
    let mark = |module: &usize, bit: usize| if module >> bit & 1 == 1 { '#' } else { '.' };
    (0..rule.bits.len()).map(|bit| row.iter().map(|module| mark(module, bit)).collect()).collect()
}
