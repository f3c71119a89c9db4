//! Formulas made at random, of the kinds that claims are made of: what neighbours have, what stands between, what is first and last,
//! how many there are, sets that someone may choose; and any of little depth.

use ceivuron::second::random::Random;

pub struct Formulas<'a> {
    pub random: &'a mut Random,
    ring: bool,
    /// The names of sets and of places that are known.
    sets: Vec<String>,
    places: Vec<String>,
    /// How many names were bound.
    bound: usize,
}

impl Formulas<'_> {
    pub fn new<'a>(random: &'a mut Random, bits: &[&str], ring: bool) -> Formulas<'a> {
        let sets = bits.iter().map(|bit| bit.to_string()).collect();
        Formulas { random, ring, sets, places: Vec::new(), bound: 0 }
    }

    /// What is claimed: one to three parts.
    pub fn claim(&mut self) -> String {
        let parts: Vec<String> = (0..[1, 1, 2, 2, 3][self.random.below(5)]).map(|_| self.part()).collect();
        match &parts[..] {
            [part] => part.clone(),
            // the last may as well go on as far as it can
            [parts @ .., last] => format!("({}) & {last}", parts.join(") & (")),
            [] => unreachable!("there is a part"),
        }
    }

    /// One or two starts, which often give the claim.
    pub fn starts(&mut self, claim: &str) -> Vec<String> {
        let bit = self.bit();
        match self.random.below(6) {
            0 => vec![claim.to_string()],
            1 => vec![claim.to_string(), self.part()],
            2 => vec![format!("(({claim})\n    & {})", self.part())],
            3 => vec![format!("empty({bit})"), self.part()],
            4 => vec![format!("empty({})", self.sets.join(" union "))],
            _ => vec![self.part()],
        }
    }

    /// What may help to keep a claim: mostly one part.
    pub fn helper(&mut self) -> String {
        if self.random.one_in(6) { self.claim() } else { self.part() }
    }

    fn bit(&mut self) -> String {
        self.sets[self.random.below(self.sets.len())].clone()
    }

    /// A part of a claim, without free names of places. It may speak of rows of some lengths alone.
    fn part(&mut self) -> String {
        let part = self.of_all_lengths();
        let (row, modulus) = (self.row(), 3 + self.random.below(3));
        match self.random.below(5) {
            0 => format!("(|{row}| mod {modulus} = {} => {part})", modulus - 1),
            1 if !self.ring => format!("({} notin row | ({part}))", 1 + self.random.below(3)),
            _ => part,
        }
    }

    fn of_all_lengths(&mut self) -> String {
        match self.random.below(4) {
            0 => self.any(2),
            1 if !self.ring => self.with_ends(),
            _ => self.plain(),
        }
    }

    /// What may be said of rows and of rings.
    fn plain(&mut self) -> String {
        let (a, b, c) = (self.bit(), self.bit(), self.bit());
        let signed = ["in", "notin"][self.random.below(2)];
        let (row, modulus) = (self.row(), 2 + self.random.below(3));
        let rest = self.random.below(modulus);
        match self.random.below(12) {
            0 => format!("all1 p: p in {a} => p + 1 {signed} {b}"),
            1 => format!("all1 p: p {signed} {a} => p in {b} | p + 1 in {c}"),
            2 => format!("ex1 p: p {signed} {a} & p + 1 {signed} {b}"),
            3 => format!("~empty({a})"),
            4 => format!("{a} sub {b} union {c}"),
            5 => format!("empty({a} inter {b})"),
            6 => format!("|{a}| mod {modulus} = {rest}"),
            7 => format!("~|{row}| mod {modulus} = {rest}"),
            8 => format!("{row} = {a} union {b}"),
            9 => format!("{a} ~= {b} | |{row} \\ {a}| mod {modulus} = {rest}"),
            10 => format!("ex2 X: X sub {a} & (all1 p: p in X => p + 1 notin X) & (all1 p: p {signed} {b} => p in X)"),
            _ => format!("all2 X: X sub {a} & |X| mod 2 = 1 => ~empty(X inter {b})"),
        }
    }

    /// What may be said of rows alone: they have ends, and of two places one comes first.
    fn with_ends(&mut self) -> String {
        let (a, b) = (self.bit(), self.bit());
        let signed = ["in", "notin"][self.random.below(2)];
        match self.random.below(12) {
            0 => format!("0 {signed} {a}"),
            1 => format!("last {signed} {a}"),
            2 => format!("all1 p, q: p in {a} & q in {a} & p < q => (ex1 r: p < r & r < q & r {signed} {b})"),
            3 => format!("all1 p: p < min {a} => p {signed} {b}"),
            4 => format!("max {a} = last | min {a} <= max {b}"),
            5 => format!("all1 p: p {signed} {a} & p ~= last => p + 1 in {b}"),
            6 => format!("all1 p: p in {a} & p ~= 0 => p - 1 {signed} {b}"),
            7 => format!("2 {signed} {a} | 3 in row"),
            8 => format!("(min {a}) + 1 {signed} {b}"),
            9 => format!("all1 p: p in {a} => (all1 q: q < p => q in {a})"),
            10 => format!("ex2 X: 0 in X & (all1 p: p + 1 in X <=> p notin X) & {a} sub X"),
            _ => format!("{{0, last}} sub {a} union {b}"),
        }
    }

    fn row(&self) -> &'static str {
        if self.ring { "ring" } else { "row" }
    }

    /// Any formula of that depth.
    fn any(&mut self, depth: usize) -> String {
        if depth == 0 {
            return self.sign();
        }
        match self.random.below(8) {
            0 => format!("~({})", self.any(depth - 1)),
            1..=3 => {
                let sign = ["&", "|", "=>", "<=>"][self.random.below(4)];
                // parentheses or not: what the text says is the same for both that read it
                let first = self.any(depth - 1);
                let first = if self.random.one_in(3) { first } else { format!("({first})") };
                format!("{first} {sign} {}", self.any(depth - 1))
            }
            4 | 5 => self.of_place(depth),
            _ if self.sets.len() < 5 => self.of_set(depth),
            _ => self.of_place(depth),
        }
    }

    fn of_place(&mut self, depth: usize) -> String {
        self.bound += 1;
        let name = format!("p{}", self.bound);
        let quantifier = ["ex1", "all1"][self.random.below(2)];
        self.places.push(name.clone());
        let said = self.any(depth - 1);
        self.places.pop();
        format!("{quantifier} {name}: {said}")
    }

    fn of_set(&mut self, depth: usize) -> String {
        self.bound += 1;
        let name = format!("X{}", self.bound);
        let quantifier = ["ex2", "all2"][self.random.below(2)];
        self.sets.push(name.clone());
        let said = self.any(depth - 1);
        self.sets.pop();
        format!("{quantifier} {name}: {said}")
    }

    /// A formula without parts.
    fn sign(&mut self) -> String {
        let (place, set) = (self.place(), self.set());
        match (place, self.random.below(8)) {
            (Some(place), 0..=3) => format!("{place} {} {set}", ["in", "notin"][self.random.below(2)]),
            (Some(place), 4 | 5) => {
                let orders = ["=", "~=", "<", "<=", ">", ">="];
                let order = orders[self.random.below(if self.ring { 2 } else { 6 })];
                let other = self.place().unwrap_or(place.clone());
                format!("{place} {order} {other}")
            }
            (_, 6) => format!("|{set}| mod {} = {}", 2 + self.random.below(2), self.random.below(2)),
            (_, order) => {
                let order = ["sub", "=", "~="][order % 3];
                format!("{set} {order} {}", self.set())
            }
        }
    }

    /// A place, if there is one: in a ring all have names.
    fn place(&mut self) -> Option<String> {
        let named = |formulas: &mut Self| {
            let count = formulas.places.len();
            (count > 0).then(|| formulas.places[formulas.random.below(count)].clone())
        };
        let name = named(self);
        if self.ring {
            return name.map(|name| if self.random.one_in(4) { format!("{name} + 1") } else { name });
        }
        let bit = self.bit();
        Some(match (name, self.random.below(10)) {
            (Some(name), 0..=4) => name,
            (Some(name), 5) => format!("{name} + 1"),
            (Some(name), 6) => format!("{name} - {}", 1 + self.random.below(2)),
            (Some(name), 7) => format!("{name} + {}", 2 + self.random.below(2)),
            (_, 0) => "last + 1".to_string(),
            (_, 1) => self.random.below(4).to_string(),
            (_, 2 | 8) => format!("min {bit}"),
            (_, 3 | 9) => format!("max {bit}"),
            _ => "last".to_string(),
        })
    }

    /// A set, as an operand of any operator of sets or places.
    fn set(&mut self) -> String {
        let name = self.bit();
        match self.random.below(10) {
            0 => format!("({name} union {})", self.bit()),
            1 => format!("({name} inter {})", self.bit()),
            2 => format!("({name} \\ {})", self.bit()),
            3 => match self.place() {
                Some(place) => format!("{{{place}}}"),
                None => "empty".to_string(),
            },
            4 => self.row().to_string(),
            _ => name,
        }
    }
}
