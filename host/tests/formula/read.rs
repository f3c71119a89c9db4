//! Reads formulas: an operand and the operators behind it, as long as they bind tight enough; what stands right of an operator is
//! read in the same way. A quantifier takes as much behind its `:` as it can.

use super::tokens::{Token, tokens};
use super::{Formula, Order, Place, Quantifier, Set};

/// What is read, of one of three sorts.
enum Term {
    Place(Place),
    Set(Set),
    Formula(Formula),
}

impl Term {
    fn place(self) -> Place {
        match self {
            Term::Place(place) => place,
            _ => panic!("a place is wanted"),
        }
    }

    fn set(self) -> Set {
        match self {
            Term::Set(set) => set,
            _ => panic!("a set is wanted"),
        }
    }

    fn formula(self) -> Formula {
        match self {
            Term::Formula(formula) => formula,
            _ => panic!("a formula is wanted"),
        }
    }
}

/// Binary operators, with how tight they bind: of two the one with the larger number.
const OPERATORS: [(&str, u32); 18] = [
    ("<=>", 1),
    ("=>", 2),
    ("|", 3),
    ("&", 4),
    ("in", 6),
    ("notin", 6),
    ("sub", 6),
    ("=", 7),
    ("~=", 7),
    ("<", 7),
    ("<=", 7),
    (">", 7),
    (">=", 7),
    ("union", 9),
    ("inter", 10),
    ("\\", 11),
    ("+", 12),
    ("-", 12),
];

/// How tight `~` binds, and `min` and `max`.
const NOT: u32 = 5;
const EXTREME: u32 = 8;

/// What a name stands for: a place or a set, by its number.
#[derive(Clone, Copy)]
enum Named {
    Place(usize),
    Set(usize),
    Last,
}

struct Reader {
    tokens: Vec<Token>,
    at: usize,
    /// The names that are known; of equal ones the one further on.
    names: Vec<(String, Named)>,
    /// How many quantifiers of places stand around what is read.
    places: usize,
    /// How many sets have names there.
    sets: usize,
}

fn not(formula: Formula) -> Formula {
    Formula::Not(Box::new(formula))
}

fn or(formula: Formula, other: Formula) -> Formula {
    Formula::Or(Box::new(formula), Box::new(other))
}

fn equal(left: Term, right: Term) -> Formula {
    match (left, right) {
        (Term::Place(place), Term::Place(other)) => Formula::Places(Order::Equal, place, other),
        (left, right) => Formula::SameSet(left.set(), right.set()),
    }
}

fn joined(operator: &str, left: Term, right: Term) -> Term {
    let order = |order, left: Term, right: Term| Formula::Places(order, left.place(), right.place());
    Term::Formula(match operator {
        "+" | "-" => return Term::Place(moved(operator, left.place(), right.place())),
        "union" => return Term::Set(Set::Union(Box::new(left.set()), Box::new(right.set()))),
        "inter" => return Term::Set(Set::Inter(Box::new(left.set()), Box::new(right.set()))),
        "\\" => return Term::Set(Set::Without(Box::new(left.set()), Box::new(right.set()))),
        "<=>" => Formula::Same(Box::new(left.formula()), Box::new(right.formula())),
        "=>" => or(not(left.formula()), right.formula()),
        "|" => or(left.formula(), right.formula()),
        "&" => Formula::And(Box::new(left.formula()), Box::new(right.formula())),
        "in" => Formula::In(left.place(), right.set()),
        "notin" => not(Formula::In(left.place(), right.set())),
        "sub" => Formula::Within(left.set(), right.set()),
        "=" => equal(left, right),
        "~=" => not(equal(left, right)),
        "<" => order(Order::Less, left, right),
        "<=" => order(Order::AtMost, left, right),
        ">" => order(Order::Less, right, left),
        ">=" => order(Order::AtMost, right, left),
        _ => unreachable!("{operator} is an operator"),
    })
}

fn moved(operator: &str, place: Place, by: Place) -> Place {
    let Place::Number(by) = by else {
        panic!("behind + and - stands a number");
    };
    match operator {
        "+" => Place::Further(Box::new(place), by),
        _ => Place::Before(Box::new(place), by),
    }
}

impl Reader {
    fn next(&mut self) -> Token {
        self.at += 1;
        self.tokens.get(self.at - 1).expect("the formula goes on").clone()
    }

    fn is_next(&self, sign: &str) -> bool {
        matches!(self.tokens.get(self.at), Some(Token::Sign(next)) if *next == sign)
    }

    /// Whether the sign comes next, which is then passed.
    fn passes(&mut self, sign: &str) -> bool {
        let passes = self.is_next(sign);
        self.at += usize::from(passes);
        passes
    }

    fn pass(&mut self, sign: &str) {
        assert!(self.passes(sign), "{sign} is wanted before {:?}", &self.tokens[self.at..]);
    }

    fn pass_word(&mut self, word: &str) {
        assert_eq!(self.next(), Token::Word(word.to_string()));
    }

    fn number(&mut self) -> usize {
        match self.next() {
            Token::Number(number) => number,
            token => panic!("a number is wanted, not {token:?}"),
        }
    }

    /// The operator that comes next, if it binds so tight.
    fn operator(&self, lowest: u32) -> Option<(&'static str, u32)> {
        let word = match self.tokens.get(self.at)? {
            Token::Word(word) => word,
            Token::Sign(sign) => *sign,
            Token::Number(_) => return None,
        };
        OPERATORS.into_iter().find(|(operator, tight)| *operator == word && *tight >= lowest)
    }

    fn term(&mut self, lowest: u32) -> Term {
        let mut left = self.operand();
        while let Some((operator, tight)) = self.operator(lowest) {
            self.at += 1;
            // of two `=>` or two `<=>` the right one binds, of other operators the left one
            let right = self.term(if tight <= 2 { tight } else { tight + 1 });
            left = joined(operator, left, right);
        }
        left
    }

    fn operand(&mut self) -> Term {
        match self.next() {
            Token::Number(number) => Term::Place(Place::Number(number)),
            Token::Word(word) => self.word(&word),
            Token::Sign("~") => Term::Formula(not(self.term(NOT).formula())),
            Token::Sign("(") => {
                let inside = self.term(0);
                self.pass(")");
                inside
            }
            Token::Sign("{") => Term::Set(Set::Of(self.places())),
            Token::Sign("|") => Term::Formula(self.count()),
            token => panic!("no formula or term begins with {token:?}"),
        }
    }

    /// What begins with a word.
    fn word(&mut self, word: &str) -> Term {
        match word {
            "true" => Term::Formula(Formula::Always(true)),
            "false" => Term::Formula(Formula::Always(false)),
            "min" => Term::Place(Place::Min(Box::new(self.term(EXTREME).set()))),
            "max" => Term::Place(Place::Max(Box::new(self.term(EXTREME).set()))),
            "empty" if self.passes("(") => {
                let set = self.term(0).set();
                self.pass(")");
                Term::Formula(Formula::SameSet(set, Set::Empty))
            }
            "empty" => Term::Set(Set::Empty),
            "ex1" => Term::Formula(self.bound(Quantifier::Some, false)),
            "all1" => Term::Formula(self.bound(Quantifier::Every, false)),
            "ex2" => Term::Formula(self.bound(Quantifier::Some, true)),
            "all2" => Term::Formula(self.bound(Quantifier::Every, true)),
            name => self.named(name),
        }
    }

    fn named(&self, name: &str) -> Term {
        match self.names.iter().rev().find(|(known, _)| known == name) {
            Some((_, Named::Place(number))) => Term::Place(Place::Named(*number)),
            Some((_, Named::Set(number))) => Term::Set(Set::Named(*number)),
            Some((_, Named::Last)) => Term::Place(Place::Last),
            None => panic!("{name} is not known"),
        }
    }

    /// Places with commas between them, up to the bracket that closes them.
    fn places(&mut self) -> Vec<Place> {
        let mut places = vec![self.term(0).place()];
        while self.passes(",") {
            places.push(self.term(0).place());
        }
        self.pass("}");
        places
    }

    /// `|S| mod m = r`, from behind the first sign on.
    fn count(&mut self) -> Formula {
        let set = self.term(EXTREME + 1).set();
        self.pass("|");
        self.pass_word("mod");
        let modulus = self.number();
        self.pass("=");
        Formula::Counts(set, modulus, self.number())
    }

    /// The names of a quantifier, of places or of sets, and what it says of them: a quantifier for each name.
    fn bound(&mut self, quantifier: Quantifier, sets: bool) -> Formula {
        let mut count = 0;
        loop {
            let Token::Word(name) = self.next() else {
                panic!("a name is wanted");
            };
            let all = if sets { &mut self.sets } else { &mut self.places };
            self.names.push((name, if sets { Named::Set(*all) } else { Named::Place(*all) }));
            *all += 1;
            count += 1;
            if !self.passes(",") {
                break;
            }
        }
        self.pass(":");
        let formula = self.term(0).formula();
        self.names.truncate(self.names.len() - count);
        *(if sets { &mut self.sets } else { &mut self.places }) -= count;
        (0..count).fold(formula, |formula, _| match sets {
            true => Formula::OfSets(quantifier, Box::new(formula)),
            false => Formula::OfPlaces(quantifier, Box::new(formula)),
        })
    }
}

impl Formula {
    /// The formula of a text about a row, or about a ring, whose modules have these bits.
    pub fn read(bits: &[String], ring: bool, text: &str) -> Formula {
        let row = if ring { "ring" } else { "row" };
        let sets = bits.iter().map(String::as_str).chain([row]);
        let mut names: Vec<_> = sets.enumerate().map(|(number, name)| (name.to_string(), Named::Set(number))).collect();
        if !ring {
            names.push(("last".to_string(), Named::Last));
        }
        let mut reader = Reader { tokens: tokens(text), at: 0, names, places: 0, sets: bits.len() + 1 };
        let formula = reader.term(0).formula();
        assert_eq!(reader.at, reader.tokens.len(), "the formula ends: {text}");
        formula
    }
}
