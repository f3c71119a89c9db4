//! Classes that are alike joined.

use super::pairs::Pairs;
use super::repeats::told_apart;
use super::{Table, rounds, splitting};

/// Below so many classes a few rounds cost less than what splitting sets up.
const FEW: usize = 16;

/// The exact table of the same words.
pub(super) fn join(t: &Table, pairs: &mut Pairs) -> Table {
    let columns = told_apart(t);
    let parts = if t.classes() < FEW { rounds::parts(t, &columns, pairs) } else { splitting::parts(t, &columns) };
    quotient(t, &parts)
}

/// The table of parts that are numbered in the order of their first classes, each from its first class.
fn quotient(t: &Table, parts: &[u32]) -> Table {
    let mut rows = Vec::new();
    let mut accept = Vec::new();
    for (q, part) in parts.iter().enumerate() {
        if *part as usize == accept.len() {
            rows.extend(t.row(q as u32).iter().map(|to| parts[*to as usize]));
            accept.push(t.accept[q]);
        }
    }
    Table { rows, accept, width: t.width }
}

#[cfg(test)]
mod tests {
    use super::*;
    use ceivuron::second::random::Random;

    /// A table in which each class stands so many times: an entry leads to any of the copies.
    fn copied(random: &mut Random, classes: usize, copies: usize, width: usize) -> Table {
        let accept: Vec<bool> = (0..classes).map(|_| random.one_in(3)).collect();
        let moves: Vec<usize> = (0..classes * width).map(|_| random.below(classes)).collect();
        let to = |q: usize, column: usize| moves[q % classes * width + column];
        let mut rows = Vec::new();
        for q in 0..classes * copies {
            rows.extend((0..width).map(|column| (to(q, column) + classes * random.below(copies)) as u32));
        }
        Table { rows, accept: accept.repeat(copies), width }
    }

    #[test]
    fn rounds_and_splitting_part_alike() {
        let (mut random, mut pairs) = (Random::new(1), Pairs::default());
        for _ in 0..300 {
            let (classes, copies) = (1 + random.below(20), 1 + random.below(4));
            let width = 1 << random.below(4);
            let t = copied(&mut random, classes, copies, width);
            let columns = told_apart(&t);
            let parts = splitting::parts(&t, &columns);
            assert!(parts.iter().all(|part| (*part as usize) < classes));
            assert_eq!(parts, rounds::parts(&t, &columns, &mut pairs));
            assert_eq!(parts, rounds::parts(&t, &(0..width).collect::<Vec<_>>(), &mut pairs));
        }
    }
}
