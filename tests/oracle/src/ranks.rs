//! Which of two plans is better, from document 02: "Fewer occupied sets comes first, then fewer distinct edges, then the atoms' sets compared one
//! by one as numbers from atom 0, the smaller first."
use crate::library::Reply;
use crate::moves_model::{Graph, Load, whole};
use crate::sets::Set;
use std::cmp::Ordering;
use std::collections::BTreeSet;

/// What a placement is ranked by, in this order.
pub fn merits(load: &Load, place: &[Set]) -> (usize, usize, Vec<Set>) {
    (place.iter().collect::<BTreeSet<_>>().len(), Graph::new(load, place).edges.len(), place.to_vec())
}

/// "The answer is before, equal or after", of the first.
pub fn told(order: Ordering) -> Reply {
    Reply::value(match order {
        Ordering::Less => 0,
        Ordering::Equal => 1,
        Ordering::Greater => 2,
    })
}

/// "One load and one N serve both areas; the first passes all checks of a later call (1 to 6, 9), then the second."
pub fn rank(load: &Load, first: &[u32], second: &[u32]) -> Reply {
    let (one, other) = match (whole::open(load, first), whole::open(load, second)) {
        (Err(row), _) | (Ok(_), Err(row)) => return Reply::refused(row),
        (Ok(one), Ok(other)) => (one.ledger().place, other.ledger().place),
    };
    told(merits(load, &one).cmp(&merits(load, &other)))
}
