//! Sets of lemma positions.

/// A set of positions: for each lemma whether it is in.
pub type Set = Vec<bool>;

/// The positions of a set by rising number.
pub fn positions(set: &Set) -> Vec<usize> {
    (0..set.len()).filter(|&p| set[p]).collect()
}

/// The positions of a set by falling number, for the mutants that go from the top down.
pub fn positions_if_reversed(set: &Set, reversed: bool) -> Vec<usize> {
    let mut found = positions(set);
    if reversed {
        found.reverse();
    }
    found
}

pub fn with(set: &Set, p: usize) -> Set {
    let mut result = set.clone();
    result[p] = true;
    result
}

pub fn without(set: &Set, p: usize) -> Set {
    let mut result = set.clone();
    result[p] = false;
    result
}

pub fn contains(set: &Set, part: &Set) -> bool {
    set.iter().zip(part).all(|(&inside, &wanted)| inside || !wanted)
}
