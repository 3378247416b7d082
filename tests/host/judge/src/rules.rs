//! "Information and rules".

use crate::numbers::DATA_ATOMS;

/// "A rule is 0 to 8 mixtures." "A tag or a mixture is a set of these 64, kept as one 64-bit number, atom k being
/// worth 2 to the k."
pub type Rule = Vec<u64>;

/// "There are 32 data atoms, 0 to 31."
pub fn data_atoms(tag: u64) -> u64 {
    tag & ((1 << DATA_ATOMS) - 1)
}

/// "The running twin of atom d is d + 32: the same content, executed."
pub fn running_atoms(tag: u64) -> u64 {
    data_atoms(tag) << DATA_ATOMS
}

/// Whether the set `mixture` holds all of the set `tag`.
pub fn holds(mixture: u64, tag: u64) -> bool {
    tag & !mixture == 0
}

/// "It covers a tag if ONE of its mixtures holds all of the tag. A rule without mixtures covers nothing, not even
/// the empty tag."
pub fn covers(rule: &[u64], tag: u64) -> bool {
    rule.iter().any(|&mixture| holds(mixture, tag))
}

/// No position: "or 255".
pub const NO_POSITION: u32 = 255;

/// "The covering test now gives the position, 0 to 7, of the first covering mixture in ascending order, or 255." (change request
/// No. 12). Of a rule in normal form, which ascends.
pub fn position(rule: &[u64], tag: u64) -> u32 {
    rule.iter().position(|&mixture| holds(mixture, tag)).map_or(NO_POSITION, |place| place as u32)
}

/// "The unrestricted rule has the single mixture of all 64 atoms."
pub fn unrestricted() -> Rule {
    vec![u64::MAX]
}

/// "Normal form: drop repeats, drop every mixture held by another, ascend as numbers."
pub fn normal(rule: &[u64]) -> Rule {
    let mut once = rule.to_vec();
    once.sort_unstable();
    once.dedup();
    once.iter()
        .filter(|&&mixture| !once.iter().any(|&other| other != mixture && holds(other, mixture)))
        .copied()
        .collect()
}

/// "The meet of two rules is the normal form of all pairwise intersections".
pub fn meet(one: &[u64], other: &[u64]) -> Rule {
    let mut intersections = Vec::with_capacity(one.len() * other.len());
    for &a in one {
        for &b in other {
            intersections.push(a & b);
        }
    }
    normal(&intersections)
}

#[cfg(test)]
mod tests {
    use super::*;

    /// "Tag {0,2}, rule {0,1},{2}: not covered."
    #[test]
    fn two_mixtures_do_not_add_up() {
        assert!(!covers(&[0b011, 0b100], 0b101));
    }

    /// "Empty tag: not covered by no mixture; covered by the empty mixture."
    #[test]
    fn empty_tag() {
        assert!(!covers(&[], 0));
        assert!(covers(&[0], 0));
    }

    /// "Normal form of 3, 2, 3, 0 is 3."
    #[test]
    fn normal_form() {
        assert_eq!(normal(&[3, 2, 3, 0]), [3]);
    }

    /// "Meet of 62, 61, 59, 55 with 47, 31: 23, 27, 29, 30, 39, 43, 45, 46."
    #[test]
    fn meet_of_eight() {
        assert_eq!(meet(&[62, 61, 59, 55], &[47, 31]), [23, 27, 29, 30, 39, 43, 45, 46]);
    }

    /// "Meet of 62, 61, 59 with 55, 47, 31 has nine".
    #[test]
    fn meet_of_nine() {
        assert_eq!(meet(&[62, 61, 59], &[55, 47, 31]).len(), 9);
    }
}
