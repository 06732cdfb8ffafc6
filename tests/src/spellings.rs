//! Spellings of one integer in limbs: the shortest one, and those that are padded. For drawing and counting operands: the
//! second implementation tells a padded one by the bits of its integer.

/// The limb that continues the integer above its last limb.
pub fn continuation(limbs: &[u32]) -> u32 {
    match limbs.last() {
        Some(last) if last >> 31 == 1 => u32::MAX,
        _ => 0,
    }
}

/// The same integer in that many limbs, at least as many as it has.
pub fn padded(limbs: &[u32], length: usize) -> Vec<u32> {
    // A memory checker sees an access past the last limb only where the allocation ends there.
    let mut padded = Vec::with_capacity(length);
    padded.extend_from_slice(limbs);
    padded.resize(length, continuation(limbs));
    padded
}

/// The same integer without the limbs that it does not need.
pub fn shortest(limbs: &[u32]) -> &[u32] {
    let mut kept = limbs;
    while let [rest @ .., last] = kept {
        if rest.is_empty() || *last != continuation(rest) {
            break;
        }
        kept = rest;
    }
    kept
}

pub fn is_padded(limbs: &[u32]) -> bool {
    shortest(limbs).len() < limbs.len()
}

#[cfg(test)]
mod tests {
    use super::*;
    use crate::random::Random;
    use crate::random_arguments::limbs::any_spelling;
    use crate::reference::integer::Integer;

    #[test]
    fn by_the_integer() {
        let mut random = Random::new(1);
        let mut seen = [false; 2];
        for _ in 0..2_000 {
            let limbs = any_spelling(&mut random);
            if limbs.is_empty() {
                continue;
            }
            let x = Integer::from_limbs(&limbs);
            assert_eq!(shortest(&limbs), x.to_limbs());
            assert_eq!(Integer::from_limbs(&padded(&limbs, limbs.len() + 2)), x);
            seen[usize::from(is_padded(&limbs))] = true;
        }
        assert_eq!(seen, [true; 2]);
    }
}
