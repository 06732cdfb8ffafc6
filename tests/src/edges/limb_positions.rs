//! Positions, distances, counts and new bits of limb calls at the limits.

/// Positions around 0, the limb boundaries, the operand's end, the greatest position, and beyond.
pub fn positions(length: usize) -> Vec<i64> {
    let end = 32 * length as i64;
    let mut positions = few_positions(length);
    positions.extend([i64::MIN + 1, -32_768, -(1 << 32), -2, 2, 15, 30, 62, 65, 95, 96, end - 2, end + 1]);
    positions.extend([1023, 1024, 32_735, 32_737, 65_536, 1 << 31, (1 << 32) - 1, 1 << 32, (1 << 32) + 1, 1 << 62]);
    positions
}

/// The most telling of these.
pub fn few_positions(length: usize) -> Vec<i64> {
    let end = 32 * length as i64;
    vec![i64::MIN, -1, 0, 1, 31, 32, 33, 63, 64, end - 1, end, 32_736, 32_766, 32_767, 32_768, i64::MAX]
}

/// Distances around 0, the limb boundaries and the longest result: 32,767 bits beside the sign. `bits` is the R6RS
/// length of the operand.
pub fn distances(bits: i64) -> Vec<i64> {
    let most = 32_767 - bits;
    let mut distances = vec![i64::MIN, i64::MIN + 1, i64::MAX, i64::MAX - 1, 0];
    let near = [1, 2, 15, 30, 31, 32, 33, 62, 63, 64, 65, 96, 1023, 1024, 32_735, 32_736, 32_766, 32_767, 32_768];
    let far = [65_536, 1 << 31, (1 << 32) - 1, 1 << 32, (1 << 32) + 1, (1 << 37) - 1, 1 << 62];
    for distance in near.into_iter().chain(far).chain([most - 1, most, most + 1, bits - 1, bits, bits + 1]) {
        distances.extend([distance, -distance]);
    }
    distances
}

/// Rotation counts around 0, the length of the field, and beyond.
pub fn counts(start: i64, end: i64) -> Vec<i64> {
    let f = end.wrapping_sub(start);
    let around = [f.wrapping_sub(1), f, f.wrapping_add(1), f / 2, f.wrapping_mul(3)];
    let mut counts = vec![i64::MIN, -1, 0, 1, 31, 32, 33, 32_767, 1 << 32, i64::MAX];
    counts.extend(around);
    counts
}

/// The most telling of these.
pub fn few_counts(start: i64, end: i64) -> Vec<i64> {
    let f = end.wrapping_sub(start);
    vec![-1, 0, 1, 32, f.wrapping_sub(1), f, i64::MAX]
}

pub const NEW_BITS: [i64; 8] = [0, 1, 2, -1, 3, 1 << 32, i64::MIN, i64::MAX];
