//! Integers at which a limb more is needed, in the shortest form, and padded spellings of them.

use quebralua_reference::reference::integer::Integer;
use quebralua_reference::reference::limb_results::not;
use quebralua_reference::spellings::padded;

/// Integers of 1 to 4 limbs: 0, -1, small ones, and those around 2^(32k - 1) and -2^(32k - 1) for k from 1 to 3.
pub fn short() -> Vec<Vec<u32>> {
    let mut integers = vec![vec![0], vec![u32::MAX], vec![5], vec![!5]];
    integers.extend((1..=3).flat_map(around));
    integers
}

/// The integers around 2^(32k - 1) and -2^(32k - 1) for some k up to 1,024. Half of the last ones have 1,025 limbs.
pub fn long() -> Vec<Vec<u32>> {
    [31, 32, 1022, 1023, 1024].into_iter().flat_map(around).collect()
}

/// 2^m - 2 to 2^m + 1, and -2^m + 1 to -2^m - 2, for m = 32k - 1: the last two of each need k + 1 limbs, the others k.
fn around(k: usize) -> Vec<Vec<u32>> {
    let m = 32 * k - 1;
    let positive = [
        Integer::build(m, false, |i| i > 0),
        Integer::build(m, false, |_| true),
        Integer::build(m + 1, false, |i| i == m),
        Integer::build(m + 1, false, |i| i == m || i == 0),
    ];
    let negative = positive.each_ref().map(not);
    positive.iter().chain(&negative).map(Integer::to_limbs).collect()
}

/// The same integer padded by 1, 2 and 7 limbs, and to 1,023, 1,024 and 1,025.
pub fn paddings(limbs: &[u32]) -> Vec<Vec<u32>> {
    let length = limbs.len();
    let mut lengths = vec![length + 1, length + 2, length + 7];
    lengths.extend([1023, 1024, 1025].into_iter().filter(|&longer| longer > length + 7));
    lengths.into_iter().map(|longer| padded(limbs, longer)).collect()
}
