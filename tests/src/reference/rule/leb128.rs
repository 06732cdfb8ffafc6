//! DWARF's LEB128: a number in groups of seven bits, lowest first, one to a byte. The top bit of a byte says that another
//! group follows. A signed number is negative where the highest bit of its last group is 1.

/// The most groups of an unsigned number.
pub const UNSIGNED_GROUPS: usize = 9;

/// The most groups of a signed one.
pub const SIGNED_GROUPS: usize = 10;

/// Why no number can be read.
#[derive(Clone, Copy, Debug, PartialEq, Eq)]
pub enum NumberFault {
    /// The bytes end after this many groups, each of which says that another follows.
    EndsEarly { groups: usize },
    /// As many groups as a number can have, and the last says that another follows. The bytes may end there or not.
    TooManyGroups { at_end: bool },
    /// Fewer groups would hold the same number.
    Padded,
    /// Not a signed 64-bit number.
    TooLarge,
}

/// The number at the head of the bytes, and how many groups it has.
pub fn read_unsigned(bytes: &[u8]) -> Result<(u64, usize), NumberFault> {
    let groups = groups(bytes, UNSIGNED_GROUPS)?;
    let value = value(groups);
    if groups.len() > unsigned_groups(value) {
        return Err(NumberFault::Padded);
    }
    Ok((value as u64, groups.len()))
}

/// The number at the head of the bytes, and how many groups it has.
pub fn read_signed(bytes: &[u8]) -> Result<(i64, usize), NumberFault> {
    let groups = groups(bytes, SIGNED_GROUPS)?;
    let is_negative = groups[groups.len() - 1] >= 0x40;
    let value = if is_negative { value(groups) - (1 << (7 * groups.len())) } else { value(groups) };
    if groups.len() > signed_groups(value) {
        return Err(NumberFault::Padded);
    }
    let value = i64::try_from(value).map_err(|_| NumberFault::TooLarge)?;
    Ok((value, groups.len()))
}

/// The bytes of the first number, of which only the last has the top bit 0.
fn groups(bytes: &[u8], most: usize) -> Result<&[u8], NumberFault> {
    match bytes.iter().take(most).position(|&byte| byte < 0x80) {
        Some(last) => Ok(&bytes[..=last]),
        None if bytes.len() >= most => Err(NumberFault::TooManyGroups { at_end: bytes.len() == most }),
        None => Err(NumberFault::EndsEarly { groups: bytes.len() }),
    }
}

/// The groups as digits of base 128, the first being the lowest.
fn value(groups: &[u8]) -> i128 {
    groups.iter().rev().fold(0, |n, &group| n * 128 + i128::from(group % 128))
}

/// How many groups the shortest form of an unsigned number has.
pub fn unsigned_groups(value: i128) -> usize {
    (1..).find(|&n| value < 1 << (7 * n)).expect("some number of groups is enough")
}

/// How many groups the shortest form of a signed number has.
pub fn signed_groups(value: i128) -> usize {
    let fits = |n: usize| (-(1i128 << (7 * n - 1))..1 << (7 * n - 1)).contains(&value);
    (1..).find(|&n| fits(n)).expect("some number of groups is enough")
}

/// Appends the shortest form of an unsigned number.
pub fn write_unsigned(value: u64, bytes: &mut Vec<u8>) {
    let value = i128::from(value);
    write_groups(value, unsigned_groups(value), bytes);
}

/// Appends the shortest form of a signed number.
pub fn write_signed(value: i64, bytes: &mut Vec<u8>) {
    let value = i128::from(value);
    write_groups(value, signed_groups(value), bytes);
}

/// Appends the lowest `groups` groups of the number, of which the last says that none follows. They are padded where
/// there are more than the shortest form has.
pub fn write_groups(value: i128, groups: usize, bytes: &mut Vec<u8>) {
    for i in 0..groups {
        let group = (value >> (7 * i)).rem_euclid(128) as u8;
        bytes.push(if i + 1 < groups { 0x80 + group } else { group });
    }
}
