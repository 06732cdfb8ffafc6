//! Numbers in groups: the examples of DWARF's manual, the limits of each number of groups, and every fault.

use crate::random::Random;
use crate::reference::rule::leb128::NumberFault::{self, *};
use crate::reference::rule::leb128::{
    read_signed, read_unsigned, write_groups, write_signed, write_unsigned, SIGNED_GROUPS, UNSIGNED_GROUPS,
};

/// The table of examples in DWARF's manual, the section on variable length data.
#[test]
fn unsigned_examples() {
    let examples: [(u64, &[u8]); 6] =
        [(2, &[2]), (127, &[127]), (128, &[0x80, 1]), (129, &[0x81, 1]), (130, &[0x82, 1]), (12857, &[0xB9, 0x64])];
    for (value, bytes) in examples {
        assert_eq!(unsigned(value), bytes);
        assert_eq!(read_unsigned(bytes), Ok((value, bytes.len())));
    }
}

#[test]
fn signed_examples() {
    let examples: [(i64, &[u8]); 8] = [
        (2, &[2]),
        (-2, &[0x7E]),
        (127, &[0xFF, 0]),
        (-127, &[0x81, 0x7F]),
        (128, &[0x80, 1]),
        (-128, &[0x80, 0x7F]),
        (129, &[0x81, 1]),
        (-129, &[0xFF, 0x7E]),
    ];
    for (value, bytes) in examples {
        assert_eq!(signed(value), bytes);
        assert_eq!(read_signed(bytes), Ok((value, bytes.len())));
    }
}

/// 63 and -64 are the last of one group, 2^62 - 1 and -2^62 of nine, and the limits of 64 bits take ten.
#[test]
fn signed_limits() {
    for (value, groups) in [(63, 1), (64, 2), (-64, 1), (-65, 2), ((1 << 62) - 1, 9), (1 << 62, 10), (-1 << 62, 9)] {
        assert_eq!(signed(value).len(), groups, "{value}");
    }
    let (most, least) = (signed(i64::MAX), signed(i64::MIN));
    assert_eq!(most, [0xFF, 0xFF, 0xFF, 0xFF, 0xFF, 0xFF, 0xFF, 0xFF, 0xFF, 0]);
    assert_eq!(least, [0x80, 0x80, 0x80, 0x80, 0x80, 0x80, 0x80, 0x80, 0x80, 0x7F]);
    assert_eq!(read_signed(&most), Ok((i64::MAX, 10)));
    assert_eq!(read_signed(&least), Ok((i64::MIN, 10)));
}

#[test]
fn unsigned_limits() {
    let greatest = (1 << 63) - 1;
    assert_eq!(unsigned(greatest), [0xFF, 0xFF, 0xFF, 0xFF, 0xFF, 0xFF, 0xFF, 0xFF, 0x7F]);
    assert_eq!(read_unsigned(&unsigned(greatest)), Ok((greatest, 9)));
    assert_eq!(read_unsigned(&unsigned(greatest + 1)), Err(TooManyGroups { at_end: false }));
}

#[test]
fn padded() {
    for bytes in [&[0x80, 0][..], &[0x82, 0], &[0xFF, 0], &[0x80, 0x80, 0], &[0x80, 0x81, 0]] {
        assert_eq!(read_unsigned(bytes), Err(Padded), "{bytes:?}");
    }
    for bytes in [&[0x80, 0][..], &[0xBF, 0], &[0xFF, 0x7F], &[0xC0, 0x7F], &[0x80, 0x80, 0], &[0x80, 0xFF, 0x7F]] {
        assert_eq!(read_signed(bytes), Err(Padded), "{bytes:?}");
    }
    for (value, groups) in [(0, 9), (5, 9), (-1, 10), ((1 << 62) - 1, 10), (-1 << 62, 10)] {
        let bytes = written(value, groups);
        let got = if groups == 9 { faulty_unsigned(&bytes) } else { faulty_signed(&bytes) };
        assert_eq!(got, Padded, "{value} in {groups}");
    }
}

/// Bits 64 to 69 of the tenth group have to repeat bit 63.
#[test]
fn the_tenth_group() {
    for last in 0..=0x7F {
        for ninth in [0x80, 0xBF, 0xC0, 0xFF] {
            let mut bytes = vec![0x80; 8];
            bytes.extend([ninth, last]);
            let expected = match (ninth, last) {
                (0xC0.., 0) => Ok((((ninth - 0x80) as i64) << 56, 10)),
                (..=0xBF, 0x7F) => Ok((i64::MIN + (((ninth - 0x80) as i64) << 56), 10)),
                (_, 0) | (_, 0x7F) => Err(Padded),
                _ => Err(TooLarge),
            };
            assert_eq!(read_signed(&bytes), expected, "{bytes:?}");
        }
    }
}

#[test]
fn cut_off() {
    for groups in 0..=12 {
        let bytes = vec![0x81; groups];
        let early = EndsEarly { groups };
        let many = |most| TooManyGroups { at_end: groups == most };
        assert_eq!(faulty_unsigned(&bytes), if groups < UNSIGNED_GROUPS { early } else { many(UNSIGNED_GROUPS) });
        assert_eq!(faulty_signed(&bytes), if groups < SIGNED_GROUPS { early } else { many(SIGNED_GROUPS) });
    }
}

#[test]
fn what_is_written_is_read() {
    let mut random = Random::new(41);
    for _ in 0..100_000 {
        let value = random.next_i64() >> random.below(64);
        let bytes = [signed(value), vec![random.next_u32() as u8]].concat();
        assert_eq!(read_signed(&bytes), Ok((value, bytes.len() - 1)));
        let value = random.next_u64() >> (1 + random.below(63));
        let bytes = [unsigned(value), vec![random.next_u32() as u8]].concat();
        assert_eq!(read_unsigned(&bytes), Ok((value, bytes.len() - 1)));
    }
}

fn unsigned(value: u64) -> Vec<u8> {
    let mut bytes = Vec::new();
    write_unsigned(value, &mut bytes);
    bytes
}

fn signed(value: i64) -> Vec<u8> {
    let mut bytes = Vec::new();
    write_signed(value, &mut bytes);
    bytes
}

fn written(value: i128, groups: usize) -> Vec<u8> {
    let mut bytes = Vec::new();
    write_groups(value, groups, &mut bytes);
    bytes
}

fn faulty_unsigned(bytes: &[u8]) -> NumberFault {
    read_unsigned(bytes).expect_err("no number")
}

fn faulty_signed(bytes: &[u8]) -> NumberFault {
    read_signed(bytes).expect_err("no number")
}
