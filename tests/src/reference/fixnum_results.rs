//! The exact results of the fixnum operations, as integers that may be too large for a fixnum.

/// Both results for arguments in the code's domain; the second is 0 where the operation has one.
pub fn exact(code: u64, width: u32, args: &[i128]) -> (i128, i128) {
    let first = match code {
        1..=5 => i128::from(args.windows(2).all(|pair| compare(code, pair[0], pair[1]))),
        6..=10 => i128::from(predicate(code, args[0])),
        11 => *args.iter().max().expect("fxmax takes an argument"),
        12 => *args.iter().min().expect("fxmin takes an argument"),
        13 => args[0] + args[1],
        14 => args[0] * args[1],
        15 if args.len() == 1 => -args[0],
        15 => args[0] - args[1],
        16..=21 => return division(code, args[0], args[1]),
        22 => return low_and_carry(width, args[0] + args[1] + args[2]),
        23 => return low_and_carry(width, args[0] - args[1] - args[2]),
        24 => return low_and_carry(width, args[0] * args[1] + args[2]),
        25..=29 => bitwise(code, args),
        30 => bit_count(args[0]),
        31 => length(args[0]),
        32 if args[0] == 0 => -1,
        32 => i128::from(args[0].trailing_zeros()),
        33 => i128::from(bit(args[0], args[1])),
        37 | 38 => shift(args[0], args[1]),
        39 => shift(args[0], -args[1]),
        _ => fields(code, width, args),
    };
    (first, 0)
}

fn compare(code: u64, x: i128, y: i128) -> bool {
    match code {
        1 => x == y,
        2 => x > y,
        3 => x < y,
        4 => x >= y,
        _ => x <= y,
    }
}

fn predicate(code: u64, x: i128) -> bool {
    match code {
        6 => x == 0,
        7 => x > 0,
        8 => x < 0,
        9 => x.rem_euclid(2) == 1,
        _ => x.rem_euclid(2) == 0,
    }
}

fn division(code: u64, x: i128, y: i128) -> (i128, i128) {
    let (q, m) = if code <= 18 { (x.div_euclid(y), x.rem_euclid(y)) } else { div0_and_mod0(x, y) };
    match code {
        16 | 19 => (q, 0),
        17 | 20 => (m, 0),
        _ => (q, m),
    }
}

/// x = q*y + m with -|y| <= 2m < |y|.
fn div0_and_mod0(x: i128, y: i128) -> (i128, i128) {
    let remainder = x.rem_euclid(y);
    let m = if 2 * remainder < y.abs() { remainder } else { remainder - y.abs() };
    ((x - m) / y, m)
}

fn low_and_carry(width: u32, s: i128) -> (i128, i128) {
    let (q, m) = div0_and_mod0(s, 1 << width);
    (m, q)
}

fn bitwise(code: u64, args: &[i128]) -> i128 {
    match code {
        25 => -args[0] - 1,
        26 => args.iter().fold(-1, |a, b| a & b),
        27 => args.iter().fold(0, |a, b| a | b),
        28 => args.iter().fold(0, |a, b| a ^ b),
        _ => (args[0] & args[1]) | (!args[0] & args[2]),
    }
}

fn bit_count(x: i128) -> i128 {
    if x >= 0 {
        i128::from(x.count_ones())
    } else {
        !bit_count(!x)
    }
}

/// By the computation of R6RS.
fn length(x: i128) -> i128 {
    let mut bits = if x < 0 { !x } else { x };
    let mut result = 0;
    while bits != 0 {
        bits >>= 1;
        result += 1;
    }
    result
}

/// The floor of x * 2^distance.
fn shift(x: i128, distance: i128) -> i128 {
    if distance >= 0 {
        x * (1 << distance)
    } else {
        x.div_euclid(1 << -distance)
    }
}

fn bit(x: i128, i: i128) -> bool {
    (x >> i) & 1 == 1
}

/// The fixnum whose bit i is `bits(i)`; bit width - 1 is the sign.
fn from_bits(width: u32, bits: impl Fn(i128) -> bool) -> i128 {
    let sign = i128::from(width) - 1;
    let low: i128 = (0..sign).filter(|&i| bits(i)).map(|i| 1 << i).sum();
    if bits(sign) {
        low - (1 << sign)
    } else {
        low
    }
}

/// The operations that replace a bit or take or rearrange a field, each bit as R6RS and 01 place it.
fn fields(code: u64, width: u32, args: &[i128]) -> i128 {
    let (x, start) = (args[0], args[1]);
    if code == 34 {
        return from_bits(width, |i| if i == start { args[2] == 1 } else { bit(x, i) });
    }
    let end = args[2];
    let inside = |i: i128| start <= i && i < end;
    match code {
        35 => from_bits(width, |i| inside(start + i) && bit(x, start + i)),
        36 => from_bits(width, |i| if inside(i) { bit(args[3], i - start) } else { bit(x, i) }),
        40 => {
            // An empty field has no bit inside: nothing is taken mod 0.
            let source = |i: i128| start + (i - start - args[3]).rem_euclid(end - start);
            from_bits(width, |i| bit(x, if inside(i) { source(i) } else { i }))
        }
        _ => from_bits(width, |i| bit(x, if inside(i) { start + end - 1 - i } else { i })),
    }
}
