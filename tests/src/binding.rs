//! Safe Rust calls over `include/quebralua.h`, to be copied into a program that links libquebralua.a. The header says
//! what each call means and when it is refused.
//!
//! Slices keep what the C library asks of pointers: each is valid for its length, and the borrow checker keeps the
//! output buffer apart from the operands. An empty slice is passed as NULL with length 0.

/// Why a call is refused. The values are the refusal numbers.
#[derive(Clone, Copy, Debug, PartialEq, Eq)]
#[repr(u64)]
pub enum Refusal {
    Width = 1,
    Code = 2,
    ArgumentCount = 3,
    NotFixnum = 4,
    Domain = 5,
    Size = 6,
    Operand = 7,
    Room = 8,
    Unopened = 9,
    Rule = 10,
}

/// The answer of a fixnum call. Refusal 0 is done; an operation with one result has 0 in `second`. The place is that of
/// `FixnumRefusal`, or 0 for none.
#[derive(Clone, Copy, Debug, PartialEq, Eq)]
#[repr(C)]
pub struct FixnumAnswer {
    pub refusal: u64,
    pub first: i64,
    pub second: i64,
    pub place: u64,
}

/// Why a fixnum call is refused, and for which argument.
#[derive(Clone, Copy, Debug, PartialEq, Eq)]
pub struct FixnumRefusal {
    pub refusal: Refusal,
    /// The number of the argument, 1 to 4. With `NotFixnum` it is the first that is no fixnum; with `Domain` the first,
    /// left to right, that is outside its domain, given those before it: an end is tested against the start. None where
    /// no argument alone is the reason: every other refusal, and `Domain` where the result of fx- is no fixnum.
    pub place: Option<u64>,
}

/// The answer of a call that writes limbs: how many it wrote from the first limb on. Refusal 0 is done.
#[derive(Clone, Copy, Debug, PartialEq, Eq)]
#[repr(C)]
pub struct Written {
    pub refusal: u64,
    pub length: u64,
}

/// The answer of a call that writes nothing. Refusal 0 is done.
#[derive(Clone, Copy, Debug, PartialEq, Eq)]
#[repr(C)]
pub struct Value {
    pub refusal: u64,
    pub value: i64,
}

/// A running fold, which makes an identifier of bytes that come in chunks: for each byte the accumulator is rotated, as
/// fxrotate-bit-field does by this field and count, and then xored with the byte. However the same bytes are cut, empty
/// chunks among them, the identifier is the same.
///
/// ```ignore
/// let mut fold = Fold::new(61, 0, 60, 7, 0)?;
/// fold.chunk(b"Quebra").result()?;
/// fold.chunk(b"lua").result()?;
/// let identifier = fold.read().result()?;
/// ```
///
/// The record is plain numbers: a copy of it is a fold of its own, and it may be stored and read back. Where its own
/// fields could not be opened, it is unopened: `chunk`, `read` and `join` are refused with `Unopened`, and change
/// nothing. The default record, which is zero, is unopened.
#[derive(Clone, Copy, Debug, Default, PartialEq, Eq)]
#[repr(C)]
pub struct Fold {
    pub width: u64,
    pub start: i64,
    pub end: i64,
    pub count: i64,
    pub accumulator: i64,
}

/// The answer of an opening. Refusal 0 is done. The place is that of `FixnumRefusal`, counted as accumulator 1, start 2,
/// end 3, count 4, or 0 for none.
#[derive(Clone, Copy, Debug, PartialEq, Eq)]
#[repr(C)]
#[must_use]
pub struct Opened {
    pub refusal: u64,
    pub place: u64,
}

/// The answer of a call that changes a fold. Refusal 0 is done.
#[derive(Clone, Copy, Debug, PartialEq, Eq)]
#[repr(transparent)]
#[must_use]
pub struct Folded {
    pub refusal: u64,
}

/// How many inputs a rule is evaluated on.
pub const INPUTS: usize = 16;

/// The answer of a rule's evaluation. Refusal 0 is done. Place and offset are those of `RuleRefusal`, or 0 for none.
#[derive(Clone, Copy, Debug, PartialEq, Eq)]
#[repr(C)]
pub struct RuleAnswer {
    pub refusal: u64,
    pub place: u64,
    pub offset: u64,
    pub value: i64,
}

/// The answer of a rule's reading: the width that it runs at. Refusal 0 is done. The offset is that of `RuleRefusal`, or
/// 0 for none.
#[derive(Clone, Copy, Debug, PartialEq, Eq)]
#[repr(C)]
pub struct RuleReadAnswer {
    pub refusal: u64,
    pub offset: u64,
    pub width: u64,
}

/// Why a rule is refused, and where.
#[derive(Clone, Copy, Debug, PartialEq, Eq)]
pub struct RuleRefusal {
    pub refusal: Refusal,
    /// The place of the call that is refused, as in `FixnumRefusal`. None for a constant or an input that is no fixnum.
    pub place: Option<u64>,
    /// With `Rule`, and no other refusal: where the first item begins that is not allowed, or the rule's length if the
    /// rule ends early.
    pub offset: Option<u64>,
}

/// The answer of a call on one flonum, and of fixnum->flonum. Refusal 0 is done. The kind is 1 for a fixnum, 2 for a
/// flonum, and 0 for neither where the call is refused; the field that is not meant is 0.
///
/// It has no `PartialEq`: -0.0 would equal 0.0, and the NaN nothing. `to_bits` tells flonums apart.
#[derive(Clone, Copy, Debug)]
#[repr(C)]
pub struct FlonumAnswer {
    pub refusal: u64,
    pub kind: u64,
    pub fixnum: i64,
    pub flonum: f64,
}

/// What a done call answers: a fixnum for `flnan` and `flfinite`, else a flonum.
#[derive(Clone, Copy, Debug)]
pub enum Number {
    Fixnum(i64),
    Flonum(f64),
}

/// The smallest and the largest of some flonums. Refusal 0 is done; a refused call has 0.0 in both.
#[derive(Clone, Copy, Debug)]
#[repr(C)]
pub struct Extremes {
    pub refusal: u64,
    pub smallest: f64,
    pub largest: f64,
}

impl Refusal {
    /// The refusal with this number, which is 1 to 10.
    fn from_number(number: u64) -> Refusal {
        use Refusal::*;
        let all = [Width, Code, ArgumentCount, NotFixnum, Domain, Size, Operand, Room, Unopened, Rule];
        all[number as usize - 1]
    }
}

impl FixnumRefusal {
    /// The refusal with this number, which is 1 to 10, and this place, or none if it is 0.
    fn from_numbers(number: u64, place: u64) -> FixnumRefusal {
        FixnumRefusal { refusal: Refusal::from_number(number), place: (place != 0).then_some(place) }
    }
}

impl RuleRefusal {
    /// The refusal with this number, which is 1 to 10. A place of 0 is none, and so is an offset with another refusal.
    fn from_numbers(number: u64, place: u64, offset: u64) -> RuleRefusal {
        let refusal = Refusal::from_number(number);
        let offset = (refusal == Refusal::Rule).then_some(offset);
        RuleRefusal { refusal, place: (place != 0).then_some(place), offset }
    }
}

impl FixnumAnswer {
    pub fn result(self) -> Result<(i64, i64), FixnumRefusal> {
        match self.refusal {
            0 => Ok((self.first, self.second)),
            number => Err(FixnumRefusal::from_numbers(number, self.place)),
        }
    }
}

/// So that `?` serves every call where the place is not needed.
impl From<FixnumRefusal> for Refusal {
    fn from(refused: FixnumRefusal) -> Refusal {
        refused.refusal
    }
}

impl From<RuleRefusal> for Refusal {
    fn from(refused: RuleRefusal) -> Refusal {
        refused.refusal
    }
}

impl RuleAnswer {
    pub fn result(self) -> Result<i64, RuleRefusal> {
        match self.refusal {
            0 => Ok(self.value),
            number => Err(RuleRefusal::from_numbers(number, self.place, self.offset)),
        }
    }
}

impl RuleReadAnswer {
    pub fn result(self) -> Result<u64, RuleRefusal> {
        match self.refusal {
            0 => Ok(self.width),
            number => Err(RuleRefusal::from_numbers(number, 0, self.offset)),
        }
    }
}

impl FlonumAnswer {
    pub fn result(self) -> Result<Number, Refusal> {
        match (self.refusal, self.kind) {
            (0, 1) => Ok(Number::Fixnum(self.fixnum)),
            (0, _) => Ok(Number::Flonum(self.flonum)),
            (number, _) => Err(Refusal::from_number(number)),
        }
    }
}

impl Extremes {
    /// The smallest, then the largest.
    pub fn result(self) -> Result<(f64, f64), Refusal> {
        match self.refusal {
            0 => Ok((self.smallest, self.largest)),
            number => Err(Refusal::from_number(number)),
        }
    }
}

impl Written {
    pub fn result(self) -> Result<usize, Refusal> {
        match self.refusal {
            0 => Ok(self.length as usize),
            number => Err(Refusal::from_number(number)),
        }
    }
}

impl Value {
    pub fn result(self) -> Result<i64, Refusal> {
        match self.refusal {
            0 => Ok(self.value),
            number => Err(Refusal::from_number(number)),
        }
    }
}

impl Opened {
    pub fn result(self) -> Result<(), FixnumRefusal> {
        match self.refusal {
            0 => Ok(()),
            number => Err(FixnumRefusal::from_numbers(number, self.place)),
        }
    }
}

impl Folded {
    pub fn result(self) -> Result<(), Refusal> {
        match self.refusal {
            0 => Ok(()),
            number => Err(Refusal::from_number(number)),
        }
    }
}

impl Fold {
    /// A fold that is open, from this accumulator.
    pub fn new(width: u64, start: i64, end: i64, count: i64, accumulator: i64) -> Result<Fold, FixnumRefusal> {
        let mut fold = Fold::default();
        fold.open(width, start, end, count, accumulator).result()?;
        Ok(fold)
    }

    /// Starts afresh, whatever the record held. It is refused where fxrotate-bit-field would be, on the accumulator with
    /// this field and count. A refused opening makes the whole record zero, also one that was open.
    pub fn open(&mut self, width: u64, start: i64, end: i64, count: i64, accumulator: i64) -> Opened {
        unsafe { ql_fold_open(self, width, start, end, count, accumulator) }
    }

    /// Folds the bytes, first to last. There may be none.
    pub fn chunk(&mut self, bytes: &[u8]) -> Folded {
        unsafe { ql_fold_chunk(self, read(bytes), bytes.len()) }
    }

    /// The accumulator.
    pub fn read(&self) -> Value {
        unsafe { ql_fold_read(self) }
    }

    /// Goes on as if `n` bytes had been folded, of which only `piece` is needed: what they come to by themselves, with
    /// the same settings from 0. So the parts of long data can be folded side by side, and joined in their order.
    ///
    /// ```ignore
    /// let mut part = Fold { accumulator: 0, ..fold };
    /// part.chunk(bytes).result()?;
    /// fold.join(part.read().result()?, bytes.len() as u64).result()?;
    /// ```
    ///
    /// Refused with `NotFixnum` where `piece` is no fixnum at the fold's width.
    pub fn join(&mut self, piece: i64, n: u64) -> Folded {
        unsafe { ql_fold_join(self, piece, n) }
    }
}

/// The operation with this code on the first `count` of the arguments.
pub fn fixnum(width: u64, code: u64, count: u64, args: [i64; 4]) -> FixnumAnswer {
    let [a, b, c, d] = args;
    unsafe { ql_fixnum(width, code, count, a, b, c, d) }
}

pub fn bitwise_not(x: &[u32], out: &mut [u32], first: u64) -> Written {
    unsafe { ql_bitwise_not(read(x), x.len(), write(out), out.len(), first) }
}

pub fn bitwise_and(x: &[u32], y: &[u32], out: &mut [u32], first: u64) -> Written {
    unsafe { ql_bitwise_and(read(x), x.len(), read(y), y.len(), write(out), out.len(), first) }
}

pub fn bitwise_ior(x: &[u32], y: &[u32], out: &mut [u32], first: u64) -> Written {
    unsafe { ql_bitwise_ior(read(x), x.len(), read(y), y.len(), write(out), out.len(), first) }
}

pub fn bitwise_xor(x: &[u32], y: &[u32], out: &mut [u32], first: u64) -> Written {
    unsafe { ql_bitwise_xor(read(x), x.len(), read(y), y.len(), write(out), out.len(), first) }
}

pub fn bitwise_if(x: &[u32], y: &[u32], z: &[u32], out: &mut [u32], first: u64) -> Written {
    unsafe { ql_bitwise_if(read(x), x.len(), read(y), y.len(), read(z), z.len(), write(out), out.len(), first) }
}

pub fn bitwise_copy_bit(x: &[u32], position: i64, bit: i64, out: &mut [u32], first: u64) -> Written {
    unsafe { ql_bitwise_copy_bit(read(x), x.len(), position, bit, write(out), out.len(), first) }
}

pub fn bitwise_bit_field(x: &[u32], start: i64, end: i64, out: &mut [u32], first: u64) -> Written {
    unsafe { ql_bitwise_bit_field(read(x), x.len(), start, end, write(out), out.len(), first) }
}

pub fn bitwise_copy_bit_field(x: &[u32], start: i64, end: i64, y: &[u32], out: &mut [u32], first: u64) -> Written {
    unsafe { ql_bitwise_copy_bit_field(read(x), x.len(), start, end, read(y), y.len(), write(out), out.len(), first) }
}

pub fn bitwise_shift(x: &[u32], distance: i64, out: &mut [u32], first: u64) -> Written {
    unsafe { ql_bitwise_shift(read(x), x.len(), distance, write(out), out.len(), first) }
}

pub fn bitwise_shift_left(x: &[u32], distance: i64, out: &mut [u32], first: u64) -> Written {
    unsafe { ql_bitwise_shift_left(read(x), x.len(), distance, write(out), out.len(), first) }
}

pub fn bitwise_shift_right(x: &[u32], distance: i64, out: &mut [u32], first: u64) -> Written {
    unsafe { ql_bitwise_shift_right(read(x), x.len(), distance, write(out), out.len(), first) }
}

pub fn bitwise_rotate(x: &[u32], start: i64, end: i64, count: i64, out: &mut [u32], first: u64) -> Written {
    unsafe { ql_bitwise_rotate(read(x), x.len(), start, end, count, write(out), out.len(), first) }
}

pub fn bitwise_reverse(x: &[u32], start: i64, end: i64, out: &mut [u32], first: u64) -> Written {
    unsafe { ql_bitwise_reverse(read(x), x.len(), start, end, write(out), out.len(), first) }
}

/// The shortest form of x, which may be padded here. Every other call refuses a padded operand with `Operand`, so limbs
/// that come from elsewhere are trimmed first; a result is the shortest form already.
///
/// ```ignore
/// let x = [5, 0, 0];
/// let mut out = [0; 3];
/// let length = bitwise_trim(&x, &mut out, 0).result()?; // 1: out begins with the limb 5
/// ```
pub fn bitwise_trim(x: &[u32], out: &mut [u32], first: u64) -> Written {
    unsafe { ql_bitwise_trim(read(x), x.len(), write(out), out.len(), first) }
}

pub fn bitwise_bit_count(x: &[u32]) -> Value {
    unsafe { ql_bitwise_bit_count(read(x), x.len()) }
}

pub fn bitwise_length(x: &[u32]) -> Value {
    unsafe { ql_bitwise_length(read(x), x.len()) }
}

pub fn bitwise_first_bit_set(x: &[u32]) -> Value {
    unsafe { ql_bitwise_first_bit_set(read(x), x.len()) }
}

pub fn bitwise_bit_set(x: &[u32], position: i64) -> Value {
    unsafe { ql_bitwise_bit_set(read(x), x.len(), position) }
}

pub fn limbs_to_fixnum(width: u64, x: &[u32]) -> Value {
    unsafe { ql_limbs_to_fixnum(width, read(x), x.len()) }
}

pub fn fixnum_to_limbs(width: u64, n: i64, out: &mut [u32], first: u64) -> Written {
    unsafe { ql_fixnum_to_limbs(width, n, write(out), out.len(), first) }
}

/// Reads a stored rule, and evaluates nothing.
pub fn rule_read(rule: &[u8]) -> RuleReadAnswer {
    unsafe { ql_rule_read(read(rule), rule.len()) }
}

/// Reads a stored rule, and evaluates it on these inputs. Those that it does not name have no influence.
///
/// ```ignore
/// let rule = [24, 2, 13, 2, 1, 3, 0, 0x7E]; // at width 24: (fx+ input-3 -2)
/// let value = rule_evaluate(&rule, &inputs).result()?;
/// ```
pub fn rule_evaluate(rule: &[u8], inputs: &[i64; INPUTS]) -> RuleAnswer {
    rule_evaluate_any(rule, inputs)
}

/// The same, on any number of inputs. Refused with `ArgumentCount`, before all else, where there are not sixteen.
pub fn rule_evaluate_any(rule: &[u8], inputs: &[i64]) -> RuleAnswer {
    unsafe { ql_rule_evaluate(read(rule), rule.len(), read(inputs), inputs.len()) }
}

/// The flonum that is nearest to the fixnum; of two that are as near, the one whose last bit is 0. Flonum calls are
/// made while rounding is to nearest, as in every program that does not change it.
///
/// ```ignore
/// if let Number::Flonum(x) = fixnum_to_flonum(61, 7).result()? {
///     println!("{x}"); // 7
/// }
/// ```
pub fn fixnum_to_flonum(width: u64, n: i64) -> FlonumAnswer {
    unsafe { ql_fixnum_to_flonum(width, n) }
}

/// Down to a whole number. The roundings keep an infinity, and the sign also of a result that is zero.
pub fn flfloor(x: f64) -> FlonumAnswer {
    unsafe { ql_flfloor(x) }
}

/// Up to a whole number.
pub fn flceiling(x: f64) -> FlonumAnswer {
    unsafe { ql_flceiling(x) }
}

/// To a whole number toward zero.
pub fn fltruncate(x: f64) -> FlonumAnswer {
    unsafe { ql_fltruncate(x) }
}

/// To the nearest whole number, and to the even one of two that are as near.
pub fn flround(x: f64) -> FlonumAnswer {
    unsafe { ql_flround(x) }
}

/// With the sign bit cleared.
pub fn flabs(x: f64) -> FlonumAnswer {
    unsafe { ql_flabs(x) }
}

/// The fixnum 1 for a NaN, else 0.
pub fn flnan(x: f64) -> FlonumAnswer {
    unsafe { ql_flnan(x) }
}

/// The fixnum 0 for a NaN or an infinity, else 1.
pub fn flfinite(x: f64) -> FlonumAnswer {
    unsafe { ql_flfinite(x) }
}

/// The smallest and the largest of the first `count` of the arguments, 1 to 4. Of equal ones, -0.0 and 0.0 too, the
/// earlier is answered. Refused with `ArgumentCount` for any other count.
///
/// ```ignore
/// let (smallest, largest) = flextremes(3, [0.5, -2.0, 7.0, 0.0]).result()?; // -2.0 and 7.0
/// ```
pub fn flextremes(count: u64, args: [f64; 4]) -> Extremes {
    let [a, b, c, d] = args;
    unsafe { ql_flextremes(count, a, b, c, d) }
}

/// The bits of a flonum; for every NaN those of the one NaN that calls answer, 0x7FF8000000000000.
pub fn flonum_bits(x: f64) -> u64 {
    unsafe { ql_flonum_bits(x) }
}

fn read<T>(items: &[T]) -> *const T {
    if items.is_empty() {
        std::ptr::null()
    } else {
        items.as_ptr()
    }
}

fn write(limbs: &mut [u32]) -> Out {
    if limbs.is_empty() {
        std::ptr::null_mut()
    } else {
        limbs.as_mut_ptr()
    }
}

type In = *const u32;
type Out = *mut u32;

#[link(name = "quebralua", kind = "static")]
extern "C" {
    fn ql_fixnum(width: u64, code: u64, count: u64, a: i64, b: i64, c: i64, d: i64) -> FixnumAnswer;
    fn ql_bitwise_not(x: In, nx: usize, out: Out, nout: usize, first: u64) -> Written;
    fn ql_bitwise_and(x: In, nx: usize, y: In, ny: usize, out: Out, nout: usize, first: u64) -> Written;
    fn ql_bitwise_ior(x: In, nx: usize, y: In, ny: usize, out: Out, nout: usize, first: u64) -> Written;
    fn ql_bitwise_xor(x: In, nx: usize, y: In, ny: usize, out: Out, nout: usize, first: u64) -> Written;
    #[rustfmt::skip]
    fn ql_bitwise_if(
        x: In,
        nx: usize,
        y: In,
        ny: usize,
        z: In,
        nz: usize,
        out: Out,
        nout: usize,
        first: u64,
    ) -> Written;
    #[rustfmt::skip]
    fn ql_bitwise_copy_bit(x: In, nx: usize, position: i64, bit: i64, out: Out, nout: usize, first: u64) -> Written;
    fn ql_bitwise_bit_field(x: In, nx: usize, start: i64, end: i64, out: Out, nout: usize, first: u64) -> Written;
    #[rustfmt::skip]
    fn ql_bitwise_copy_bit_field(
        x: In,
        nx: usize,
        start: i64,
        end: i64,
        y: In,
        ny: usize,
        out: Out,
        nout: usize,
        first: u64,
    ) -> Written;
    fn ql_bitwise_shift(x: In, nx: usize, distance: i64, out: Out, nout: usize, first: u64) -> Written;
    fn ql_bitwise_shift_left(x: In, nx: usize, distance: i64, out: Out, nout: usize, first: u64) -> Written;
    fn ql_bitwise_shift_right(x: In, nx: usize, distance: i64, out: Out, nout: usize, first: u64) -> Written;
    #[rustfmt::skip]
    fn ql_bitwise_rotate(
        x: In,
        nx: usize,
        start: i64,
        end: i64,
        count: i64,
        out: Out,
        nout: usize,
        first: u64,
    ) -> Written;
    fn ql_bitwise_reverse(x: In, nx: usize, start: i64, end: i64, out: Out, nout: usize, first: u64) -> Written;
    fn ql_bitwise_trim(x: In, nx: usize, out: Out, nout: usize, first: u64) -> Written;
    fn ql_bitwise_bit_count(x: In, nx: usize) -> Value;
    fn ql_bitwise_length(x: In, nx: usize) -> Value;
    fn ql_bitwise_first_bit_set(x: In, nx: usize) -> Value;
    fn ql_bitwise_bit_set(x: In, nx: usize, position: i64) -> Value;
    fn ql_limbs_to_fixnum(width: u64, x: In, nx: usize) -> Value;
    fn ql_fixnum_to_limbs(width: u64, n: i64, out: Out, nout: usize, first: u64) -> Written;
    fn ql_fold_open(fold: &mut Fold, width: u64, start: i64, end: i64, count: i64, accumulator: i64) -> Opened;
    fn ql_fold_chunk(fold: &mut Fold, bytes: *const u8, n: usize) -> Folded;
    fn ql_fold_read(fold: &Fold) -> Value;
    fn ql_fold_join(fold: &mut Fold, piece: i64, n: u64) -> Folded;
    fn ql_rule_read(rule: *const u8, n: usize) -> RuleReadAnswer;
    fn ql_rule_evaluate(rule: *const u8, n: usize, inputs: *const i64, ninputs: usize) -> RuleAnswer;
    fn ql_fixnum_to_flonum(width: u64, n: i64) -> FlonumAnswer;
    fn ql_flfloor(x: f64) -> FlonumAnswer;
    fn ql_flceiling(x: f64) -> FlonumAnswer;
    fn ql_fltruncate(x: f64) -> FlonumAnswer;
    fn ql_flround(x: f64) -> FlonumAnswer;
    fn ql_flabs(x: f64) -> FlonumAnswer;
    fn ql_flnan(x: f64) -> FlonumAnswer;
    fn ql_flfinite(x: f64) -> FlonumAnswer;
    fn ql_flextremes(count: u64, a: f64, b: f64, c: f64, d: f64) -> Extremes;
    fn ql_flonum_bits(x: f64) -> u64;
}
