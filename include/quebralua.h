/* Quebralua: the R6RS fixnum operations at any width from 24 to 64, the R6RS bitwise operations on integers in 32-bit
   limbs, the conversions between the two, the running fold that makes an identifier of bytes, stored rules, and some
   flonums. Link libquebralua.a, which `tools/staticlib` writes.

   Every call returns, whatever numbers come in. An answer begins with a refusal number:

     0  done
     1  the width is below 24 or above 64
     2  the code is not 1 to 41
     3  the argument count is not allowed for the code, the inputs of a rule are not sixteen, or the count of flonums is
        not 1 to 4
     4  a counted argument, the number to convert, the accumulator, a piece, or a constant or an input of a rule is not a
        fixnum at the width; never at width 64, where each int64_t is one
     5  a divisor, position, field, distance, count or new bit is outside its domain;
        or the exact result of fx- is not a fixnum
     6  the exact result is not a fixnum, or a shift's result would have more than 1,024 limbs
     7  an operand has no limb, more than 1,024, or, but for trim, more than its integer needs
     8  the result is longer than the capacity of the output buffer
     9  the fold is not open
    10  the bytes are not a stored rule

   The first that holds is given, in this order: fixnum calls 1, 2, 3, 4, 5, 6; limb calls 7, 5, 6, 8; limbs to fixnum
   1, 7, 6; fixnum to limbs 1, 4, 8; opening a fold 1, 4, 5; its other calls 9, 4. Reading a rule gives 10 alone; its evaluation
   3, 10, and then what it meets first of 4, 5, 6. A fixnum to a flonum 1, 4; the smallest and the largest flonum 3. A refused
   call answers 0 for every result and length, and writes no limb of the output buffer. It leaves a fold as it was, unless
   it is an opening.

   The `place` of a fixnum answer says which argument refusal 4 or 5 is about, 1 for a to 4 for d. For 4 it is the first
   counted argument that is not a fixnum; for 5 the first, left to right, that is outside its domain, given those before
   it: an end is tested against the start. It is 0 in every other answer, and where 5 is about the result of fx-. The
   `place` of an opening is that of its fxrotate-bit-field: accumulator 1, start 2, end 3, count 4.

   What a caller owes:
   - Each operand pointer is valid for reading its length in limbs, in bytes for a chunk or a rule, or in numbers for the
     inputs of a rule, and `out` for writing `nout` limbs. NULL is fine where the length is 0. A `ql_fold *` is never NULL.
   - The output buffer overlaps no operand, and a fold none of the bytes of its chunk. Operands may overlap each other.
   - No other thread writes these limbs, bytes or folds during the call, nor reads a fold that the call changes. The
     library keeps no state and no pointer between calls.
   - Flonum calls are made while rounding is to nearest (FE_TONEAREST of <fenv.h>, which every program starts with) and
     subnormal numbers are not taken for zero (as code built with -ffast-math may have set). In another rounding mode
     ql_fixnum_to_flonum may answer the other of the two flonums around the fixnum; nothing else depends on that mode. */

#ifndef QUEBRALUA_H
#define QUEBRALUA_H

#include <stddef.h>
#include <stdint.h>

#ifdef __cplusplus
extern "C" {
#endif

/* `place` is the number of the argument that refusal 4 or 5 is about, or 0. */
typedef struct { uint64_t refusal; int64_t first; int64_t second; uint64_t place; } ql_fixnum_answer;
typedef struct { uint64_t refusal; uint64_t length; } ql_written;
typedef struct { uint64_t refusal; int64_t value; } ql_value;

/* Fixnums.

   A fixnum at width w is an integer from -2^(w-1) to 2^(w-1) - 1. The arguments are the first `count` of a, b, c, d, in
   R6RS's order; the others have no influence. An operation with one result puts 0 in `second`; yes is 1 and no is 0.

     1 fx=?   2 fx>?   3 fx<?   4 fx>=?   5 fx<=?                            2 to 4 arguments
     6 fxzero?   7 fxpositive?   8 fxnegative?   9 fxodd?   10 fxeven?       1
     11 fxmax   12 fxmin                                                     1 to 4
     13 fx+   14 fx*                                                         2
     15 fx-                                                                  1 or 2
     16 fxdiv   17 fxmod   18 fxdiv-and-mod                                  2
     19 fxdiv0   20 fxmod0   21 fxdiv0-and-mod0                              2
     22 fx+/carry   23 fx-/carry   24 likewise of fx*                        3
     25 fxnot                                                                1
     26 fxand   27 fxior   28 fxxor                                          0 to 4
     29 fxif                                                                 3
     30 fxbit-count   31 fxlength   32 fxfirst-bit-set                       1
     33 fxbit-set? (number, position)                                        2
     34 fxcopy-bit (number, position, new bit)                               3
     35 fxbit-field (number, start, end)                                     3
     36 fxcopy-bit-field (number, start, end, source)                        4
     37 fxarithmetic-shift   38 -left   39 -right (number, distance)         2
     40 fxrotate-bit-field (number, start, end, count)                       4
     41 fxreverse-bit-field (number, start, end)                             3

   Positions, starts and ends are 0 to w - 1, with start <= end; the distance of 37 is -(w-1) to w - 1, of 38 and 39 it is
   0 to w - 1; the count of 40 is 0 to end - start; a new bit is 0 or 1. Codes 18, 21 and 22 to 24 have two results:
   quotient and remainder, and the low word and the carry. */
ql_fixnum_answer ql_fixnum(uint64_t width, uint64_t code, uint64_t count, int64_t a, int64_t b, int64_t c, int64_t d);

/* Integers in limbs.

   An integer is 1 to 1,024 limbs, least significant first, in two's complement: the top bit of the last limb continues
   for ever. It has one spelling, the shortest: 0 is one limb 0, -1 is one limb 0xFFFFFFFF, and no last limb only continues
   the top bit of the limb before it. So two integers are equal exactly where their limbs are, and limbs may serve as a
   key. Every operand has that spelling, conversion's too, else it is refused 7; ql_bitwise_trim makes it of any limbs.
   Every result has it. A result is written to out[first] and the limbs after it, and `length` is the number of its limbs.
   Every other limb of the output buffer stays as it was. The capacity is nout - first, or 0 where first is greater than
   nout. */

/* The shortest limbs with the value of x, which has 1 to 1,024 limbs and may be padded. Refusals 7, for its length alone,
   and 8. */
ql_written ql_bitwise_trim(const uint32_t *x, size_t nx, uint32_t *out, size_t nout, uint64_t first);

/* Each bit of x inverted. */
ql_written ql_bitwise_not(const uint32_t *x, size_t nx, uint32_t *out, size_t nout, uint64_t first);

/* Bit by bit: and, inclusive or, exclusive or. */
ql_written ql_bitwise_and(const uint32_t *x, size_t nx, const uint32_t *y, size_t ny,
                          uint32_t *out, size_t nout, uint64_t first);
ql_written ql_bitwise_ior(const uint32_t *x, size_t nx, const uint32_t *y, size_t ny,
                          uint32_t *out, size_t nout, uint64_t first);
ql_written ql_bitwise_xor(const uint32_t *x, size_t nx, const uint32_t *y, size_t ny,
                          uint32_t *out, size_t nout, uint64_t first);

/* Bit by bit: the bit of y where x has a 1, the bit of z where x has a 0. */
ql_written ql_bitwise_if(const uint32_t *x, size_t nx, const uint32_t *y, size_t ny, const uint32_t *z, size_t nz,
                         uint32_t *out, size_t nout, uint64_t first);

/* x with the bit at `position` (0 to 32,766) replaced by `bit` (0 or 1). */
ql_written ql_bitwise_copy_bit(const uint32_t *x, size_t nx, int64_t position, int64_t bit,
                               uint32_t *out, size_t nout, uint64_t first);

/* A field is the bits from `start` (inclusive) to `end` (exclusive), with 0 <= start <= end <= 32,767. */

/* The field of x as a number that is not negative. */
ql_written ql_bitwise_bit_field(const uint32_t *x, size_t nx, int64_t start, int64_t end,
                                uint32_t *out, size_t nout, uint64_t first);

/* x with its field replaced by the lowest end - start bits of y. */
ql_written ql_bitwise_copy_bit_field(const uint32_t *x, size_t nx, int64_t start, int64_t end,
                                     const uint32_t *y, size_t ny, uint32_t *out, size_t nout, uint64_t first);

/* The floor of x * 2^distance, for any distance. */
ql_written ql_bitwise_shift(const uint32_t *x, size_t nx, int64_t distance,
                            uint32_t *out, size_t nout, uint64_t first);

/* x * 2^distance; and the floor of x / 2^distance. The distance is at least 0. */
ql_written ql_bitwise_shift_left(const uint32_t *x, size_t nx, int64_t distance,
                                 uint32_t *out, size_t nout, uint64_t first);
ql_written ql_bitwise_shift_right(const uint32_t *x, size_t nx, int64_t distance,
                                  uint32_t *out, size_t nout, uint64_t first);

/* x with its field rotated by `count` (at least 0, taken mod end - start) toward the more significant bits. An empty
   field changes nothing. */
ql_written ql_bitwise_rotate(const uint32_t *x, size_t nx, int64_t start, int64_t end, int64_t count,
                             uint32_t *out, size_t nout, uint64_t first);

/* x with the bits of its field in reverse order. */
ql_written ql_bitwise_reverse(const uint32_t *x, size_t nx, int64_t start, int64_t end,
                              uint32_t *out, size_t nout, uint64_t first);

/* How many bits of x are 1 if x >= 0; the complement of that of the complement of x if x < 0. */
ql_value ql_bitwise_bit_count(const uint32_t *x, size_t nx);

/* The fewest bits, beside the sign, that hold x. */
ql_value ql_bitwise_length(const uint32_t *x, size_t nx);

/* The position of the lowest 1 of x; -1 for 0. */
ql_value ql_bitwise_first_bit_set(const uint32_t *x, size_t nx);

/* 1 if the bit of x at `position` (at least 0) is 1, else 0. */
ql_value ql_bitwise_bit_set(const uint32_t *x, size_t nx, int64_t position);

/* Conversion. */

/* x as a fixnum at the width. */
ql_value ql_limbs_to_fixnum(uint64_t width, const uint32_t *x, size_t nx);

/* The fixnum n at the width, written as limbs. */
ql_written ql_fixnum_to_limbs(uint64_t width, int64_t n, uint32_t *out, size_t nout, uint64_t first);

/* The running fold.

   The record is the caller's. For each byte the accumulator is rotated by `count` in its field from `start` up to, but
   not at, `end` (code 40), and then xored with the byte (code 28), which is from 0 to 255. It does not matter how the
   bytes are cut into chunks. A record is open where opening with its own five fields would be done, whoever filled it
   in; the other calls refuse one that is not open with 9. */
typedef struct { uint64_t width; int64_t start; int64_t end; int64_t count; int64_t accumulator; } ql_fold;
typedef struct { uint64_t refusal; uint64_t place; } ql_opened;

/* Fills in the record, whatever was in it. A refused opening fills it with zeros, and so it is not open. */
ql_opened ql_fold_open(ql_fold *fold, uint64_t width, int64_t start, int64_t end, int64_t count, int64_t accumulator);

/* Folds n bytes, or none, into the accumulator. Returns the refusal number: 0 or 9. */
uint64_t ql_fold_chunk(ql_fold *fold, const uint8_t *bytes, size_t n);

/* The accumulator. */
ql_value ql_fold_read(const ql_fold *fold);

/* As if n more bytes had been folded, of which only `piece` is known: what they give in a fold of the same settings that
   was opened with accumulator 0. So pieces may be folded side by side. Returns the refusal number: 0, 4 or 9. */
uint64_t ql_fold_join(ql_fold *fold, int64_t piece, uint64_t n);

/* Stored rules.

   A rule is bytes: a width, and then one form. A form is 0 and a constant; or 1 and the index of an input, 0 to 15; or 2,
   a code, an argument count and that many forms. Each of these numbers is LEB128, in the shortest form: groups of seven
   bits, the least significant first, with 128 added to each byte but the last. Constants are signed numbers of 64 bits in
   two's complement, of at most ten groups; the others are unsigned, of at most nine. The width is 24 to 64, or 0, which
   means 30. The code is one of a fixnum operation with one result: not 18, nor 21 to 24. Forms are nested at most 32 deep,
   one without arguments being 1 deep. A rule has at most 4,096 bytes, and nothing after its form.

   All else is refused 10 with the offset where the earliest offending item begins: a number or a tag that is none of
   these, a form at depth 33 where its tag would begin, the byte after the form, 4,096 for too many bytes; or the length
   of the rule where it ends early. A number that the end cuts off ends early, if it has not all the groups that it may
   have. `offset` is 0 in every other answer. */
typedef struct { uint64_t refusal; uint64_t offset; uint64_t width; } ql_rule_read_answer;
typedef struct { uint64_t refusal; uint64_t place; uint64_t offset; int64_t value; } ql_rule_answer;

/* Reads a rule and runs nothing of it. `width` is the one that the rule runs at. */
ql_rule_read_answer ql_rule_read(const uint8_t *rule, size_t n);

/* The value of a rule for sixteen inputs: `ninputs` is 16. The whole rule is read before any of it is run. A constant or an
   input is looked at when evaluation comes to it, and must be a fixnum at the rule's width: else 4, with place 0. The
   arguments of a call are evaluated from left to right, all of them, and then the call is made as ql_fixnum makes it. The
   first refusal is the rule's, with the place of the call that it is met in. Inputs that the rule does not name have no influence. */
ql_rule_answer ql_rule_evaluate(const uint8_t *rule, size_t n, const int64_t *inputs, size_t ninputs);

/* Flonums: IEEE numbers of 64 bits.

   `kind` says what a call answers: 0 a refusal, 1 a fixnum, 2 a flonum; the other field is 0. But for the two questions,
   a NaN that counts, whatever its sign and payload, gives the one NaN whose bits are 0x7FF8000000000000. */
typedef struct { uint64_t refusal; uint64_t kind; int64_t fixnum; double flonum; } ql_flonum_answer;

/* The flonum that is nearest to the fixnum n at the width; of two that are as near, the one whose last bit is 0. */
ql_flonum_answer ql_fixnum_to_flonum(uint64_t width, int64_t n);

/* x rounded to a whole number: down, up, toward zero, or to the nearest, where of two that are as near the even one is
   taken. An infinity stays. The sign stays, too: -0.0 stays -0.0, and a negative x that rounds to zero gives -0.0. */
ql_flonum_answer ql_flfloor(double x);
ql_flonum_answer ql_flceiling(double x);
ql_flonum_answer ql_fltruncate(double x);
ql_flonum_answer ql_flround(double x);

/* x with its sign bit cleared. */
ql_flonum_answer ql_flabs(double x);

/* The fixnum 1 if x is a NaN, else 0; and 1 if x is neither a NaN nor an infinity, else 0. */
ql_flonum_answer ql_flnan(double x);
ql_flonum_answer ql_flfinite(double x);

/* The smallest and the largest of the first `count` of a, b, c, d; the others have no influence. Of equal ones, -0.0 and
   0.0 too, the earlier argument is answered. One NaN among them gives the one NaN in both halves. A refused call answers
   0.0 in both. */
typedef struct { uint64_t refusal; double smallest; double largest; } ql_extremes;
ql_extremes ql_flextremes(uint64_t count, double a, double b, double c, double d);

/* The bits of x; for every NaN those of the one NaN. */
uint64_t ql_flonum_bits(double x);

#ifdef __cplusplus
}
#endif

#endif
