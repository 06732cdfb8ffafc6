//! GMP's integers, as far as the benchmark calls them. Positions and sizes count bits.

use std::ffi::{c_int, c_ulong, c_void};

/// An initialised mpz_t.
#[repr(C)]
pub struct Mpz {
    alloc: c_int,
    size: c_int,
    limbs: *mut c_void,
}

impl Mpz {
    /// 0, with room for so many bits.
    pub fn with_room(bits: u64) -> Mpz {
        let mut z = Mpz { alloc: 0, size: 0, limbs: std::ptr::null_mut() };
        unsafe { __gmpz_init2(&mut z, bits) };
        z
    }

    /// The integer of limbs in two's complement, of which there is at least one.
    pub fn from_limbs(limbs: &[u32]) -> Mpz {
        let negative = limbs[limbs.len() - 1] >> 31 == 1;
        let sign = if negative { u32::MAX } else { 0 };
        let magnitude: Vec<u32> = limbs.iter().map(|limb| limb ^ sign).collect();
        let mut z = Mpz::with_room(32 * limbs.len() as u64);
        unsafe { __gmpz_import(&mut z, magnitude.len(), LEAST_FIRST, 4, NATIVE, 0, magnitude.as_ptr()) };
        if negative {
            let not = z;
            z = Mpz::with_room(32 * limbs.len() as u64);
            z.com(&not);
        }
        z
    }

    /// Limbs in two's complement, at least one, not always as few as it can be.
    pub fn to_limbs(&self) -> Vec<u32> {
        let mut magnitude = Mpz::with_room(1);
        let sign = if self.is_negative() { u32::MAX } else { 0 };
        if self.is_negative() {
            magnitude.com(self);
        } else {
            magnitude.set(self);
        }
        let mut limbs = vec![0; magnitude.bits() as usize / 32 + 2];
        unsafe { __gmpz_export(limbs.as_mut_ptr(), std::ptr::null_mut(), LEAST_FIRST, 4, NATIVE, 0, &magnitude) };
        limbs.iter().map(|limb| limb ^ sign).collect()
    }

    pub fn is_negative(&self) -> bool {
        self.size < 0
    }

    pub fn is_zero(&self) -> bool {
        self.size == 0
    }

    pub fn set(&mut self, x: &Mpz) {
        unsafe { __gmpz_set(self, x) }
    }

    pub fn com(&mut self, x: &Mpz) {
        unsafe { __gmpz_com(self, x) }
    }

    pub fn and(&mut self, x: &Mpz, y: &Mpz) {
        unsafe { __gmpz_and(self, x, y) }
    }

    pub fn ior(&mut self, x: &Mpz, y: &Mpz) {
        unsafe { __gmpz_ior(self, x, y) }
    }

    pub fn xor(&mut self, x: &Mpz, y: &Mpz) {
        unsafe { __gmpz_xor(self, x, y) }
    }

    /// x 2^distance
    pub fn mul_2exp(&mut self, x: &Mpz, distance: u64) {
        unsafe { __gmpz_mul_2exp(self, x, distance) }
    }

    /// The floor of x / 2^distance.
    pub fn fdiv_q_2exp(&mut self, x: &Mpz, distance: u64) {
        unsafe { __gmpz_fdiv_q_2exp(self, x, distance) }
    }

    /// The low bits of x.
    pub fn fdiv_r_2exp(&mut self, x: &Mpz, size: u64) {
        unsafe { __gmpz_fdiv_r_2exp(self, x, size) }
    }

    pub fn and_assign(&mut self, y: &Mpz) {
        unsafe { __gmpz_and(self, self, y) }
    }

    pub fn add_assign(&mut self, y: &Mpz) {
        unsafe { __gmpz_add(self, self, y) }
    }

    pub fn xor_assign(&mut self, y: &Mpz) {
        unsafe { __gmpz_xor(self, self, y) }
    }

    pub fn mul_2exp_assign(&mut self, distance: u64) {
        unsafe { __gmpz_mul_2exp(self, self, distance) }
    }

    pub fn fdiv_r_2exp_assign(&mut self, size: u64) {
        unsafe { __gmpz_fdiv_r_2exp(self, self, size) }
    }

    pub fn setbit(&mut self, position: u64) {
        unsafe { __gmpz_setbit(self, position) }
    }

    pub fn clrbit(&mut self, position: u64) {
        unsafe { __gmpz_clrbit(self, position) }
    }

    pub fn tstbit(&self, position: u64) -> i64 {
        i64::from(unsafe { __gmpz_tstbit(self, position) })
    }

    /// The ones of an integer that is not negative.
    pub fn popcount(&self) -> i64 {
        unsafe { __gmpz_popcount(self) as i64 }
    }

    /// The position of the lowest one; -1 for 0.
    pub fn scan1(&self) -> i64 {
        unsafe { __gmpz_scan1(self, 0) as i64 }
    }

    /// The bits of the absolute value; 1 for 0.
    pub fn bits(&self) -> i64 {
        unsafe { __gmpz_sizeinbase(self, 2) as i64 }
    }
}

impl Drop for Mpz {
    fn drop(&mut self) {
        unsafe { __gmpz_clear(self) }
    }
}

const LEAST_FIRST: c_int = -1;
const NATIVE: c_int = 0;

type In = *const Mpz;
type Out = *mut Mpz;

#[link(name = "gmp")]
extern "C" {
    fn __gmpz_init2(z: Out, bits: c_ulong);
    fn __gmpz_clear(z: Out);
    #[rustfmt::skip]
    fn __gmpz_import(z: Out, count: usize, order: c_int, size: usize, endian: c_int, nails: usize, from: *const u32);
    #[rustfmt::skip]
    fn __gmpz_export(
        to: *mut u32,
        count: *mut usize,
        order: c_int,
        size: usize,
        endian: c_int,
        nails: usize,
        z: In,
    ) -> *mut c_void;
    fn __gmpz_add(z: Out, x: In, y: In);
    fn __gmpz_set(z: Out, x: In);
    fn __gmpz_com(z: Out, x: In);
    fn __gmpz_and(z: Out, x: In, y: In);
    fn __gmpz_ior(z: Out, x: In, y: In);
    fn __gmpz_xor(z: Out, x: In, y: In);
    fn __gmpz_mul_2exp(z: Out, x: In, distance: c_ulong);
    fn __gmpz_fdiv_q_2exp(z: Out, x: In, distance: c_ulong);
    fn __gmpz_fdiv_r_2exp(z: Out, x: In, size: c_ulong);
    fn __gmpz_setbit(z: Out, position: c_ulong);
    fn __gmpz_clrbit(z: Out, position: c_ulong);
    fn __gmpz_tstbit(x: In, position: c_ulong) -> c_int;
    fn __gmpz_popcount(x: In) -> c_ulong;
    fn __gmpz_scan1(x: In, position: c_ulong) -> c_ulong;
    fn __gmpz_sizeinbase(x: In, base: c_int) -> usize;
}
