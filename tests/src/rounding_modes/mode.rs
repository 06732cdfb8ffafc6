//! The rounding mode of the machine, by fesetround of <fenv.h>.

use quebralua_reference::flonum_values::ONE;
use std::arch::asm;

#[derive(Clone, Copy, Debug, PartialEq, Eq)]
#[repr(i32)]
pub enum Mode {
    // The values are those of x86-64.
    ToNearest = 0,
    Downward = 0x400,
    Upward = 0x800,
    TowardZero = 0xC00,
}

impl Mode {
    pub const OTHERS: [Mode; 3] = [Mode::Downward, Mode::Upward, Mode::TowardZero];

    /// Runs that in the mode, and goes back to nearest. It must compute no float by Rust itself, which takes rounding
    /// to be to nearest.
    pub fn during<T>(self, run: impl FnOnce() -> T) -> T {
        self.set();
        let result = run();
        Mode::ToNearest.set();
        result
    }

    /// Whether the machine itself rounds by the mode. An emulator may not: valgrind rounds packed sums to nearest in
    /// every mode, and compilers convert integers by such sums.
    pub fn is_obeyed(self) -> bool {
        // 2^53 + 1 and 2^53 + 2 + 1 lie halfway between two flonums. To nearest the first goes down, the second up.
        let x = 0x4340_0000_0000_0000;
        [x, x + 1].into_iter().any(|x| self.during(|| packed_sum(x, ONE)) != packed_sum(x, ONE))
    }

    fn set(self) {
        let status = unsafe { fesetround(self as i32) };
        assert_eq!(status, 0, "fesetround does not know {self:?}");
    }
}

/// The bits of the sum by the machine's instruction for packed sums.
fn packed_sum(x: u64, y: u64) -> u64 {
    let sum;
    unsafe {
        asm!(
            "movq {a}, {x}", "movq {b}, {y}", "addpd {a}, {b}", "movq {sum}, {a}",
            x = in(reg) x, y = in(reg) y, a = out(xmm_reg) _, b = out(xmm_reg) _, sum = lateout(reg) sum,
        );
    }
    sum
}

extern "C" {
    fn fesetround(mode: i32) -> i32;
}
