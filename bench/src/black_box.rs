//! `black_box`, which the standard library has from Rust 1.66 on.

use std::arch::asm;

/// The value, about which the compiler then knows nothing.
#[inline(always)]
pub fn black_box<T>(mut value: T) -> T {
    // SAFETY: no instruction; the compiler takes it for one that may change the value.
    unsafe { asm!("/* {0} */", in(reg) &mut value, options(nostack, preserves_flags)) };
    value
}
