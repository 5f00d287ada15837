//! The calls as they are shipped: assembly that tools/dist made from the proved sources, assembled by rustc itself.
use core::arch::global_asm;

#[cfg(target_arch = "aarch64")]
global_asm!(include_str!("../dist/loamchalice_aarch64.s"), options(raw));
#[cfg(target_arch = "x86_64")]
global_asm!(include_str!("../dist/loamchalice_x86_64.s"), options(raw, att_syntax));
