use core::hint::black_box;

/// Whether the floating-point environment of this thread is the default one, which the calls assume: round to nearest, ties to even, and no flush to zero of
/// results or operands. In any other environment results change silently, so a lamp controller checks this at start, and keeps the lamp down if it is false.
/// Rust never changes the environment; a C library in the same program can.
///
/// ```
/// assert!(loamchalice::environment_is_default());
/// ```
pub fn environment_is_default() -> bool {
    // Keeps the compiler from computing the result.
    let number = |bits: u32| black_box(f32::from_bits(bits));
    let (one, next, half_step) = (number(0x3F80_0000), number(0x3F80_0001), number(0x3380_0000));
    let (least, subnormal) = (number(0x0080_0000), number(0x0040_0000));
    let rounded = [black_box(one + half_step), black_box(next + half_step)];
    let kept = [black_box(least * black_box(0.5)), black_box(subnormal * black_box(2.0))];
    rounded.map(f32::to_bits) == [0x3F80_0000, 0x3F80_0002] && kept.map(f32::to_bits) == [0x0040_0000, 0x0080_0000]
}
