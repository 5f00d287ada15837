//! The fourth root alone: the library's against document 01's, computed separately by whole squares, and against `powf`.
use crate::library;
use crate::tally::{progress, Tally};
use num_traits::Float;

// A step through all 2^32 bit patterns that is coprime to their number.
const STEP: u64 = 97;

struct Seen {
    numbers: u64,
    differ: u64,
    places: u32,
    degrees: f32,
    at: f32,
}

fn one(tally: &mut Tally, seen: &mut Seen, x: f32) {
    let (is, want, powf) = (library::root(x), x.document_root(), x.powf(0.25));
    if is != (if want.is_nan() { 0x7FC0_0000 } else { want.to_bits() }) {
        tally.disagree(|| format!("root of {x:?} 0x{:08X}: document {want:?}, library 0x{is:08X}", x.to_bits()));
    }
    seen.numbers += 1;
    if powf.is_nan() && want.is_nan() || powf.to_bits() == want.to_bits() {
        return;
    }
    seen.differ += 1;
    let places = powf.to_bits().abs_diff(want.to_bits());
    if places > seen.places {
        (seen.places, seen.at) = (places, x);
    }
    seen.degrees = seen.degrees.max(((powf - 273.15) - (want - 273.15)).abs());
}

fn sweep(tally: &mut Tally, what: &str, patterns: impl Iterator<Item = u32>, all: u64) {
    let mut seen = Seen { numbers: 0, differ: 0, places: 0, degrees: 0.0, at: 0.0 };
    for (k, bits) in patterns.enumerate() {
        progress(what, k as u64, all);
        one(tally, &mut seen, f32::from_bits(bits));
    }
    tally.add(what, seen.numbers);
    let rate = 100.0 * seen.differ as f64 / seen.numbers as f64;
    let Seen { differ, places, degrees, at, .. } = seen;
    tally.notes.push(format!("powf, {what}: {differ} differ from the root ({rate:.2} %), at most by {places} places (at {at:?}), {degrees} after 273.15 is taken off"));
}

pub fn compare(tally: &mut Tally) {
    for bits in [0, 0x8000_0000, 0x7F80_0000, 0xFF80_0000, 0x7FC0_0000, 0xFFC0_0000, 0x7F80_0001, 1, 0x8000_0001, 0x7F7F_FFFF, 0xBF80_0000] {
        one(tally, &mut Seen { numbers: 0, differ: 0, places: 0, degrees: 0.0, at: 0.0 }, f32::from_bits(bits));
        tally.count("roots at the ends");
    }
    sweep(tally, "roots of every X from 2^32 up to 2^36", 0x4F80_0000..0x5180_0000, 0x0200_0000);
    sweep(tally, "roots of every 97th pattern", (0..1u64 << 32).step_by(STEP as usize).map(|bits| bits as u32), ((1u64 << 32) + STEP - 1) / STEP);
}
