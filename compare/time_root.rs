// Nanoseconds for one fourth root: Loamchalice's, f32::powf(x, 0.25), and two hardware square roots. Each figure is the least of many rounds over the same
// few thousand numbers; the three take turns, so that a busy machine slows them alike.
use std::hint::black_box;
use std::time::Instant;

#[allow(dead_code)]
#[path = "../bindings/rust/src/border.rs"]
mod border;

const NUMBERS: usize = 4096;
const ROUNDS: usize = 2000;

// Random numbers, with bits spread evenly from `from` up to `end`.
fn numbers(from: u32, end: u32) -> Vec<f32> {
    let mut state = 1u64;
    let mut next = || {
        state = state.wrapping_mul(6364136223846793005).wrapping_add(1442695040888963407);
        state >> 33
    };
    (0..NUMBERS).map(|_| f32::from_bits(from + (next() % u64::from(end - from)) as u32)).collect()
}

fn round(xs: &[f32], root: impl Fn(f32) -> u32) -> f64 {
    let start = Instant::now();
    for &x in xs {
        black_box(root(black_box(x)));
    }
    start.elapsed().as_nanos() as f64 / xs.len() as f64
}

fn compare(name: &str, xs: &[f32]) {
    let mut least = [f64::MAX; 3];
    for _ in 0..ROUNDS {
        least[0] = least[0].min(round(xs, border::root));
        least[1] = least[1].min(round(xs, |x| x.powf(0.25).to_bits()));
        least[2] = least[2].min(round(xs, |x| x.sqrt().sqrt().to_bits()));
    }
    let [ours, powf, sqrt] = least;
    println!(
        "{name}\tloamchalice {ours:.2} ns\tpowf {powf:.2} ns\ttwo square roots {sqrt:.2} ns\tloamchalice / powf {:.2}\tloamchalice / square roots {:.2}",
        ours / powf,
        ours / sqrt
    );
}

fn main() {
    compare("2^32 to 2^36", &numbers(0x4F80_0000, 0x5180_0000));
    compare("all positive finite", &numbers(0x0000_0001, 0x7F80_0000));
}
