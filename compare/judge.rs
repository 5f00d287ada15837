//! The judge: runs the crate and the library on the same inputs and compares everything bit for bit.
//!   judge [SEED [CARDS [FRAMES [PLANTED]]]]
//! Any NaN of the crate equals the library's, which must have the bits 0x7FC00000. Refusals are computed here afresh from document 01, or the MLX90640's
//! paper, and compared with the crate's errors and panics. The exit status is 0 if nothing disagreed.
mod bigger;
mod cards;
mod cards640;
mod document;
mod frames;
mod frames640;
mod library;
mod library640;
mod loads640;
mod numbers;
mod roots;
mod tally;
mod words;

include!("subjects.rs");

use mlx9064x_wrapping as bigger_crate;
use tally::Tally;

fn main() {
    let given: Vec<String> = std::env::args().skip(1).collect();
    let number = |k: usize, default: u64| given.get(k).map_or(default, |text| text.parse().expect("a number"));
    let (seed, cards, frames) = (number(0, 1), number(1, 500_000), number(2, 500_000));
    if let Some(name) = given.get(3) {
        library::PLANTED.set(name.clone()).expect("set once");
    }
    // A panic of the crate is a result here; one of the judge's own is not.
    let shown = std::panic::take_hook();
    std::panic::set_hook(Box::new(move |info| {
        if !tally::caught() {
            shown(info);
        }
    }));
    println!("seed {seed}, {cards} cards and {frames} frames of each camera, {}", std::env::consts::ARCH);
    let mut tally = Tally::new();
    words::compare(&mut tally);
    bigger::compare(&mut tally);
    roots::compare(&mut tally);
    cards::compare(&mut tally, seed, cards);
    loads640::compare(&mut tally, seed, cards);
    frames::compare(&mut tally, seed, frames);
    frames640::compare(&mut tally, seed, frames);
    tally.report();
    if tally.disagreements > 0 {
        std::process::exit(1);
    }
}
