//! Nanoseconds for a frame, a card and a word: the crate as published, the rooted crate and the library, on cards/ and a room's pixels. All three take turns,
//! so that a busy machine slows them alike. Each figure is the least of many rounds, and a round times each of them for less than half a millisecond, since
//! longer times include the scheduler's other work. Their results are compared first.
#[allow(dead_code)]
mod cards640;
#[allow(dead_code)]
mod document;
#[allow(dead_code)]
mod library;
#[allow(dead_code)]
mod library640;
#[allow(dead_code)]
mod numbers;
#[allow(dead_code)]
mod tally;

use library::{border, Frame, Ram, Tables, Tables640};
use library640::Frame640;
use mlx9064x as bigger_crate;
use std::hint::black_box;
use std::time::Instant;

const FRAMES: usize = 32;
const CARDS: usize = 96;
const BIGGER_CARDS: usize = 48;
const BIGGER_FRAMES: usize = 16;
const ROUNDS: usize = 500;
const IMAGE: &[u8; 1664] = include_bytes!("../cards/sound.bin");
const EIGHT_MENDED: &[u8; 1664] = include_bytes!("../cards/mended.bin");
const DAMAGED: &[u8; 1664] = include_bytes!("../cards/damaged.bin");

macro_rules! subject {
    ($name:ident, $subject:ident) => {
        mod $name {
            use crate::library::{Frame, Ram};
            use crate::library640::Frame640;
            use $subject::calculations::{self, RamData};
            use $subject::mlx90640::{Mlx90640, Mlx90640Calibration};
            use $subject::mlx90641::hamming::validate_checksum;
            use $subject::mlx90641::{Mlx90641, Mlx90641Calibration};
            use $subject::{AccessPattern, MelexisCamera, Subpage};

            #[inline(never)]
            pub fn load(image: &[u8]) -> Option<Mlx90641Calibration> {
                Mlx90641Calibration::from_data(image).ok()
            }

            #[inline(never)]
            pub fn load_640(image: &[u8]) -> Option<Mlx90640Calibration> {
                Mlx90640Calibration::from_data(image).ok()
            }

            #[inline(never)]
            pub fn check(word: u16) -> Option<u16> {
                validate_checksum(word).ok()
            }

            fn ram(r: Ram) -> RamData {
                let Ram { t_a_v_be, t_a_ptat, v_dd_pixel, gain, compensation_pixel } = r;
                RamData { t_a_v_be, t_a_ptat, v_dd_pixel, gain, compensation_pixel }
            }

            #[inline(never)]
            pub fn one_pass(c: &Mlx90641Calibration, f: &Frame, destination: &mut [f32]) -> f32 {
                let pattern = AccessPattern::Interleave;
                let mut valid = Mlx90641::pixels_in_subpage(Subpage::Zero, pattern);
                let correction = f.resolution_correction;
                calculations::raw_pixels_to_temperatures(
                    c, f.emissivity, f.reflected, correction, &f.pixels, ram(f.ram), Subpage::Zero, pattern, &mut valid, destination,
                )
            }

            #[inline(never)]
            pub fn temperatures(c: &Mlx90641Calibration, f: &Frame, t_a: f32, destination: &mut [f32]) {
                let mut valid = Mlx90641::pixels_in_subpage(Subpage::Zero, AccessPattern::Interleave);
                calculations::raw_ir_to_temperatures(c, f.emissivity, t_a, f.reflected, Subpage::Zero, &mut valid, destination)
            }

            #[inline(never)]
            pub fn infrared(c: &Mlx90641Calibration, f: &Frame, destination: &mut [f32]) -> f32 {
                let pattern = AccessPattern::Interleave;
                let mut valid = Mlx90641::pixels_in_subpage(Subpage::Zero, pattern);
                let correction = f.resolution_correction;
                calculations::raw_pixels_to_ir_data(
                    c, f.emissivity, correction, &f.pixels, ram(f.ram), Subpage::Zero, pattern, &mut valid, destination,
                )
            }

            // A subpage of the MLX90640, by the crate's own mask.
            fn half(f: &Frame640) -> (Subpage, AccessPattern) {
                let subpage = if f.subpage == 0 { Subpage::Zero } else { Subpage::One };
                (subpage, if f.pattern == 0 { AccessPattern::Interleave } else { AccessPattern::Chess })
            }

            pub fn mask_640(f: &Frame640) -> Vec<u8> {
                let (subpage, pattern) = half(f);
                Mlx90640::pixels_in_subpage(subpage, pattern).map(u8::from).collect()
            }

            #[inline(never)]
            pub fn one_pass_640(c: &Mlx90640Calibration, f: &Frame640, to: &mut [f32]) -> f32 {
                let (subpage, pattern) = half(f);
                let valid = &mut Mlx90640::pixels_in_subpage(subpage, pattern);
                let correction = f.resolution_correction;
                calculations::raw_pixels_to_temperatures(c, f.emissivity, f.reflected, correction, &f.pixels, ram(f.ram), subpage, pattern, valid, to)
            }

            #[inline(never)]
            pub fn temperatures_640(c: &Mlx90640Calibration, f: &Frame640, t_a: f32, to: &mut [f32]) {
                let (subpage, pattern) = half(f);
                let valid = &mut Mlx90640::pixels_in_subpage(subpage, pattern);
                calculations::raw_ir_to_temperatures(c, f.emissivity, t_a, f.reflected, subpage, valid, to)
            }

            #[inline(never)]
            pub fn infrared_640(c: &Mlx90640Calibration, f: &Frame640, to: &mut [f32]) -> f32 {
                let (subpage, pattern) = half(f);
                let valid = &mut Mlx90640::pixels_in_subpage(subpage, pattern);
                calculations::raw_pixels_to_ir_data(c, f.emissivity, f.resolution_correction, &f.pixels, ram(f.ram), subpage, pattern, valid, to)
            }

            pub fn in_turn_640(c: &Mlx90640Calibration, f: &Frame640, to: &mut [f32]) -> f32 {
                let t_a = infrared_640(c, f, to);
                temperatures_640(c, f, t_a, to);
                t_a
            }
        }
    };
}
subject!(published, mlx9064x);
subject!(rooted, mlx9064x_rooted);

fn empty_tables() -> Tables {
    Tables { offsets: [vec![0; 192], vec![0; 192]], alpha: vec![0.0; 192], k_v: vec![0.0; 192], k_ta: vec![0.0; 192] }
}

fn frames() -> Vec<Frame> {
    let mut tables = empty_tables();
    let loaded = library::load(IMAGE, library::BASIC, &mut tables);
    assert_eq!(loaded.number, 0);
    let mut state = 1u32;
    let mut next = || {
        state = state.wrapping_mul(1664525).wrapping_add(1013904223);
        (state >> 16) as i16
    };
    (0..16)
        .map(|_| Frame {
            image: IMAGE.to_vec(),
            record: loaded.calibration,
            tables: tables.clone(),
            emissivity: 0.95,
            resolution_correction: 1.0,
            v_dd_0: 3.3,
            ram: Ram { t_a_v_be: 19442, t_a_ptat: 1711, v_dd_pixel: -13115, gain: 6391, compensation_pixel: -105 },
            subpage: 0,
            range: 2,
            heat: 0,
            reflected: None,
            pixels: (0..192).flat_map(|_| (-620 + next() % 200).to_be_bytes()).collect(),
            mask: vec![1; 192],
        })
        .collect()
}

/// Every word once, by the result of its check: clean, mended or damaged.
fn words() -> [Vec<u16>; 3] {
    let mut classes = [const { Vec::new() }; 3];
    for word in 0..=u16::MAX {
        let class = match published::check(word) {
            Some(data) if border::encode(data).word == word => 0,
            Some(_) => 1,
            None => 2,
        };
        classes[class].push(word);
    }
    classes
}

fn time(n: usize, mut work: impl FnMut(usize)) -> f64 {
    let start = Instant::now();
    for k in 0..n {
        work(k);
    }
    start.elapsed().as_nanos() as f64 / n as f64
}

fn line(what: &str, [published, rooted, ours]: [f64; 3]) {
    let digits = if ours < 100.0 { 1 } else { 0 };
    println!(
        "{what}\tcrate as published {published:.digits$} ns\trooted crate {rooted:.digits$} ns\tlibrary {ours:.digits$} ns\tlibrary / published {:.2}\tlibrary / rooted {:.2}",
        ours / published,
        ours / rooted
    );
}

fn keep(slot: &mut f64, t: f64) {
    *slot = slot.min(t);
}

fn time_frames() {
    let frames = frames();
    let (p, r) = (published::load(IMAGE).unwrap(), rooted::load(IMAGE).unwrap());
    let (mut a, mut b) = ([0f32; 192], [0u32; 192]);
    for f in &frames {
        rooted::one_pass(&r, f, &mut a);
        library::raw_pixels_to_temperatures(f, &mut b);
        assert!(a.iter().zip(&b).all(|(x, y)| x.to_bits() == *y), "the same pixels");
        assert!(a.iter().all(|t| (0.0..60.0).contains(t)), "a room: {a:?}");
    }
    let t_a = published::infrared(&p, &frames[0], &mut a);
    let v_ir = a;
    let v_ir_bits = v_ir.map(f32::to_bits);
    let mut least = [[f64::MAX; 3]; 3];
    let masked = |pixels: &[usize]| frames.iter().map(|f| Frame { mask: (0..192).map(|k| pixels.contains(&k) as u8).collect(), ..f.clone() }).collect::<Vec<_>>();
    let (one, none) = (masked(&[100]), masked(&[]));
    let dead: Vec<usize> = (0..192).filter(|k| *k != 100).collect();
    let dead = masked(&dead);
    let mut others = [f64::MAX; 5];
    for _ in 0..ROUNDS {
        let pass = &mut least[0];
        keep(&mut pass[0], time(FRAMES, |k| { black_box(published::one_pass(&p, black_box(&frames[k % 16]), black_box(&mut a))); }));
        keep(&mut pass[1], time(FRAMES, |k| { black_box(rooted::one_pass(&r, black_box(&frames[k % 16]), black_box(&mut a))); }));
        keep(&mut pass[2], time(FRAMES, |k| { black_box(library::raw_pixels_to_temperatures(black_box(&frames[k % 16]), black_box(&mut b))); }));
        keep(&mut others[0], time(FRAMES, |k| { black_box(library::filtered_pixels_to_temperatures(black_box(&frames[k % 16]), Some(-105.5), black_box(&mut b))); }));
        keep(&mut others[1], time(FRAMES, |k| { black_box(library::raw_pixels_to_ranged_temperatures(black_box(&frames[k % 16]), black_box(&mut b))); }));
        // The worst case for pixels that the mask leaves out: infinity.
        b = [f32::INFINITY.to_bits(); 192];
        for (slot, frames) in others[2..].iter_mut().zip([&dead, &one, &none]) {
            keep(slot, time(FRAMES, |k| { black_box(library::raw_pixels_to_temperatures(black_box(&frames[k % 16]), black_box(&mut b))); }));
        }
        let infrared = &mut least[1];
        keep(&mut infrared[0], time(FRAMES, |k| { black_box(published::infrared(&p, black_box(&frames[k % 16]), black_box(&mut a))); }));
        keep(&mut infrared[1], time(FRAMES, |k| { black_box(rooted::infrared(&r, black_box(&frames[k % 16]), black_box(&mut a))); }));
        keep(&mut infrared[2], time(FRAMES, |k| { black_box(library::raw_pixels_to_ir_data(black_box(&frames[k % 16]), black_box(&mut b))); }));
        // The call works in place, so each frame's values are copied back before it.
        let onward = &mut least[2];
        keep(&mut onward[0], time(FRAMES, |k| { a = v_ir; published::temperatures(&p, black_box(&frames[k % 16]), t_a, black_box(&mut a)); }));
        keep(&mut onward[1], time(FRAMES, |k| { a = v_ir; rooted::temperatures(&r, black_box(&frames[k % 16]), t_a, black_box(&mut a)); }));
        keep(&mut onward[2], time(FRAMES, |k| { b = v_ir_bits; black_box(library::raw_ir_to_temperatures(black_box(&frames[k % 16]), t_a, black_box(&mut b))); }));
    }
    line("one pass, a frame", least[0]);
    let names = ["with a filter's answer", "the second pass", "all but one pixel asked for", "one pixel asked for", "none asked for"];
    for (what, time) in names.iter().zip(others) {
        println!("{what}, a frame\tlibrary {time:.0} ns\tover one pass {:.2}", time / least[0][2]);
    }
    line("of it, pixels to infrared", least[1]);
    line("of it, infrared to temperature", least[2]);
}

/// The sound card with one flipped bit, in a word of its own for each of 16 cards: words 40, 90, 140 .. 790.
fn one_mended() -> Vec<[u8; 1664]> {
    (0..16)
        .map(|k| {
            let mut image = *IMAGE;
            image[2 * (40 + 50 * k)] ^= 1;
            image
        })
        .collect()
}

/// A card through the reader, in pieces of 64 bytes.
fn in_pieces(kept: &mut [u8; 1664], tables: &mut Tables) -> library::Load {
    let mut reader = border::reader_new();
    for piece in IMAGE.chunks(64) {
        let [zero, one] = &mut tables.offsets;
        let (alpha, k_v, k_ta) = (&mut tables.alpha, &mut tables.k_v, &mut tables.k_ta);
        reader = border::reader_take(kept, reader, black_box(piece), library::BASIC, zero, one, alpha, k_v, k_ta).reader;
    }
    reader.answer
}

fn time_cards() {
    let kinds = [
        ("load, a clean card", vec![*IMAGE], (0, 0)),
        ("load, a card with a mended word", one_mended(), (0, 1)),
        ("load, a card with eight", vec![*EIGHT_MENDED], (0, 8)),
        ("load, a damaged card", vec![*DAMAGED], (3, 0)),
    ];
    let mut tables = empty_tables();
    for (what, images, expected) in &kinds {
        for image in images {
            let loaded = library::load(image, library::BASIC, &mut tables);
            assert_eq!((loaded.number, loaded.mended), *expected, "{what}");
            assert!(published::load(image).is_some() == (loaded.number == 0) && rooted::load(image).is_some() == (loaded.number == 0), "{what}");
        }
    }
    let (mut kept, mut scrubbed) = ([0u8; 1664], *EIGHT_MENDED);
    let (mut data, mut others, mut damaged) = ([0u16; 814], [0u16; 18], [0u16; 814]);
    assert_eq!(in_pieces(&mut kept, &mut tables).number, 0);
    assert_eq!(border::read_words(IMAGE, &mut data, &mut others).number, 0);
    assert_eq!(border::scrub(&mut scrubbed, &mut data, &mut damaged).changed, 8);
    let mut least = [[f64::MAX; 3]; 4];
    let mut alone = [f64::MAX; 4];
    for _ in 0..ROUNDS {
        for ((_, images, _), load) in kinds.iter().zip(&mut least) {
            let n = images.len();
            keep(&mut load[0], time(CARDS, |k| { black_box(published::load(black_box(&images[k % n]))); }));
            keep(&mut load[1], time(CARDS, |k| { black_box(rooted::load(black_box(&images[k % n]))); }));
            keep(&mut load[2], time(CARDS, |k| { black_box(library::load(black_box(&images[k % n]), library::BASIC, black_box(&mut tables))); }));
        }
        keep(&mut alone[0], time(CARDS, |_| { black_box(border::read_words(black_box(IMAGE), black_box(&mut data), black_box(&mut others))); }));
        // A clean card stays as it is; one that is mended is copied back.
        keep(&mut alone[1], time(CARDS, |_| { black_box(border::scrub(black_box(&mut kept), black_box(&mut data), black_box(&mut damaged))); }));
        keep(&mut alone[2], time(CARDS, |_| { scrubbed = *EIGHT_MENDED; black_box(border::scrub(black_box(&mut scrubbed), black_box(&mut data), black_box(&mut damaged))); }));
        keep(&mut alone[3], time(CARDS, |_| { black_box(in_pieces(black_box(&mut kept), black_box(&mut tables))); }));
    }
    for ((what, _, _), least) in kinds.iter().zip(least) {
        line(what, least);
    }
    let names = ["read_words, a clean card", "scrub, a clean card", "scrub, a card with eight", "reader, a clean card in pieces of 64 bytes"];
    for (what, time) in names.iter().zip(alone) {
        println!("{what}\tlibrary {time:.0} ns\tover its load {:.2}", time / least[0][2]);
    }
}

/// Realistic cards of the MLX90640, some whose pixels must be searched for refusal 5 since their rows might be too large, and the cost of a refusal where the
/// crate goes on: a blank card, and one on which only the last pixel is too large.
fn time_cards_640() {
    let mut n = numbers::Numbers::new(1);
    let realistic: Vec<Vec<u8>> = (0..16).map(|_| cards640::image_of(&cards640::realistic(&mut n))).collect();
    let searched = (0..16).map(|_| {
        let mut w = cards640::realistic(&mut n);
        w[16] = 0x4C10;
        w[18..24].iter_mut().for_each(|word| *word &= 0x3333);
        cards640::image_of(&w)
    });
    let searched: Vec<Vec<u8>> = searched.collect();
    let last = cards640::image_of(&cards640::zero_but(&[(17, 0x7FFF), (831, 0x0400)]));
    let kinds = [
        ("load, a card of the MLX90640", realistic, 0),
        ("load, a card of the MLX90640 that is searched", searched, 0),
        ("load, a blank card of the MLX90640", vec![vec![0xFF; 1664]], 5),
        ("load, a card of the MLX90640 whose last pixel is too large", vec![last], 5),
    ];
    let mut tables = Tables640 { offsets: vec![0; 768], alpha: vec![0.0; 768], k_ta: vec![0.0; 768] };
    for (what, images, number) in &kinds {
        for image in images {
            assert_eq!(library::load_640(image, cards640::BASIC, &mut tables).number, *number, "{what}");
            let c = published::load_640(image).expect("the crate goes on");
            let bits = |table: &[f32]| table.iter().map(|x| x.to_bits()).collect();
            let ours: [Vec<u32>; 3] = [tables.offsets.iter().map(|x| *x as u32).collect(), bits(&tables.alpha), bits(&tables.k_ta)];
            assert!(*number != 0 || ours == cards640::tables(&c), "the same tables");
        }
    }
    let mut least = [[f64::MAX; 3]; 4];
    for _ in 0..ROUNDS {
        for ((_, images, _), load) in kinds.iter().zip(&mut least) {
            let n = images.len();
            keep(&mut load[0], time(BIGGER_CARDS, |k| { black_box(published::load_640(black_box(&images[k % n]))); }));
            keep(&mut load[1], time(BIGGER_CARDS, |k| { black_box(rooted::load_640(black_box(&images[k % n]))); }));
            keep(&mut load[2], time(BIGGER_CARDS, |k| { black_box(library::load_640(black_box(&images[k % n]), cards640::BASIC, black_box(&mut tables))); }));
        }
    }
    for ((what, _, _), least) in kinds.iter().zip(least) {
        line(what, least);
    }
}

/// Card K with rests, and with rows and columns; alpha's are those that keep it near its average, so that a room's pixels have a room's temperatures.
fn room_card() -> Vec<u8> {
    let (mut w, mut n) = (cards640::card_k(), numbers::Numbers::new(3));
    for k in (18..32).chain(64..832) {
        w[k] = n.next() as u16;
    }
    for word in &mut w[34..48] {
        *word = (0..4).fold(0, |word, _| word << 4 | n.pick(&[0xF, 0, 1]));
    }
    cards640::image_of(&w)
}

/// Subpages of a room in one pattern, both in turn.
fn frames_640(image: &[u8], pattern: u8) -> Vec<Frame640> {
    let mut tables = Tables640 { offsets: vec![0; 768], alpha: vec![0.0; 768], k_ta: vec![0.0; 768] };
    let loaded = library::load_640(image, cards640::BASIC, &mut tables);
    assert_eq!(loaded.number, 0);
    let mut n = numbers::Numbers::new(2);
    (0..16)
        .map(|k| {
            let mut f = Frame640 {
                image: image.to_vec(),
                record: loaded.calibration,
                tables: tables.clone(),
                emissivity: 0.95,
                resolution_correction: 1.0,
                v_dd_0: 3.3,
                ram: Ram { t_a_v_be: 19442, t_a_ptat: 1711, v_dd_pixel: -13115, gain: 6273, compensation_pixel: -54 },
                subpage: k % 2,
                pattern,
                range: cards640::BASIC,
                heat: 0,
                reflected: None,
                pixels: (0..768).flat_map(|_| (n.between(-80, 20) as i16).to_be_bytes()).collect(),
                mask: vec![],
                own: true,
            };
            f.mask = published::mask_640(&f);
            f
        })
        .collect()
}

fn time_frames_640(name: &str, pattern: u8) {
    let image = room_card();
    let frames = frames_640(&image, pattern);
    let (p, r) = (published::load_640(&image).unwrap(), rooted::load_640(&image).unwrap());
    let (mut a, mut b) = ([0f32; 768], [0u32; 768]);
    for f in &frames {
        (a, b) = ([0.0; 768], [0; 768]);
        rooted::one_pass_640(&r, f, &mut a);
        assert_eq!(library640::raw_pixels_to_temperatures(f, &mut b).number, 0);
        assert!(a.iter().zip(&b).all(|(x, y)| x.to_bits() == *y), "the same pixels");
        assert_eq!(f.mask.iter().filter(|byte| **byte != 0).count(), 384);
        assert!(a.iter().all(|t| (0.0..60.0).contains(t)), "a room: {a:?}");
    }
    let mut v_ir = [0f32; 768];
    let t_a = published::infrared_640(&p, &frames[0], &mut v_ir);
    let v_ir_bits = v_ir.map(f32::to_bits);
    let mut least = [[f64::MAX; 3]; 3];
    let mut in_turn = [f64::MAX; 3];
    let mut others = [f64::MAX; 4];
    let whole: Vec<Frame640> = frames.iter().map(|f| Frame640 { mask: vec![1; 768], ..f.clone() }).collect();
    let n = frames.len();
    for _ in 0..ROUNDS {
        let pass = &mut least[0];
        keep(&mut pass[0], time(BIGGER_FRAMES, |k| { black_box(published::one_pass_640(&p, black_box(&frames[k % n]), black_box(&mut a))); }));
        keep(&mut pass[1], time(BIGGER_FRAMES, |k| { black_box(rooted::one_pass_640(&r, black_box(&frames[k % n]), black_box(&mut a))); }));
        keep(&mut pass[2], time(BIGGER_FRAMES, |k| { black_box(library640::raw_pixels_to_temperatures(black_box(&frames[k % n]), black_box(&mut b))); }));
        // The same values by the crate's two other calls, which are faster than its compiled one pass.
        keep(&mut in_turn[0], time(BIGGER_FRAMES, |k| { black_box(published::in_turn_640(&p, black_box(&frames[k % n]), black_box(&mut a))); }));
        keep(&mut in_turn[1], time(BIGGER_FRAMES, |k| { black_box(rooted::in_turn_640(&r, black_box(&frames[k % n]), black_box(&mut a))); }));
        let infrared = &mut least[1];
        keep(&mut infrared[0], time(BIGGER_FRAMES, |k| { black_box(published::infrared_640(&p, black_box(&frames[k % n]), black_box(&mut a))); }));
        keep(&mut infrared[1], time(BIGGER_FRAMES, |k| { black_box(rooted::infrared_640(&r, black_box(&frames[k % n]), black_box(&mut a))); }));
        keep(&mut infrared[2], time(BIGGER_FRAMES, |k| { black_box(library640::raw_pixels_to_ir_data(black_box(&frames[k % n]), black_box(&mut b))); }));
        // The call works in place, so the values are copied back before it: those of the first frame, with its mask.
        let (onward, f) = (&mut least[2], &frames[0]);
        keep(&mut onward[0], time(BIGGER_FRAMES, |_| { a = v_ir; published::temperatures_640(&p, black_box(f), t_a, black_box(&mut a)); }));
        keep(&mut onward[1], time(BIGGER_FRAMES, |_| { a = v_ir; rooted::temperatures_640(&r, black_box(f), t_a, black_box(&mut a)); }));
        keep(&mut onward[2], time(BIGGER_FRAMES, |_| { b = v_ir_bits; black_box(library640::raw_ir_to_temperatures(black_box(f), t_a, black_box(&mut b))); }));
        let filtered = |f: &Frame640, to: &mut [u32]| library640::filtered_pixels_to_temperatures(f, Some(-54.5), to);
        keep(&mut others[0], time(BIGGER_FRAMES, |k| { black_box(filtered(black_box(&frames[k % n]), black_box(&mut b))); }));
        keep(&mut others[1], time(BIGGER_FRAMES, |k| { black_box(library640::raw_pixels_to_ranged_temperatures(black_box(&frames[k % n]), black_box(&mut b))); }));
        let filtered = |f: &Frame640, to: &mut [u32]| library640::filtered_pixels_to_ranged_temperatures(f, Some(-54.5), to);
        keep(&mut others[2], time(BIGGER_FRAMES, |k| { black_box(filtered(black_box(&frames[k % n]), black_box(&mut b))); }));
        keep(&mut others[3], time(BIGGER_FRAMES, |k| { black_box(library640::raw_pixels_to_temperatures(black_box(&whole[k % n]), black_box(&mut b))); }));
    }
    line(&format!("one pass, a subpage of the MLX90640 in {name}"), least[0]);
    in_turn[2] = least[0][2];
    line("beside the crate's infrared and temperatures in turn", in_turn);
    let names = ["with a filter's answer", "the second pass", "the second pass with a filter's answer", "all 768 pixels asked for"];
    for (what, time) in names.iter().zip(others) {
        println!("{what}, MLX90640 in {name}\tlibrary {time:.0} ns\tover one pass {:.2}", time / least[0][2]);
    }
    line(&format!("of it, pixels to infrared, MLX90640 in {name}"), least[1]);
    line(&format!("of it, infrared to temperature, MLX90640 in {name}"), least[2]);
}

fn time_words() {
    let words = words();
    let mut least = [[f64::MAX; 3]; 3];
    for _ in 0..ROUNDS {
        for (words, check) in words.iter().zip(&mut least) {
            let each = words.len() as f64;
            keep(&mut check[0], time(1, |_| words.iter().for_each(|&word| { black_box(published::check(word)); })) / each);
            keep(&mut check[1], time(1, |_| words.iter().for_each(|&word| { black_box(rooted::check(word)); })) / each);
            keep(&mut check[2], time(1, |_| words.iter().for_each(|&word| { black_box(border::check(word)); })) / each);
        }
    }
    line("check, a word that is clean", least[0]);
    line("check, a word that is mended", least[1]);
    line("check, a word that is damaged", least[2]);
}

fn main() {
    let bigger = format!("of the MLX90640 {BIGGER_FRAMES} subpages and {BIGGER_CARDS} cards");
    println!("least of {ROUNDS} rounds; {FRAMES} frames, {CARDS} cards, {bigger}, and once every word in each");
    time_frames();
    time_frames_640("chess", 1);
    time_frames_640("interleave", 0);
    time_cards();
    time_cards_640();
    time_words();
}
