//! The MLX90640's masks and frames for the sample: on the crate's own camera and calibration types, whose basic range is 1 and whose self-heating is 8.
use crate::cards640::{self, Words, BASIC, PIXELS};
use crate::document::{Seen, Verdict};
use crate::frames::{self, from_basic, of_call, Said};
use crate::library::Ram;
use crate::numbers::Numbers;
use crate::{bigger_answer, bigger_card, call, destination_bytes, f32s, told, u16s, u32s, Asked, Stream, BIGGER_ENTRIES, BIGGER_FULL};
use crate::{BIGGER_CAMERA, BIGGER_FILTERED, BIGGER_FRAME, BIGGER_MASK, BIGGER_PLAIN, BIGGER_TEMPERATURES};
use mlx9064x::mlx90640::{Mlx90640, Mlx90640Calibration};
use mlx9064x::{AccessPattern, CalibrationData, MelexisCamera, Subpage};

const PIXEL_BYTES: usize = 2 * BIGGER_ENTRIES;

/// The inputs of a frame: a card that loads, and the rest. `lengths` are those of the tables that the call gets.
#[derive(Clone)]
struct Frame {
    image: Vec<u8>,
    lengths: [usize; 3],
    emissivity: f32,
    resolution_correction: f32,
    reflected: Option<f32>,
    ram: Ram,
    subpage: u8,
    chess: bool,
    pixels: Vec<u8>,
    mask: Vec<u8>,
}

// ---- The crate's calls, as published and rooted

macro_rules! calls_of {
    ($name:ident, $subject:ident) => {
        #[allow(dead_code)]
        mod $name {
            use super::Frame;
            use $subject::calculations::{self, RamData};
            use $subject::mlx90640::Mlx90640Calibration;
            use $subject::{AccessPattern, Subpage};

            fn subpage(f: &Frame) -> Subpage {
                [Subpage::Zero, Subpage::One][usize::from(f.subpage != 0)]
            }

            fn pattern(f: &Frame) -> AccessPattern {
                [AccessPattern::Interleave, AccessPattern::Chess][usize::from(f.chess)]
            }

            fn ram(f: &Frame) -> RamData {
                let r = f.ram;
                let (t_a_v_be, t_a_ptat, v_dd_pixel) = (r.t_a_v_be, r.t_a_ptat, r.v_dd_pixel);
                RamData { t_a_v_be, t_a_ptat, v_dd_pixel, gain: r.gain, compensation_pixel: r.compensation_pixel }
            }

            fn card(f: &Frame) -> Mlx90640Calibration {
                Mlx90640Calibration::from_data(&f.image).expect("a card that loads")
            }

            pub fn infrared(f: &Frame, to: &mut [f32]) -> f32 {
                let valid = &mut f.mask.iter().map(|byte| *byte != 0);
                let correction = f.resolution_correction;
                calculations::raw_pixels_to_ir_data(&card(f), f.emissivity, correction, &f.pixels, ram(f), subpage(f), pattern(f), valid, to)
            }

            pub fn temperatures(f: &Frame, t_a: f32, to: &mut [f32]) -> f32 {
                let valid = &mut f.mask.iter().map(|byte| *byte != 0);
                calculations::raw_ir_to_temperatures(&card(f), f.emissivity, t_a, f.reflected, subpage(f), valid, to);
                t_a
            }

            pub fn one_pass(f: &Frame, to: &mut [f32]) -> f32 {
                let valid = &mut f.mask.iter().map(|byte| *byte != 0);
                let (given, correction) = (f.reflected, f.resolution_correction);
                let (subpage, pattern) = (subpage(f), pattern(f));
                calculations::raw_pixels_to_temperatures(&card(f), f.emissivity, given, correction, &f.pixels, ram(f), subpage, pattern, valid, to)
            }
        }
    };
}

calls_of!(published, mlx9064x);
calls_of!(rooted, mlx9064x_rooted);

// ---- The inputs of document.rs

fn seen<'a>(f: &Frame, c: &'a Mlx90640Calibration) -> Seen<'a> {
    let subpage = [Subpage::Zero, Subpage::One][usize::from(f.subpage != 0)];
    Seen {
        pixels: PIXELS,
        without_alpha: f.lengths[0].min(f.lengths[2]),
        alpha: f.lengths[1],
        pixel_bytes: f.pixels.len(),
        mask: f.mask.len(),
        emissivity: f.emissivity,
        range: BASIC,
        reflected: f.reflected,
        heating: Mlx90640::SELF_HEATING,
        ram: f.ram,
        k_v_dd: c.k_v_dd(),
        v_dd_25: c.v_dd_25(),
        k_v_ptat: c.k_v_ptat(),
        k_t_ptat: c.k_t_ptat(),
        alpha_ptat: c.alpha_ptat(),
        k_s_ta: c.k_s_ta(),
        alpha_cp: c.alpha_cp(subpage),
        gradient: c.temperature_gradient_coefficient(),
        corners: c.corner_temperatures(),
        k_s_to: c.k_s_to(),
        coefficients: c.alpha_correction(),
    }
}

fn by_ranges(s: &mut Stream, f: &Frame, c: &Mlx90640Calibration, before: &[u32]) -> Said {
    let infrared = of_call(before, |to| published::infrared(f, to))?;
    let (_, basic) = of_call(before, |to| rooted::one_pass(f, to))?;
    let alpha: Vec<f32> = c.alpha_pixels(Subpage::Zero).copied().collect();
    Some(from_basic(&mut s.tally, &seen(f, c), &alpha, &f.mask, before, infrared, &basic))
}

// ---- Cases of a frame

fn frame_bytes(f: &Frame, before: &[u32]) -> Vec<u8> {
    let (given, reflected) = f.reflected.map_or((0, Mlx90640::SELF_HEATING), |given| (1, given));
    let r = &f.ram;
    let padded = |bytes: &[u8], length: usize| [bytes, &vec![0; length - bytes.len()]].concat();
    let lent = [f.lengths[0], f.lengths[1], f.lengths[2], f.pixels.len(), f.mask.len(), before.len()];
    let parts = [
        f32s([f.emissivity, f.resolution_correction, 3.3, reflected]),
        (BASIC as u64).to_be_bytes().to_vec(),
        u16s([r.t_a_v_be, r.t_a_ptat, r.v_dd_pixel, r.gain, r.compensation_pixel].map(|x| x as u16)),
        vec![f.subpage, given, u8::from(f.chess)],
        u16s(lent.map(|x| x as u16)),
        padded(&f.pixels, PIXEL_BYTES),
        padded(&f.mask, BIGGER_ENTRIES),
        destination_bytes(before, BIGGER_ENTRIES),
    ];
    parts.concat()
}

// The three calls from pixels, in the order of their kinds: their verdicts, and the results of the crate and document.rs.
fn from_pixels(s: &mut Stream, f: &Frame, c: &Mlx90640Calibration, before: &[u32]) -> [(Verdict, Said, &'static str); 3] {
    let (view, length) = (seen(f, c), before.len());
    let infrared = of_call(before, |to| published::infrared(f, to));
    let one_pass = of_call(before, |to| rooted::one_pass(f, to));
    let ranged = by_ranges(s, f, c, before);
    [(view.infrared(length), infrared, ""), (view.one_pass(length), one_pass, ""), (view.ranged(length), ranged, ", by document")]
}

// Temperatures start from the infrared values of this frame, or else from whatever is in the destination. Some frames have the filtered forms too: to the
// crate an average that is a whole number is another reading.
fn frame(s: &mut Stream, name: &str, f: &Frame, before: &[u32], filtered: bool) {
    let c = cards640::ask(&f.image).1.expect("a card that loads");
    let asked = Asked { mask: &f.mask, pixels: PIXELS, entries: BIGGER_ENTRIES };
    s.case(BIGGER_FRAME, name, &frame_bytes(f, before), &[]);
    s.count("MLX90640 frames", name);
    let mut infrared = None;
    for (kind, (verdict, said, by)) in BIGGER_PLAIN.into_iter().zip(from_pixels(s, f, &c, before)) {
        let answered = call(s, kind, &format!("{name}{by}"), &[], &asked, verdict, before, said);
        infrared = infrared.or(answered);
    }
    let (t_a, from) = infrared.unwrap_or((31.25f32.to_bits(), before.to_vec()));
    let mut input = u32s([t_a]);
    if from != before {
        input.extend(destination_bytes(&from, BIGGER_ENTRIES));
    }
    let said = of_call(&from, |to| rooted::temperatures(f, f32::from_bits(t_a), to));
    call(s, BIGGER_TEMPERATURES, name, &input, &asked, seen(f, &c).temperature(from.len()), &from, said);
    if !filtered {
        return;
    }
    let average = (!s.averages.one_in(4)).then(|| s.averages.word());
    let input = [vec![u8::from(average.is_some())], f32s([f32::from(average.unwrap_or(0))])].concat();
    let label = average.map_or(format!("{name}, no average"), |x| format!("{name}, average {x}"));
    let mut steady = f.clone();
    steady.ram.compensation_pixel = average.unwrap_or(f.ram.compensation_pixel);
    for (kind, (verdict, said, by)) in BIGGER_FILTERED.into_iter().zip(from_pixels(s, &steady, &c, before)) {
        call(s, kind, &format!("{label}{by}"), &input, &asked, verdict, before, said);
    }
}

// ---- Masks

fn own_mask(subpage: u8, chess: bool) -> Vec<u8> {
    let pattern = if chess { AccessPattern::Chess } else { AccessPattern::Interleave };
    Mlx90640::pixels_in_subpage([Subpage::Zero, Subpage::One][usize::from(subpage != 0)], pattern).map(u8::from).collect()
}

fn masks(s: &mut Stream) {
    for (subpage, chess, length) in HALVES.into_iter().flat_map(|(subpage, chess)| [767, 768, 776].map(|length| (subpage, chess, length))) {
        let (verdict, mut mask) = if length < PIXELS { ((2, 0, 0), vec![]) } else { ((0, 0, 0), own_mask(subpage, chess)) };
        mask.resize(BIGGER_ENTRIES, 77);
        let input = [vec![subpage, u8::from(chess)], u16s([length as u16])].concat();
        s.case(BIGGER_MASK, &format!("{}, length {length}", half(subpage, chess)), &input, &[told(verdict), mask].concat());
    }
}

// ---- Frames to try

const HALVES: [(u8, bool); 4] = [(0, true), (1, true), (0, false), (1, false)];

fn half(subpage: u8, chess: bool) -> String {
    format!("{} subpage {subpage}", if chess { "chess" } else { "interleave" })
}

fn room(n: &mut Numbers, image: &[u8], subpage: u8, chess: bool) -> Frame {
    let raw = n.between(-300, 900);
    let ram = Ram { gain: 6273 + n.between(-300, 300) as i16, compensation_pixel: -54 + n.between(-60, 60) as i16, ..frames::room(n) };
    Frame {
        image: image.to_vec(),
        lengths: BIGGER_FULL,
        emissivity: if n.one_in(3) { 1.0 } else { n.real(0.7, 1.0) },
        resolution_correction: n.pick(&[1.0, 1.0, 0.5, 2.0, 0.25]),
        reflected: if n.one_in(2) { None } else { Some(n.real(-10.0, 60.0)) },
        ram,
        subpage,
        chess,
        pixels: (0..PIXELS).flat_map(|_| ((raw + n.between(-600, 2400)) as i16).to_be_bytes()).collect(),
        mask: vec![1; PIXELS],
    }
}

fn destination(n: &mut Numbers) -> Vec<u32> {
    match n.below(2) {
        0 => (0..PIXELS).map(|_| n.wild().to_bits()).collect(),
        _ => (0..PIXELS).map(|k| 0x7FA0_0000 + k as u32).collect(),
    }
}

// A card for the frames that follow: as it loads, or as a camera.
fn stands(s: &mut Stream, name: &str, image: &[u8], loads: bool) {
    if loads {
        bigger_card(s, &format!("for frames, {name}"), image, BIGGER_FULL, BASIC);
        return;
    }
    let (verdict, _, _, numbers) = bigger_answer(name, image, BIGGER_FULL, BASIC);
    assert_eq!(verdict.0, 0, "{name}: a card that loads");
    s.case(BIGGER_CAMERA, name, &u32s(numbers), &[]);
}

fn on_card(s: &mut Stream, n: &mut Numbers, name: &str, words: &Words, loads: bool) {
    let image = cards640::image_of(words);
    stands(s, name, &image, loads);
    for (k, (subpage, chess)) in HALVES.into_iter().enumerate() {
        let mut f = room(n, &image, subpage, chess);
        let class = n.below(3);
        match class {
            0 => f.mask = own_mask(subpage, chess),
            1 => f.mask = (0..PIXELS + n.below(9)).map(|_| n.pick(&[0, 0, 1, 255])).collect(),
            _ => (),
        }
        let what = ["own mask", "any mask", "all pixels"][class];
        let before = destination(n);
        frame(s, &format!("{what}, {name} {}", half(subpage, chess)), &f, &before, k == n.below(4));
    }
}

fn corner(s: &mut Stream, n: &mut Numbers, image: &[u8], name: &str, entries: usize, change: impl FnOnce(&mut Frame)) {
    let (subpage, chess) = n.pick(&HALVES);
    let mut f = room(n, image, subpage, chess);
    change(&mut f);
    let mut before = destination(n);
    before.resize(entries, 0x7FA0_1234);
    frame(s, &format!("{name} {}", half(subpage, chess)), &f, &before, false);
}

fn corners(s: &mut Stream, n: &mut Numbers) {
    let image = cards640::image_of(&cards640::realistic(n));
    stands(s, "corners", &image, true);
    for k in 0..3 {
        corner(s, n, &image, &format!("short tables, table {k} with 767"), PIXELS, |f| f.lengths[k] = 767);
    }
    corner(s, n, &image, "pixel bytes, 1535", PIXELS, |f| f.pixels.truncate(1535));
    corner(s, n, &image, "mask lengths, 767", PIXELS, |f| f.mask.truncate(767));
    corner(s, n, &image, "destination lengths, 767", 767, |_| ());
    corner(s, n, &image, "everything longer", 776, |f| {
        (f.lengths, f.mask) = ([769, 776, 770], vec![1; 776]);
        f.pixels.resize(PIXEL_BYTES, 0x55);
    });
    corner(s, n, &image, "supply readings, 32767", PIXELS, |f| f.ram.v_dd_pixel = 32767);
    for emissivity in [0.0, f32::NAN, 1.0, -0.5] {
        corner(s, n, &image, &format!("emissivities, {emissivity:?}"), PIXELS, |f| f.emissivity = emissivity);
    }
    corner(s, n, &image, "divisors, gain 0", PIXELS, |f| f.ram.gain = 0);
}

// The paper's card on which access terms of -0 show: in interleave, where they are added as they are.
fn signs_of_zero(s: &mut Stream, n: &mut Numbers) {
    let image = cards640::image_of(&cards640::zero_but(&[(48, 0xFFFF), (50, 1), (51, 0x0100)]));
    stands(s, "signs of zero", &image, true);
    let ram = Ram { t_a_v_be: 1, t_a_ptat: 0, v_dd_pixel: -16384, gain: 1, compensation_pixel: 0 };
    let f = Frame { ram, emissivity: 1.0, pixels: vec![0; 2 * PIXELS], ..room(n, &image, 0, false) };
    let before = destination(n);
    frame(s, "signs of zero, interleave subpage 0", &f, &before, false);
}

pub fn cases(s: &mut Stream) {
    let mut n = Numbers::new(90640);
    masks(s);
    on_card(s, &mut n, "card K", &cards640::card_k(), true);
    let mut level = cards640::card_k();
    level[60] &= 0xFF00;
    level[63] &= 0x0FFF;
    on_card(s, &mut n, "card K without gradient and steps", &level, true);
    for k in 0..5 {
        let words = cards640::realistic(&mut n);
        on_card(s, &mut n, &format!("realistic {k}"), &words, k % 2 == 0);
    }
    let words = cards640::mild(&mut n);
    on_card(s, &mut n, "mild scales", &words, false);
    corners(s, &mut n);
    signs_of_zero(s, &mut n);
}
