//! Frames: infrared against the crate as published, temperatures against the rooted crate (with document 01's root for `powf`); differences of the published
//! `powf` are counted.
use crate::cards::{by_crate, image_of, realistic, sound};
use crate::document::{self, Verdict};
use crate::library::{self, Answer, Frame, Ram, HEATS};
use crate::numbers::Numbers;
use crate::tally::{of_crate, progress, Tally};
use crate::{published, rooted};

/// The crate's result, unless it panicked: t_a and the destination.
pub type Said = Option<(f32, Vec<f32>)>;

// How the published `powf` differs, in the temperatures of one class of frames.
#[derive(Default)]
pub struct Powf {
    pixels: u64,
    differ: u64,
    degrees: f32,
    worst: String,
    // The same, for temperatures from -40 to 300.
    inside: f32,
    kinds_differ: u64,
}

pub fn room(n: &mut Numbers) -> Ram {
    Ram {
        t_a_v_be: 19442 + n.between(-300, 300) as i16,
        t_a_ptat: 1711 + n.between(-60, 60) as i16,
        v_dd_pixel: -13115 + n.between(-200, 200) as i16,
        gain: 6391 + n.between(-300, 300) as i16,
        compensation_pixel: -105 + n.between(-100, 100) as i16,
    }
}

fn any_ram(n: &mut Numbers) -> Ram {
    Ram { t_a_v_be: n.word(), t_a_ptat: n.word(), v_dd_pixel: n.word(), gain: n.word(), compensation_pixel: n.word() }
}

// A frame on a card that the crate has loaded, some tables longer than needed.
fn realistic_frame(n: &mut Numbers) -> Frame {
    let data = if n.one_in(4) { sound() } else { realistic(n) };
    let image = image_of(&data);
    let (record, mut tables) = by_crate(&image);
    let mut longer = || 192 + if n.one_in(4) { n.below(5) } else { 0 };
    for table in [&mut tables.alpha, &mut tables.k_v, &mut tables.k_ta] {
        table.resize(longer(), f32::NAN);
    }
    for table in &mut tables.offsets {
        table.resize(longer(), 1234);
    }
    let raw = n.between(-900, 1500);
    let pixels = (0..192).flat_map(|_| ((raw + n.between(-200, 200)) as i16).to_be_bytes()).collect();
    Frame {
        image,
        record,
        tables,
        emissivity: if n.one_in(3) { 1.0 } else { n.real(0.7, 1.0) },
        resolution_correction: n.pick(&[1.0, 1.0, 0.5, 2.0, 0.25]),
        v_dd_0: 3.3,
        ram: room(n),
        subpage: n.below(2) as u8,
        range: 2,
        heat: 0,
        reflected: if n.one_in(2) { None } else { Some(n.real(-10.0, 60.0)) },
        pixels,
        mask: vec![1; 192],
    }
}

// Changes what the caller chooses: masks, lengths, ranges, gradients, supplies, emissivities.
fn vary(n: &mut Numbers, f: &mut Frame) {
    f.emissivity = match n.below(4) {
        0 => n.pick(&[1.0, 0.95, 0.5, 1.5, 2.0, -1.0, -0.5, f32::INFINITY, f32::NEG_INFINITY, 1e-40, 1e38]),
        1 if n.one_in(4) => n.pick(&[0.0, -0.0, f32::NAN, f32::from_bits(0xFFC0_0001)]),
        2 if n.one_in(4) => n.wild(),
        _ => f.emissivity,
    };
    f.subpage = n.pick(&[0, 0, 1, 1, 2, 255]);
    f.range = if n.one_in(40) { n.pick(&[8, 8, 9, 255, 0xFFFF_FFFF]) } else { n.below(8) };
    f.heat = n.below(HEATS.len());
    if n.one_in(3) {
        f.record.has_gradient = 0;
    } else {
        f.record.gradient = n.pick(&[f.record.gradient, f.record.gradient, 0.0, -0.0, 1.0, -4.0]);
        f.record.has_gradient = n.pick(&[1, 1, 2, 255]);
    }
    f.v_dd_0 = n.pick(&[3.3, 3.3, 3.0, 2.6, 5.0]);
    f.reflected = match n.below(3) {
        0 => None,
        1 => Some(n.real(-60.0, 200.0)),
        _ => Some(n.wild()),
    };
    if n.one_in(6) {
        let length = n.pick(&[0, 1, 200, 382, 383, 384, 385, 386, 600]);
        f.pixels.resize(length, 0x55);
    }
    f.mask = match n.below(5) {
        0 => (0..192).map(|_| n.below(2) as u8).collect(),
        1 => (0..192 + n.below(9)).map(|_| n.next() as u8).collect(),
        2 => (0..250).map(|_| n.pick(&[0, 0, 0, 0x80])).collect(),
        _ => vec![n.pick(&[1, 255]); n.pick(&[192, 192, 192, 192, 192, 192, 193, 191, 0])],
    };
}

fn wild_record(n: &mut Numbers, f: &mut Frame) {
    let r = &mut f.record;
    let odds = n.pick(&[2, 6, 20]);
    for slot in [
        &mut r.k_v_ptat,
        &mut r.k_t_ptat,
        &mut r.v_ptat_25,
        &mut r.alpha_ptat,
        &mut r.gain,
        &mut r.k_s_ta,
        &mut r.alpha_cp,
        &mut r.k_v_cp,
        &mut r.k_ta_cp,
        &mut r.gradient,
    ] {
        if n.one_in(odds) {
            *slot = n.wild();
        }
    }
    for slot in r.k_s_to.iter_mut() {
        if n.one_in(odds) {
            *slot = n.wild();
        }
    }
    for slot in [&mut r.k_v_dd, &mut r.v_dd_25, &mut r.offset_reference_cp] {
        if n.one_in(odds) {
            *slot = n.word();
        }
    }
    if n.one_in(odds) {
        f.resolution_correction = n.wild();
    }
    if n.one_in(odds) {
        f.v_dd_0 = n.wild();
    }
}

fn wild_tables(n: &mut Numbers, f: &mut Frame) {
    let odds = n.pick(&[1, 4, 30]);
    let t = &mut f.tables;
    for slot in t.alpha.iter_mut().chain(t.k_v.iter_mut()).chain(t.k_ta.iter_mut()) {
        if n.one_in(odds) {
            *slot = n.wild();
        }
    }
    for slot in t.offsets.iter_mut().flatten() {
        if n.one_in(odds) {
            *slot = n.word().into();
        }
    }
    for byte in f.pixels.iter_mut() {
        if n.one_in(odds) {
            *byte = n.next() as u8;
        }
    }
    if n.one_in(20) {
        let short = n.below(192);
        match n.below(5) {
            0 => t.offsets[0].truncate(short),
            1 => t.offsets[1].truncate(short),
            2 => t.alpha.truncate(short),
            3 => t.k_v.truncate(short),
            _ => t.k_ta.truncate(short),
        }
    }
}

pub fn made(n: &mut Numbers) -> (&'static str, Frame) {
    let mut f = realistic_frame(n);
    let kind = n.below(6);
    if kind == 0 {
        return ("realistic", f);
    }
    vary(n, &mut f);
    if kind == 1 {
        return ("realistic card, varied call", f);
    }
    if kind != 4 {
        f.ram = any_ram(n);
    }
    if kind == 2 {
        return ("any RAM words", f);
    }
    wild_record(n, &mut f);
    if kind == 3 {
        return ("any RAM words, wild record", f);
    }
    wild_tables(n, &mut f);
    (if kind == 4 { "wild record and tables" } else { "any RAM words, wild record and tables" }, f)
}

pub fn destination(n: &mut Numbers, kind: &str) -> Vec<u32> {
    let length = if kind == "realistic" { 192 } else { n.pick(&[192, 192, 192, 192, 192, 192, 192, 192, 0, 1, 191, 193, 300]) };
    match n.below(3) {
        0 => (0..length).map(|_| n.wild().to_bits()).collect(),
        1 => (0..length).map(|_| n.real(-300.0, 3000.0).to_bits()).collect(),
        _ => (0..length).map(|k| 0x7FA0_0000 + k as u32).collect(),
    }
}

pub fn floats(bits: &[u32]) -> Vec<f32> {
    bits.iter().map(|b| f32::from_bits(*b)).collect()
}

/// Makes a call of the crate on a destination of these bits.
pub fn of_call(before: &[u32], call: impl FnOnce(&mut [f32]) -> f32) -> Said {
    of_crate(|| {
        let mut destination = floats(before);
        (call(&mut destination), destination)
    })
}

fn same(of_crate: f32, of_library: u32) -> bool {
    if of_crate.is_nan() {
        of_library == 0x7FC0_0000
    } else {
        of_crate.to_bits() == of_library
    }
}

/// A call on a camera with this number of pixels; `camera` prefixes what is counted.
pub struct Judged<'a> {
    pub camera: &'static str,
    pub pixels: usize,
    pub call: &'static str,
    pub label: &'a str,
    pub mask: &'a [u8],
    pub before: &'a [u32],
}

// Judges one call: its verdict by the document, the library's answer and destination, and the crate's result. Returns whether there are pixels to go on with.
pub fn judge(tally: &mut Tally, j: &Judged, verdict: Verdict, answer: Answer, after: &[u32], said: &Said) -> bool {
    let did = if said.is_some() { "crate goes on" } else { "crate panics" };
    tally.count(&format!("{}{}, verdict {}, {did}", j.camera, j.call, verdict.0));
    if (answer.number, answer.place, answer.value) != verdict {
        tally.disagree(|| format!("{} {}: document {verdict:?}, library {answer:?}", j.call, j.label));
        return false;
    }
    if verdict.0 != 0 {
        if after != j.before || answer.t_a != 0 || answer.lost != 0 {
            tally.disagree(|| format!("{} {}: refusal {verdict:?} left something: {answer:?}", j.call, j.label));
        }
        if matches!(verdict.0, 6 | 7) && said.is_some() {
            tally.disagree(|| format!("{} {}: refusal {verdict:?}, the crate goes on", j.call, j.label));
        }
        return false;
    }
    let Some((t_a, wanted)) = said else {
        tally.disagree(|| format!("{} {}: the crate panics, the library does not refuse", j.call, j.label));
        return false;
    };
    if !same(*t_a, answer.t_a) {
        tally.disagree(|| format!("{} {}: t_a {t_a:?}, library 0x{:08X}", j.call, j.label, answer.t_a));
    }
    let mut counts = [0; 5];
    for (i, (want, is)) in wanted.iter().zip(after).enumerate() {
        let written = i < j.pixels && j.mask[i] != 0;
        let agrees = if written { same(*want, *is) } else { *is == j.before[i] && want.to_bits() == j.before[i] };
        if !agrees {
            let (bits, was) = (want.to_bits(), j.before[i]);
            tally.disagree(|| format!("{} {}: pixel {i}, written {written}, was 0x{was:08X}: crate {want:?} 0x{bits:08X}, library 0x{is:08X}", j.call, j.label));
            return false;
        }
        counts[class_of(written, *want)] += 1;
    }
    for (class, count) in CLASSES.iter().zip(counts).filter(|(_, count)| *count > 0) {
        tally.add(&format!("{}pixels {class}", j.camera), count);
    }
    let lost = counts[LOST] as usize;
    if answer.lost != lost || wanted.len() != after.len() {
        tally.disagree(|| format!("{} {}: {lost} lost, library says {}", j.call, j.label, answer.lost));
    }
    true
}

const CLASSES: [&str; 5] = ["left as they were", "not a number", "infinite", "-0", "finite"];
const LOST: usize = 1;

fn class_of(written: bool, x: f32) -> usize {
    match x {
        _ if !written => 0,
        _ if x.is_nan() => LOST,
        _ if x.is_infinite() => 2,
        _ if x == 0.0 && x.is_sign_negative() => 3,
        _ => 4,
    }
}

pub fn compare_powf(powf: &mut Powf, label: &str, published: &[f32], after: &[u32], written: impl Fn(usize) -> bool) {
    for (i, (a, b)) in published.iter().zip(after).enumerate().filter(|(i, _)| written(*i)) {
        let b = f32::from_bits(*b);
        if a.is_nan() != b.is_nan() || a.is_infinite() != b.is_infinite() {
            powf.kinds_differ += 1;
        } else if b.is_finite() {
            powf.pixels += 1;
            powf.differ += u64::from(*a != b);
            if (-40.0..=300.0).contains(&b) {
                powf.inside = powf.inside.max((a - b).abs());
            }
            if (a - b).abs() > powf.degrees {
                powf.degrees = (a - b).abs();
                powf.worst = format!("{label}, pixel {i}: powf {a:?}, root {b:?}");
            }
        }
    }
}

fn one(tally: &mut Tally, powf: &mut [Powf; 2], n: &mut Numbers, label: &str) {
    let (kind, mut f) = made(n);
    if f.range > 8 && n.one_in(2) {
        f.range <<= 32;
    }
    tally.count(&format!("frames, {kind}"));
    let before = destination(n, kind);

    let mut after = before.clone();
    let answer = library::raw_pixels_to_ir_data(&f, &mut after);
    let said = of_call(&before, |destination| published::raw_pixels_to_ir_data(&f, destination));
    let j = Judged { camera: "", pixels: 192, call: "infrared", label, mask: &f.mask, before: &before };
    let infrared = judge(tally, &j, document::infrared(&f, before.len()), answer, &after, &said).then(|| (after.clone(), f32::from_bits(answer.t_a)));
    if kind == "realistic" {
        let said = of_call(&before, |destination| published::own_infrared(&f, destination));
        judge(tally, &Judged { call: "infrared by the crate's own types", ..j }, document::infrared(&f, before.len()), answer, &after, &said);
    }

    // From the infrared values of this frame, or from whatever is in the destination.
    let (from, t_a) = match infrared {
        Some(given) if !n.one_in(3) => given,
        _ => (before.clone(), if n.one_in(2) { n.real(-40.0, 90.0) } else { n.wild() }),
    };
    let mut after = from.clone();
    let answer = library::raw_ir_to_temperatures(&f, t_a, &mut after);
    let said = of_call(&from, |destination| rooted::raw_ir_to_temperatures(&f, t_a, destination));
    let j = Judged { camera: "", pixels: 192, call: "temperature", label, mask: &f.mask, before: &from };
    judge(tally, &j, document::temperature(&f, from.len()), answer, &after, &said);

    let mut after = before.clone();
    let answer = library::raw_pixels_to_temperatures(&f, &mut after);
    let said = of_call(&before, |destination| rooted::raw_pixels_to_temperatures(&f, destination));
    let j = Judged { camera: "", pixels: 192, call: "one pass", label, mask: &f.mask, before: &before };
    if judge(tally, &j, document::one_pass(&f, before.len()), answer, &after, &said) {
        if kind == "realistic" {
            let said = of_call(&before, |destination| rooted::own_one_pass(&f, destination));
            judge(tally, &Judged { call: "one pass by the crate's own types", ..j }, document::one_pass(&f, before.len()), answer, &after, &said);
        }
        let mut destination = floats(&before);
        published::raw_pixels_to_temperatures(&f, &mut destination);
        let class = &mut powf[usize::from(kind != "realistic")];
        compare_powf(class, label, &destination, &after, |i| i < 192 && f.mask[i] != 0);
    }
    if n.one_in(4) {
        filtered(tally, n, label, &f, &before);
    }
    if n.one_in(3) {
        ranged(tally, n, label, &f, &before);
    }
    if n.one_in(4) {
        wide(tally, n, label, &f, &before);
    }
}

// Offsets of scales 15 to 20, which the crate can't hold: t_a is the crate's, infrared values are document.rs's, and temperatures the rooted crate's from
// those.
fn wide(tally: &mut Tally, n: &mut Numbers, label: &str, f: &Frame, before: &[u32]) {
    let mut f = f.clone();
    let (scale, average) = (15 + n.below(6), i32::from(n.word()));
    for slot in f.tables.offsets.iter_mut().flatten() {
        *slot = n.between(-1024, 1023) * (1 << scale) + average;
    }
    let mut narrow = f.clone();
    for slot in narrow.tables.offsets.iter_mut().flatten() {
        *slot = 0;
    }
    let asked = |i: &usize| f.mask[*i] != 0;
    let rounded = |offset: &i32| *offset as f32 as i64 != i64::from(*offset);
    let verdict = document::infrared(&f, before.len());
    let put = |t_a: f32, destination: &mut [f32]| {
        if verdict.0 == 0 {
            for i in (0..192).filter(asked) {
                destination[i] = document::infrared_number(&f, t_a, i);
            }
        }
        t_a
    };
    tally.count(&format!("frames with offsets of scale {scale}"));
    if verdict.0 == 0 {
        let offsets = &f.tables.offsets[usize::from(f.subpage != 0)];
        tally.add("pixels whose offset is no f32", (0..192).filter(asked).filter(|i| rounded(&offsets[*i])).count() as u64);
    }

    let mut after = before.to_vec();
    let answer = library::raw_pixels_to_ir_data(&f, &mut after);
    let said = of_call(before, |destination| {
        let t_a = published::raw_pixels_to_ir_data(&narrow, destination);
        put(t_a, destination)
    });
    let j = Judged { camera: "", pixels: 192, call: "infrared, large offsets", label, mask: &f.mask, before };
    judge(tally, &j, verdict, answer, &after, &said);

    let mut after = before.to_vec();
    let answer = library::raw_pixels_to_temperatures(&f, &mut after);
    let said = of_call(before, |destination| {
        let t_a = published::raw_pixels_to_ir_data(&narrow, destination);
        put(t_a, destination);
        rooted::raw_ir_to_temperatures(&narrow, t_a, destination)
    });
    judge(tally, &Judged { call: "one pass, large offsets", ..j }, document::one_pass(&f, before.len()), answer, &after, &said);
}

// The second pass, which the crate does not have: by document.rs, from the crate's infrared values and the rooted crate's temperatures. Corners rise except
// in one case of eight; K and coefficients of other ranges are the card's, or wild; half of the frames are hot.
fn ranged(tally: &mut Tally, n: &mut Numbers, label: &str, f: &Frame, before: &[u32]) {
    let mut f = f.clone();
    if n.one_in(2) {
        let raw = n.between(0, 12000);
        f.pixels = (0..192).flat_map(|_| ((raw + n.between(-3000, 3000)) as i16).to_be_bytes()).collect();
    }
    let r = &mut f.record;
    if n.one_in(2) {
        let mut corner = n.between(-300, 0) as i16;
        for slot in r.corner_temperatures.iter_mut() {
            *slot = corner;
            corner += n.between(1, 120) as i16;
        }
    }
    if n.one_in(8) {
        let k = 1 + n.below(7);
        r.corner_temperatures[k] = r.corner_temperatures[k - 1].saturating_sub(n.below(3) as i16);
    }
    for k in 0..8 {
        if n.one_in(8) {
            r.range_coefficients[k] = n.wild();
        }
        if k != f.range && n.one_in(8) {
            r.k_s_to[k] = n.wild();
        }
    }
    let verdict = document::ranged(&f, before.len());
    let mut after = before.to_vec();
    let answer = library::raw_pixels_to_ranged_temperatures(&f, &mut after);
    let said = by_ranges(tally, &f, before);
    let j = Judged { camera: "", pixels: 192, call: "second pass", label, mask: &f.mask, before };
    judge(tally, &j, verdict, answer, &after, &said);

    // With a filter's average: see below.
    let average = (!n.one_in(4)).then(|| n.word());
    let mut after = before.to_vec();
    let answer = library::filtered_pixels_to_ranged_temperatures(&f, average.map(f32::from), &mut after);
    let said = by_ranges(tally, &steadied(&f, average), before);
    judge(tally, &Judged { call: "second pass, filtered", ..j }, verdict, answer, &after, &said);
}

/// The second pass by document.rs.
pub fn by_ranges(tally: &mut Tally, f: &Frame, before: &[u32]) -> Said {
    let infrared = of_call(before, |destination| published::raw_pixels_to_ir_data(f, destination))?;
    let (_, basic) = of_call(before, |destination| rooted::raw_pixels_to_temperatures(f, destination))?;
    Some(from_basic(tally, &document::seen(f), &f.tables.alpha, &f.mask, before, infrared, &basic))
}

/// From t_a, infrared values and basic temperatures, for either camera.
pub fn from_basic(
    tally: &mut Tally,
    seen: &document::Seen,
    alpha: &[f32],
    mask: &[u8],
    before: &[u32],
    (t_a, v): (f32, Vec<f32>),
    basic: &[f32],
) -> (f32, Vec<f32>) {
    let mut wanted = floats(before);
    for i in (0..wanted.len().min(seen.pixels)).filter(|i| mask.get(*i).is_some_and(|byte| *byte != 0)) {
        let alpha = alpha.get(i).copied().unwrap_or(f32::NAN);
        wanted[i] = seen.ranged_temperature(t_a, alpha, v[i], basic[i]);
        tally.count(&format!("second pass, pixels of range {}", seen.range_of(basic[i])));
        if (300.0..400.0).contains(&basic[i]) {
            tally.count("second pass, pixels of 300 to 400 degrees");
        }
    }
    (t_a, wanted)
}

/// An average that is a whole number acts like another reading, which the crate can judge; without an average the frame's own reading is used.
pub fn steadied(f: &Frame, average: Option<i16>) -> Frame {
    let mut steadied = f.clone();
    steadied.ram.compensation_pixel = average.unwrap_or(f.ram.compensation_pixel);
    steadied
}

// The forms with a filter's average.
fn filtered(tally: &mut Tally, n: &mut Numbers, label: &str, f: &Frame, before: &[u32]) {
    let average = (!n.one_in(4)).then(|| n.word());
    let steadied = steadied(f, average);
    tally.count("frames with a filter's answer");

    let mut after = before.to_vec();
    let answer = library::filtered_pixels_to_ir_data(f, average.map(f32::from), &mut after);
    let said = of_call(before, |destination| published::raw_pixels_to_ir_data(&steadied, destination));
    let j = Judged { camera: "", pixels: 192, call: "infrared, filtered", label, mask: &f.mask, before };
    judge(tally, &j, document::infrared(f, before.len()), answer, &after, &said);

    let mut after = before.to_vec();
    let answer = library::filtered_pixels_to_temperatures(f, average.map(f32::from), &mut after);
    let said = of_call(before, |destination| rooted::raw_pixels_to_temperatures(&steadied, destination));
    judge(tally, &Judged { call: "one pass, filtered", ..j }, document::one_pass(f, before.len()), answer, &after, &said);
}

pub fn compare(tally: &mut Tally, seed: u64, frames: u64) {
    let mut powf = [Powf::default(), Powf::default()];
    for k in 0..frames {
        progress("frames", k, frames);
        let mut n = Numbers::new(seed.wrapping_mul(0x1_0000_0003).wrapping_add(k).wrapping_mul(2).wrapping_add(1));
        one(tally, &mut powf, &mut n, &format!("frame {k} of seed {seed}"));
    }
    tell_powf(tally, ["realistic frames", "all other frames"], &powf);
}

pub fn tell_powf(tally: &mut Tally, classes: [&str; 2], powf: &[Powf; 2]) {
    for (what, p) in classes.iter().zip(powf) {
        let most = format!("at most by {} degrees ({}), from -40 to 300 degrees by {}", p.degrees, p.worst, p.inside);
        let kinds = format!("{} where one is infinite or not a number and the other is not", p.kinds_differ);
        tally.notes.push(format!("powf as published, {what}: {} temperatures, {} differ, {most}; {kinds}", p.pixels, p.differ));
    }
}
