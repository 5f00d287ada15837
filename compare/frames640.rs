//! The MLX90640's masks and frames. Infrared values are judged by the crate as published, temperatures by the rooted crate (with document 01's root for
//! `powf`); the second pass, and averages that are not whole numbers, by document.rs. A frame that the crate's own camera and calibration types can represent
//! is also judged by those, in a build without overflow checks.
use crate::bigger_crate::mlx90640::Mlx90640Calibration;
use crate::bigger_crate::{AccessPattern, CalibrationData, Subpage};
use crate::cards640::{self, image_of, zero_but, Words, BASIC, PIXELS};
use crate::document::{Reading, Seen, Shared, Verdict};
use crate::frames::{self, compare_powf, floats, from_basic, judge, of_call, tell_powf, Judged, Powf, Said};
use crate::library::{Answer, Ram, Record640, Tables640};
use crate::library640::{self as library, Frame640, HEATS};
use crate::loads640::edges;
use crate::numbers::Numbers;
use crate::tally::{of_crate, progress, Tally};

#[allow(dead_code)]
mod published {
    use mlx9064x as subject;
    include!("subject640.rs");
}
#[allow(dead_code)]
mod rooted {
    use mlx9064x_rooted as subject;
    include!("subject640.rs");
}
#[allow(dead_code)]
mod wrapping {
    use mlx9064x_wrapping as subject;
    include!("subject640.rs");
}

// ---- Cards, as the crate loads them

fn camera_of(c: &Mlx90640Calibration) -> (Record640, Tables640) {
    let both = [Subpage::Zero, Subpage::One];
    let k_v: Vec<f32> = c.k_v_pixels(Subpage::Zero).copied().collect();
    let access: Vec<f32> = c.access_pattern_compensation_pixels(AccessPattern::Interleave).map(|entry| *entry.expect("an entry")).collect();
    let gradient = c.temperature_gradient_coefficient();
    let record = Record640 {
        k_v_ptat: c.k_v_ptat(),
        k_t_ptat: c.k_t_ptat(),
        v_ptat_25: c.v_ptat_25(),
        alpha_ptat: c.alpha_ptat(),
        gain: c.gain(),
        k_s_ta: c.k_s_ta(),
        k_v_cp: c.k_v_cp(Subpage::Zero),
        k_ta_cp: c.k_ta_cp(Subpage::Zero),
        gradient: gradient.unwrap_or(0.0),
        access_cp: c.access_pattern_compensation_cp(Subpage::One, AccessPattern::Interleave).expect("correction one"),
        alpha_cp: both.map(|subpage| c.alpha_cp(subpage)),
        k_s_to: c.k_s_to().try_into().expect("four"),
        range_coefficients: c.alpha_correction().try_into().expect("four"),
        k_v: [0, 32, 1, 33].map(|pixel| k_v[pixel]),
        access_pattern: [0, 1, 3, 32, 33, 35].map(|pixel| access[pixel]),
        corner_temperatures: c.corner_temperatures().try_into().expect("four"),
        offset_reference_cp: both.map(|subpage| c.offset_reference_cp(subpage)),
        k_v_dd: c.k_v_dd(),
        v_dd_25: c.v_dd_25(),
        resolution: c.resolution(),
        has_gradient: gradient.is_some().into(),
        unused: [0; 2],
    };
    let tables = Tables640 {
        offsets: c.offset_reference_pixels(Subpage::Zero).map(|x| i32::from(*x)).collect(),
        alpha: c.alpha_pixels(Subpage::Zero).copied().collect(),
        k_ta: c.k_ta_pixels(Subpage::Zero).copied().collect(),
    };
    (record, tables)
}

/// A card whose frames have zeros of both signs: no offsets, a gain, and few other numbers.
fn zeros(n: &mut Numbers) -> Words {
    let mut w = zero_but(&[(48, n.pick(&[0xFFFF, 1])), (50, n.pick(&[1, 2, 0x3FF])), (51, 0x0100)]);
    let (k_v, corrections) = (n.next() as u16, n.next() as u16);
    w[33] = n.pick(&[0, 0x2F44]);
    w[52] = n.pick(&[0, k_v]);
    w[53] = n.pick(&[0, 0, 0x0800, 0xF800, 0x0040, 0x0001, corrections]);
    w[58] = n.pick(&[0, 0, 0x0001, 0x0400]);
    w[60] = n.pick(&[0, 0, 0x0020, 0x00E0]);
    w
}

// Some without a gradient, or with corners that don't rise. The verdict is 0: a card that doesn't load is made again.
fn card(n: &mut Numbers, make: impl Fn(&mut Numbers) -> Words) -> Vec<u8> {
    loop {
        let mut w = make(n);
        if n.one_in(6) {
            w[60] &= 0xFF00;
        }
        if n.one_in(12) {
            w[63] &= n.pick(&[0x0FFF, 0xF0FF, 0xFF0F]);
        }
        let image = image_of(&w);
        if cards640::verdict(&image, BASIC, PIXELS).0 == 0 {
            return image;
        }
    }
}

// ---- Frames

fn room(n: &mut Numbers) -> Ram {
    Ram { gain: 6273 + n.between(-300, 300) as i16, compensation_pixel: -54 + n.between(-60, 60) as i16, ..frames::room(n) }
}

fn any_ram(n: &mut Numbers) -> Ram {
    Ram { t_a_v_be: n.word(), t_a_ptat: n.word(), v_dd_pixel: n.word(), gain: n.word(), compensation_pixel: n.word() }
}

fn bytes_of(pixels: impl Iterator<Item = i16>) -> Vec<u8> {
    pixels.take(PIXELS).flat_map(i16::to_be_bytes).collect()
}

// A frame of a room, on a card that the crate has loaded, some tables longer than needed; with the subpage's own mask.
fn on_card(n: &mut Numbers, image: Vec<u8>) -> Frame640 {
    let (record, mut tables) = camera_of(&cards640::ask(&image).1.expect("a card that loads"));
    let mut longer = || PIXELS + if n.one_in(4) { n.below(5) } else { 0 };
    tables.alpha.resize(longer(), f32::NAN);
    tables.k_ta.resize(longer(), f32::NAN);
    tables.offsets.resize(longer(), 1234);
    let raw = n.between(-300, 900);
    let (subpage, pattern) = (n.below(2) as u8, n.below(2) as u8);
    Frame640 {
        image,
        record,
        tables,
        emissivity: if n.one_in(3) { 1.0 } else { n.real(0.7, 1.0) },
        resolution_correction: n.pick(&[1.0, 1.0, 0.5, 2.0, 0.25]),
        v_dd_0: 3.3,
        ram: room(n),
        subpage,
        pattern,
        range: BASIC,
        heat: 0,
        reflected: if n.one_in(2) { None } else { Some(n.real(-10.0, 60.0)) },
        pixels: bytes_of(std::iter::repeat_with(|| (raw + n.between(-200, 200)) as i16)),
        mask: published::own_mask(subpage, pattern),
        own: true,
    }
}

// Masks: the subpage's own, the other one's, all, random.
fn vary_mask(n: &mut Numbers, f: &mut Frame640) {
    let row = n.below(24);
    f.mask = match n.below(8) {
        0 | 1 => published::own_mask(f.subpage, f.pattern),
        2 => published::own_mask(u8::from(f.subpage == 0), f.pattern),
        3 => (0..PIXELS).map(|_| n.below(2) as u8).collect(),
        4 => (0..PIXELS + n.below(9)).map(|_| n.next() as u8).collect(),
        5 => (0..PIXELS + 60).map(|_| n.pick(&[0, 0, 0, 0x80])).collect(),
        6 => (0..PIXELS).map(|k| u8::from(k / 32 == row)).collect(),
        _ => vec![n.pick(&[1, 255]); n.pick(&[PIXELS, PIXELS, PIXELS, PIXELS, PIXELS + 1, PIXELS - 1, 0])],
    };
}

fn vary_emissivity(n: &mut Numbers, f: &mut Frame640) {
    f.emissivity = match n.below(4) {
        0 => n.pick(&[1.0, 0.95, 0.5, 1.5, 2.0, -1.0, -0.5, f32::INFINITY, f32::NEG_INFINITY, 1e-40, 1e38]),
        1 if n.one_in(4) => n.pick(&[0.0, -0.0, f32::NAN, f32::from_bits(0xFFC0_0001)]),
        2 if n.one_in(4) => n.wild(),
        _ => f.emissivity,
    };
}

// Changes what the caller chooses: masks, lengths, subpages, emissivities, and then what the crate's own types can't have: ranges, self-heatings, gradients,
// supplies.
fn vary(n: &mut Numbers, f: &mut Frame640) {
    vary_emissivity(n, f);
    (f.subpage, f.pattern) = (n.pick(&[0, 0, 1, 1, 2, 255]), n.pick(&[0, 0, 1, 1, 2, 255]));
    vary_mask(n, f);
    f.reflected = match n.below(3) {
        0 => None,
        1 => Some(n.real(-60.0, 200.0)),
        _ => Some(n.wild()),
    };
    if n.one_in(8) {
        let length = n.pick(&[0, 1, 800, 1534, 1535, 1536, 1537, 1538, 2000]);
        f.pixels.resize(length, 0x55);
    }
    if n.one_in(3) {
        return;
    }
    f.own = false;
    f.range = if n.one_in(20) { n.pick(&[4, 4, 5, 8, 255, 1 << 32, usize::MAX]) } else { n.below(4) };
    f.heat = n.below(HEATS.len());
    f.v_dd_0 = n.pick(&[3.3, 3.3, 3.0, 2.6, 5.0]);
    if n.one_in(4) {
        f.record.has_gradient = 0;
    } else if n.one_in(2) {
        f.record.gradient = n.pick(&[0.0, -0.0, 1.0, -4.0]);
        f.record.has_gradient = n.pick(&[1, 1, 2, 255]);
    }
}

fn wild_record(n: &mut Numbers, f: &mut Frame640) {
    f.own = false;
    let r = &mut f.record;
    let odds = n.pick(&[2, 6, 20]);
    let alone = [
        &mut r.k_v_ptat, &mut r.k_t_ptat, &mut r.v_ptat_25, &mut r.alpha_ptat, &mut r.gain, &mut r.k_s_ta, &mut r.k_v_cp, &mut r.k_ta_cp, &mut r.gradient,
        &mut r.access_cp,
    ];
    let lists = r.alpha_cp.iter_mut().chain(&mut r.k_s_to).chain(&mut r.k_v).chain(&mut r.access_pattern);
    for slot in alone.into_iter().chain(lists).chain([&mut f.resolution_correction, &mut f.v_dd_0]) {
        if n.one_in(odds) {
            *slot = n.wild();
        }
    }
    for slot in r.offset_reference_cp.iter_mut().chain([&mut r.k_v_dd, &mut r.v_dd_25]) {
        if n.one_in(odds) {
            *slot = n.word();
        }
    }
}

fn wild_tables(n: &mut Numbers, f: &mut Frame640) {
    f.own = false;
    let odds = n.pick(&[1, 4, 30]);
    let t = &mut f.tables;
    for slot in t.alpha.iter_mut().chain(t.k_ta.iter_mut()) {
        if n.one_in(odds) {
            *slot = n.wild();
        }
    }
    for slot in t.offsets.iter_mut() {
        if n.one_in(odds) {
            *slot = n.word().into();
        }
    }
    for byte in f.pixels.iter_mut() {
        if n.one_in(odds) {
            *byte = n.next() as u8;
        }
    }
    if n.one_in(10) {
        let short = if n.one_in(2) { PIXELS - 1 } else { n.below(PIXELS) };
        match n.below(3) {
            0 => t.offsets.truncate(short),
            1 => t.alpha.truncate(short),
            _ => t.k_ta.truncate(short),
        }
    }
}

fn of_zeros(n: &mut Numbers) -> Frame640 {
    let image = card(n, zeros);
    let mut f = on_card(n, image);
    f.ram = Ram { t_a_v_be: 1, t_a_ptat: n.pick(&[0, 1]), v_dd_pixel: -16384, gain: n.pick(&[1, -1, 3]), compensation_pixel: n.pick(&[0, 0, 1, -1]) };
    f.emissivity = n.pick(&[1.0, 1.0, -1.0, 0.5]);
    f.pixels = bytes_of(std::iter::repeat_with(|| n.pick(&[0, 0, 0, 1, -1, 2])));
    vary_mask(n, &mut f);
    f
}

fn made(n: &mut Numbers) -> (&'static str, Frame640) {
    let kind = n.below(10);
    match kind {
        0 => return ("zeros", of_zeros(n)),
        1 => {
            let image = card(n, |n| match n.below(4) {
                0 | 1 => cards640::mild(n),
                2 => cards640::sparse(n),
                _ => edges(n),
            });
            let mut f = on_card(n, image);
            if n.one_in(2) {
                f.ram = any_ram(n);
            }
            vary(n, &mut f);
            return ("mild, sparse and odd cards", f);
        }
        _ => {}
    }
    let image = card(n, |n| if n.one_in(4) { cards640::card_k() } else { cards640::realistic(n) });
    let mut f = on_card(n, image);
    if kind < 4 {
        return ("realistic", f);
    }
    vary(n, &mut f);
    if kind < 6 {
        return ("realistic card, varied call", f);
    }
    if kind != 8 {
        f.ram = any_ram(n);
    }
    if kind == 6 {
        return ("any RAM words", f);
    }
    wild_record(n, &mut f);
    if kind == 7 {
        return ("any RAM words, wild record", f);
    }
    wild_tables(n, &mut f);
    (if kind == 8 { "wild record and tables" } else { "any RAM words, wild record and tables" }, f)
}

fn destination(n: &mut Numbers, kind: &str) -> Vec<u32> {
    let odd = kind != "realistic" && n.one_in(6);
    let length = if odd { n.pick(&[0, 1, PIXELS - 1, PIXELS + 1, 800]) } else { PIXELS };
    match n.below(3) {
        0 => (0..length).map(|_| n.wild().to_bits()).collect(),
        1 => (0..length).map(|_| n.real(-300.0, 3000.0).to_bits()).collect(),
        _ => (0..length).map(|k| 0x7FA0_0000 + k as u32).collect(),
    }
}

// ---- The inputs of document.rs

fn seen(f: &Frame640) -> Seen<'_> {
    let (r, t) = (&f.record, &f.tables);
    Seen {
        pixels: PIXELS,
        without_alpha: t.offsets.len().min(t.k_ta.len()),
        alpha: t.alpha.len(),
        pixel_bytes: f.pixels.len(),
        mask: f.mask.len(),
        emissivity: f.emissivity,
        range: f.range,
        reflected: f.reflected,
        heating: HEATS[f.heat],
        ram: f.ram,
        k_v_dd: r.k_v_dd,
        v_dd_25: r.v_dd_25,
        k_v_ptat: r.k_v_ptat,
        k_t_ptat: r.k_t_ptat,
        alpha_ptat: r.alpha_ptat,
        k_s_ta: r.k_s_ta,
        alpha_cp: r.alpha_cp[usize::from(f.subpage != 0)],
        gradient: (r.has_gradient != 0).then_some(r.gradient),
        corners: &r.corner_temperatures,
        k_s_to: &r.k_s_to,
        coefficients: &r.range_coefficients,
    }
}

fn asked(f: &Frame640) -> impl Iterator<Item = usize> + '_ {
    (0..PIXELS).filter(|i| f.mask[*i] != 0)
}

// Infrared values by document.rs, with this reading of the compensation pixel; t_a is the crate's.
fn infrared_by_document(f: &Frame640, compensation: f32, t_a: f32, to: &mut [f32]) -> f32 {
    let (seen, r) = (seen(f), &f.record);
    let (second, interleave) = (f.subpage != 0, f.pattern == 0);
    let shared = Shared::new(&seen, r.gain, f.resolution_correction, f.v_dd_0, t_a);
    let access = if second && interleave { r.access_cp } else { 0.0 };
    let offset = r.offset_reference_cp[usize::from(second)].into();
    let compensation = Reading { reading: compensation, offset, k_v: r.k_v_cp, k_ta: r.k_ta_cp, access };
    for i in asked(f) {
        let (row, column) = (i / 32, i % 32);
        let pixel = Reading {
            reading: i16::from_be_bytes([f.pixels[2 * i], f.pixels[2 * i + 1]]).into(),
            offset: f.tables.offsets[i],
            k_v: r.k_v[row % 2 + 2 * (column % 2)],
            k_ta: f.tables.k_ta[i],
            access: if interleave { r.access_pattern[3 * (row % 2) + [0, 1, 0, 2][i % 4]] } else { 0.0 },
        };
        to[i] = shared.infrared(&pixel, seen.gradient, &compensation);
    }
    t_a
}

// ---- The judge

const CAMERA: &str = "MLX90640 ";

struct Case<'a> {
    label: &'a str,
    f: &'a Frame640,
    before: &'a [u32],
}

impl Case<'_> {
    // Judges a call. Returns t_a and the destination if there are pixels to go on with.
    fn judge(&self, tally: &mut Tally, call: &'static str, verdict: Verdict, said: Said, library: impl FnOnce(&mut [u32]) -> Answer) -> Option<(f32, Vec<u32>)> {
        let mut after = self.before.to_vec();
        let answer = library(&mut after);
        let j = Judged { camera: CAMERA, pixels: PIXELS, call, label: self.label, mask: &self.f.mask, before: self.before };
        judge(tally, &j, verdict, answer, &after, &said).then(|| (f32::from_bits(answer.t_a), after))
    }

    fn length(&self) -> usize {
        self.before.len()
    }

    fn said(&self, call: impl FnOnce(&mut [f32]) -> f32) -> Said {
        of_call(self.before, call)
    }
}

fn half(f: &Frame640) -> String {
    format!("{} subpage {}", if f.pattern == 0 { "interleave" } else { "chess" }, u8::from(f.subpage != 0))
}

fn one(tally: &mut Tally, powf: &mut [Powf; 2], n: &mut Numbers, label: &str) {
    let (kind, f) = made(n);
    tally.count(&format!("MLX90640 frames, {kind}"));
    tally.count(&format!("MLX90640 frames of {}", half(&f)));
    let before = destination(n, kind);
    let case = Case { label, f: &f, before: &before };
    let (view, length) = (seen(&f), case.length());

    let infrared = case.judge(tally, "infrared", view.infrared(length), case.said(|to| published::infrared(&f, to)), |to| library::raw_pixels_to_ir_data(&f, to));

    // From the infrared values of this frame, or from whatever is in the destination.
    let (t_a, from) = match infrared {
        Some(given) if !n.one_in(3) => given,
        _ => (if n.one_in(2) { n.real(-40.0, 90.0) } else { n.wild() }, before.clone()),
    };
    let onward = Case { before: &from, ..case };
    let said = onward.said(|to| rooted::temperatures(&f, t_a, to));
    onward.judge(tally, "temperature", view.temperature(length), said, |to| library::raw_ir_to_temperatures(&f, t_a, to));

    let said = case.said(|to| rooted::one_pass(&f, to));
    if let Some((_, after)) = case.judge(tally, "one pass", view.one_pass(length), said, |to| library::raw_pixels_to_temperatures(&f, to)) {
        let mut by_powf = floats(&before);
        published::one_pass(&f, &mut by_powf);
        compare_powf(&mut powf[usize::from(kind != "realistic")], label, &by_powf, &after, |i| i < PIXELS && f.mask[i] != 0);
    }
    if f.own {
        by_own_types(tally, &case, &onward, t_a);
    }
    if n.one_in(4) {
        filtered(tally, n, &case);
    }
    if n.one_in(3) {
        ranged(tally, n, &case);
    }
    if n.one_in(6) {
        wide(tally, n, &case);
    }
}

// The release build goes on where the checked build panics with refusal 7; and for a card whose sums leave 16 bits on the way the checked build has no
// calibration.
fn by_own_types(tally: &mut Tally, case: &Case, onward: &Case, t_a: f32) {
    let (f, view, length) = (case.f, seen(case.f), case.length());
    if view.infrared(length).0 != 7 {
        let said = case.said(|to| wrapping::own_infrared(f, to));
        case.judge(tally, "infrared by the crate's own types", view.infrared(length), said, |to| library::raw_pixels_to_ir_data(f, to));
    }
    if of_crate(|| rooted::own(f)).is_none() {
        tally.count("MLX90640 frames on cards on which the crate panics on the way, checked");
        return;
    }
    let said = onward.said(|to| rooted::own_temperatures(f, t_a, to));
    onward.judge(tally, "temperature by the crate's own types", view.temperature(length), said, |to| library::raw_ir_to_temperatures(f, t_a, to));
    let said = case.said(|to| rooted::own_one_pass(f, to));
    case.judge(tally, "one pass by the crate's own types", view.one_pass(length), said, |to| library::raw_pixels_to_temperatures(f, to));
}

// An average that is a whole number acts like another reading, which the crate judges; any other is judged by document.rs.
struct Steady {
    average: Option<f32>,
    frame: Frame640,
    by_document: bool,
}

impl Steady {
    fn new(n: &mut Numbers, f: &Frame640) -> Self {
        let (whole, sixteenths) = (n.word(), n.below(16) as f32 / 16.0);
        let mut frame = f.clone();
        if n.one_in(4) {
            return Steady { average: None, frame, by_document: false };
        }
        frame.ram.compensation_pixel = whole;
        if n.one_in(2) {
            return Steady { average: Some(whole.into()), frame, by_document: false };
        }
        let average = if n.one_in(8) { n.wild() } else { f32::from(whole) + sixteenths };
        Steady { average: Some(average), frame, by_document: true }
    }

    fn infrared(&self, verdict: Verdict, to: &mut [f32]) -> f32 {
        let t_a = published::infrared(&self.frame, to);
        if self.by_document && verdict.0 == 0 {
            infrared_by_document(&self.frame, self.average.expect("given"), t_a, to);
        }
        t_a
    }

    fn temperatures(&self, verdict: Verdict, to: &mut [f32]) -> f32 {
        if !self.by_document {
            return rooted::one_pass(&self.frame, to);
        }
        let t_a = self.infrared(verdict, to);
        rooted::temperatures(&self.frame, t_a, to)
    }
}

fn filtered(tally: &mut Tally, n: &mut Numbers, case: &Case) {
    let (f, length) = (case.f, case.length());
    let steady = Steady::new(n, f);
    tally.count(if steady.by_document { "MLX90640 frames with an average, by document" } else { "MLX90640 frames with an average, by the crate" });
    let verdict = seen(f).infrared(length);
    let said = case.said(|to| steady.infrared(verdict, to));
    case.judge(tally, "infrared, filtered", verdict, said, |to| library::filtered_pixels_to_ir_data(f, steady.average, to));
    let verdict = seen(f).one_pass(length);
    let said = case.said(|to| steady.temperatures(verdict, to));
    case.judge(tally, "one pass, filtered", verdict, said, |to| library::filtered_pixels_to_temperatures(f, steady.average, to));
}

// The second pass by document.rs, from infrared values and basic temperatures.
fn by_ranges(tally: &mut Tally, case: &Case, steady: &Steady, verdict: Verdict) -> Said {
    let infrared = case.said(|to| steady.infrared(verdict, to))?;
    let (_, basic) = case.said(|to| steady.temperatures(verdict, to))?;
    let mut counts = Tally::new();
    let said = from_basic(&mut counts, &seen(case.f), &case.f.tables.alpha, &case.f.mask, case.before, infrared, &basic);
    for (class, count) in &counts.counts {
        tally.add(&format!("{CAMERA}{class}"), *count);
    }
    Some(said)
}

// Half of the frames are hot; corners are the card's or others that rise, except in one case of eight; K and coefficients of other ranges are sometimes wild.
fn ranged(tally: &mut Tally, n: &mut Numbers, case: &Case) {
    let mut f = case.f.clone();
    if n.one_in(2) {
        let raw = n.between(0, 12000);
        f.pixels = bytes_of(std::iter::repeat_with(|| (raw + n.between(-3000, 3000)) as i16));
    }
    let r = &mut f.record;
    if n.one_in(2) {
        let mut corner = n.between(-300, 0) as i16;
        for slot in r.corner_temperatures.iter_mut() {
            *slot = corner;
            corner += n.between(1, 250) as i16;
        }
    }
    if n.one_in(8) {
        let k = 1 + n.below(3);
        r.corner_temperatures[k] = r.corner_temperatures[k - 1].saturating_sub(n.below(3) as i16);
    }
    for k in 0..4 {
        if n.one_in(8) {
            r.range_coefficients[k] = n.wild();
        }
        if k != f.range && n.one_in(8) {
            r.k_s_to[k] = n.wild();
        }
    }
    let case = Case { f: &f, ..*case };
    let verdict = seen(&f).ranged(case.length());
    let plain = Steady { average: None, frame: f.clone(), by_document: false };
    let said = by_ranges(tally, &case, &plain, verdict);
    case.judge(tally, "second pass", verdict, said, |to| library::raw_pixels_to_ranged_temperatures(&f, to));

    let steady = Steady::new(n, &f);
    let said = by_ranges(tally, &case, &steady, verdict);
    case.judge(tally, "second pass, filtered", verdict, said, |to| library::filtered_pixels_to_ranged_temperatures(&f, steady.average, to));
}

// Offsets of any 32 bits, which no card has and the crate can't hold, but a caller can pass: infrared values are document.rs's, temperatures the rooted
// crate's.
fn wide(tally: &mut Tally, n: &mut Numbers, case: &Case) {
    let mut f = case.f.clone();
    let narrow = Frame640 { tables: Tables640 { offsets: vec![0; f.tables.offsets.len()], ..f.tables.clone() }, ..f.clone() };
    let shift = n.below(32);
    f.tables.offsets.iter_mut().for_each(|slot| *slot = n.next() as i32 >> shift);
    let case = Case { f: &f, ..*case };
    let put = |verdict: Verdict, to: &mut [f32]| {
        let t_a = published::infrared(&narrow, to);
        if verdict.0 == 0 {
            infrared_by_document(&f, f.ram.compensation_pixel.into(), t_a, to);
        }
        t_a
    };
    let verdict = seen(&f).infrared(case.length());
    case.judge(tally, "infrared, any offsets", verdict, case.said(|to| put(verdict, to)), |to| library::raw_pixels_to_ir_data(&f, to));
    let verdict = seen(&f).one_pass(case.length());
    let said = case.said(|to| {
        let t_a = put(verdict, to);
        rooted::temperatures(&narrow, t_a, to)
    });
    case.judge(tally, "one pass, any offsets", verdict, said, |to| library::raw_pixels_to_temperatures(&f, to));
}

// ---- Masks

fn masks(tally: &mut Tally) {
    for (subpage, pattern) in [0, 1, 2, 255].into_iter().flat_map(|subpage| [0, 1, 2, 255].map(|pattern| (subpage, pattern))) {
        let wanted = published::own_mask(subpage, pattern);
        assert_eq!(wanted.len(), PIXELS, "the crate's pixels");
        for length in [0, 1, 767, 768, 769, 1000] {
            let before: Vec<u8> = (0..length).map(|k| (k % 253 + 2) as u8).collect();
            let mut after = before.clone();
            let outcome = library::subpage_mask(subpage, pattern, &mut after);
            let (verdict, expected) = if length < PIXELS { ((2, 0, 0), before.clone()) } else { ((0, 0, 0), [&wanted[..], &before[PIXELS..]].concat()) };
            tally.count(&format!("MLX90640 masks, verdict {}", verdict.0));
            if (outcome.number, outcome.place, outcome.value) != verdict || after != expected {
                tally.disagree(|| format!("MLX90640 mask, subpage {subpage}, pattern {pattern}, length {length}: verdict {verdict:?}, library {outcome:?}"));
            }
        }
    }
}

pub fn compare(tally: &mut Tally, seed: u64, frames: u64) {
    masks(tally);
    let mut powf = [Powf::default(), Powf::default()];
    for k in 0..frames {
        progress("MLX90640 frames", k, frames);
        let mut n = Numbers::new(seed.wrapping_mul(0x1_0000_0003).wrapping_add(k).wrapping_mul(2).wrapping_add(1));
        one(tally, &mut powf, &mut n, &format!("MLX90640 frame {k} of seed {seed}"));
    }
    tell_powf(tally, ["the MLX90640's realistic frames", "the MLX90640's other frames"], &powf);
}
