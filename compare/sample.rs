//! Writes what crates/replay replays: a stream of cases (docs/CASES.md) with the results of the crate mlx9064x 0.2.1.
//!   sample FOLDER
//! Chip words, records, tables and infrared values are those of the crate as published, temperatures those of the rooted crate (with document 01's root for
//! `powf`). document.rs gives the refusals, which must fit what the crate does there; the mended words; range coefficient 0; a card's offsets if the crate's
//! average differs from the documents' or its 16 bits don't hold them ("papers judge" in the case's name); and the second pass ("by document"). If the crate
//! gives no result, the name says what it does. The library is not linked: only the types of library.rs are used here. For the MLX90640's cards cards640.rs
//! gives the refusals of a load, and range coefficients for other basic ranges than the crate's ("by document"); all else is the crate's own. sample640.rs
//! has its frames.
#[allow(dead_code)]
mod cards;
mod cards640;
#[allow(dead_code)]
mod document;
#[allow(dead_code)]
mod frames;
#[allow(dead_code)]
mod library;
mod numbers;
mod sample640;
#[allow(dead_code)]
mod tally;

include!("subjects.rs");

use cards::{by_crate, image_of, offset_card, record_of, sound, tables_of};
use document::{Code, Data, Verdict};
use frames::{by_ranges, of_call, steadied, Said};
use library::{Frame, Record, Tables, BASIC, HEATS};
use mlx9064x as bigger_crate;
use mlx9064x::error::LibraryError;
use mlx9064x::mlx90641::hamming::{add_checksum, validate_checksum};
use mlx9064x::CalibrationData;
use numbers::Numbers;
use std::collections::BTreeMap;
use tally::Tally;

const SEED: u64 = 90641;
const WORDS_OF_EACH: usize = 120;
const CARDS_MADE: u64 = 110;
const FRAMES_MADE: u64 = 165;

// Room for the image, the tables, the pixels, the mask and the destination.
const IMAGE: usize = 1680;
const ENTRIES: usize = 200;
const PIXELS: usize = 400;
const BIGGER_ENTRIES: usize = 776;

type Kind = (u16, &'static str);
const ENCODE: Kind = (1, "encode");
const CHECK: Kind = (2, "check");
const LOAD: Kind = (3, "load");
const CAMERA: Kind = (12, "camera");
const FRAME: Kind = (13, "frame");
const INFRARED: Kind = (14, "infrared");
const ONE_PASS: Kind = (15, "one pass");
const SECOND_PASS: Kind = (16, "second pass");
const FILTERED_INFRARED: Kind = (17, "filtered infrared");
const FILTERED_ONE_PASS: Kind = (18, "filtered one pass");
const FILTERED_SECOND_PASS: Kind = (19, "filtered second pass");
const TEMPERATURES: Kind = (20, "temperatures");
const BIGGER_LOAD: Kind = (24, "MLX90640 load");
const BIGGER_MASK: Kind = (25, "MLX90640 mask");
const BIGGER_CAMERA: Kind = (26, "MLX90640 camera");
const BIGGER_FRAME: Kind = (27, "MLX90640 frame");
const BIGGER_PLAIN: [Kind; 3] = [(28, "MLX90640 infrared"), (29, "MLX90640 one pass"), (30, "MLX90640 second pass")];
const BIGGER_FILTERED: [Kind; 3] =
    [(31, "MLX90640 filtered infrared"), (32, "MLX90640 filtered one pass"), (33, "MLX90640 filtered second pass")];
const BIGGER_TEMPERATURES: Kind = (34, "MLX90640 temperatures");

/// The stream so far, the number of answers of each kind, and the record and tables that the next frame would use.
struct Stream {
    bytes: Vec<u8>,
    answers: BTreeMap<Kind, u64>,
    camera: Vec<u32>,
    averages: Numbers,
    code: Code,
    tally: Tally,
}

impl Stream {
    fn case(&mut self, kind: Kind, name: &str, input: &[u8], answer: &[u8]) {
        assert!(name.is_ascii() && name.len() <= 256, "{name}");
        self.bytes.extend(u16s([kind.0, name.len() as u16]));
        self.bytes.extend(u32s([input.len() as u32, answer.len() as u32]));
        for part in [name.as_bytes(), input, answer] {
            self.bytes.extend(part);
        }
        if !answer.is_empty() {
            *self.answers.entry(kind).or_default() += 1;
        }
    }

    // Counts by the name up to its last comma.
    fn count(&mut self, what: &str, name: &str) {
        self.tally.count(&format!("{what}, {}", name.rsplit_once(", ").map_or(name, |(class, _)| class)));
    }
}

// ---- Numbers, as the stream has them

fn bits(x: f32) -> u32 {
    if x.is_nan() {
        0x7FC0_0000
    } else {
        x.to_bits()
    }
}

fn u16s(list: impl IntoIterator<Item = u16>) -> Vec<u8> {
    list.into_iter().flat_map(u16::to_be_bytes).collect()
}

fn u32s(list: impl IntoIterator<Item = u32>) -> Vec<u8> {
    list.into_iter().flat_map(u32::to_be_bytes).collect()
}

fn f32s(list: impl IntoIterator<Item = f32>) -> Vec<u8> {
    u32s(list.into_iter().map(f32::to_bits))
}

fn told(verdict: Verdict) -> Vec<u8> {
    [verdict.0, verdict.1, verdict.2].into_iter().flat_map(u64::to_be_bytes).collect()
}

fn record_numbers(r: &Record) -> Vec<u32> {
    let whole = |x: i16| i32::from(x) as u32;
    let gradient = if r.has_gradient == 0 { [0, 0] } else { [1, bits(r.gradient)] };
    let parts: [&[u32]; 9] = [
        &[whole(r.k_v_dd), whole(r.v_dd_25), r.resolution.into()],
        &[r.k_v_ptat, r.k_t_ptat, r.v_ptat_25, r.alpha_ptat, r.gain, r.k_s_ta].map(bits),
        &r.corner_temperatures.map(whole),
        &r.k_s_to.map(bits),
        &[r.emissivity, r.alpha_cp].map(bits),
        &[whole(r.offset_reference_cp)],
        &[r.k_v_cp, r.k_ta_cp].map(bits),
        &gradient,
        &r.range_coefficients.map(bits),
    ];
    parts.concat()
}

// A record of zeros, and tables with nothing loaded.
fn blank() -> Vec<u32> {
    [vec![0; 40], vec![77; 2 * ENTRIES], vec![bits(77.0); 3 * ENTRIES]].concat()
}

// Entries past the end of a table are kept: no call gets them.
fn put(camera: &mut [u32], r: &Record, t: &Tables) {
    camera[..40].copy_from_slice(&record_numbers(r));
    let offsets = t.offsets.iter().map(|table| table.iter().map(|x| *x as u32).collect::<Vec<u32>>());
    let others = [&t.alpha, &t.k_v, &t.k_ta].into_iter().map(|table| table.iter().map(|x| bits(*x)).collect());
    for (k, table) in offsets.chain(others).enumerate() {
        camera[40 + ENTRIES * k..][..table.len()].copy_from_slice(&table);
    }
}

// Entries past the part that the call gets must not change either.
fn destination_bytes(lent: &[u32], entries: usize) -> Vec<u8> {
    u32s(lent.iter().copied().chain((lent.len()..entries).map(|k| 0x7FB0_0000 + k as u32)))
}

// ---- Words

fn encode(s: &mut Stream, data: u16) {
    let (verdict, did, word) = match add_checksum(data) {
        Ok(word) => ((0, 0, 0), "", word),
        Err(LibraryError::Other(_)) => ((9, data.into(), 0), ", crate error", 0),
        Err(other) => panic!("{other:?}"),
    };
    s.case(ENCODE, &format!("data {data}{did}"), &u16s([data]), &[told(verdict), u16s([word])].concat());
    s.tally.count(&format!("encode, verdict {}", verdict.0));
}

fn check(s: &mut Stream, name: &str, word: u16) {
    let (verdict, did, data) = match validate_checksum(word) {
        Ok(data) => ((0, 0, 0), "", data),
        Err(LibraryError::Checksum(bits)) => ((3, 0, bits.into()), ", crate error", 0),
        Err(other) => panic!("{other:?}"),
    };
    let bit = s.code.flipped(word);
    assert!(verdict.0 == 0 || bit.is_none(), "word 0x{word:04X}: damaged, and bit {bit:?} mends it");
    let mended = vec![u8::from(bit.is_some()), bit.unwrap_or(0)];
    s.case(CHECK, &format!("{name}0x{word:04X}{did}"), &u16s([word]), &[told(verdict), u16s([data]), mended].concat());
    s.tally.count(&format!("check, verdict {}", verdict.0));
}

fn flipped(n: &mut Numbers, word: u16, flips: usize) -> u16 {
    let mut left: Vec<usize> = (0..16).collect();
    (0..flips).fold(word, |word, _| word ^ 1 << left.swap_remove(n.below(left.len())))
}

fn words(s: &mut Stream) {
    for data in (0..2048).chain([2048, 2049, 4095, 32767, 32768, 65534, 65535]) {
        encode(s, data);
    }
    for word in [0x9800, 0x8000, 0x0003, 0x0007, 0x0000, 0xFFFF, 0x7FFF, 0xFC00, 0x9801, 0x3003] {
        check(s, "", word);
    }
    let mut n = Numbers::new(SEED);
    for flips in 0..4 {
        for _ in 0..WORDS_OF_EACH {
            let word = document::encode(n.below(2048) as u16);
            check(s, &format!("{flips} flips, "), flipped(&mut n, word, flips));
        }
    }
}

// ---- Cards

const FULL: [usize; 5] = [192; 5];

// The crate's range coefficients must equal document.rs's except for range 0, for which it takes a reciprocal.
fn coefficients(code: &Code, image: &[u8], of_crate: &[f32]) -> [f32; 8] {
    let coefficients = document::coefficients(&code.data(image).expect("a card that loads"), BASIC);
    assert!(of_crate[1..].iter().zip(&coefficients[1..]).all(|(a, b)| bits(*a) == bits(*b)), "{of_crate:?}, document {coefficients:?}");
    coefficients
}

fn card(s: &mut Stream, name: &str, image: &[u8], lengths: [usize; 5]) {
    let image = &image[..image.len().min(IMAGE)];
    let verdict = s.code.load(image, BASIC, lengths.into_iter().min().unwrap_or(0));
    let asked = cards::ask(&s.code, image, verdict);
    let did = asked.did;
    assert!(asked.as_expected, "{name}: document {verdict:?}, {did}");
    let mut mending = (0, 832);
    s.camera = blank();
    if verdict.0 == 0 {
        let (Some(Ok(c)), Some(offsets)) = (&asked.answer, asked.offsets) else { panic!("{name}: loads, and the crate has no record") };
        let record = Record { range_coefficients: coefficients(&s.code, image, c.alpha_correction()), ..record_of(c) };
        put(&mut s.camera, &record, &Tables { offsets, ..tables_of(c) });
        mending = s.code.mending(image);
    }
    let input = [(BASIC as u64).to_be_bytes().to_vec(), u16s(lengths.map(|x| x as u16)), image.to_vec()].concat();
    let answer = [told(verdict), u32s([mending.0 as u32, mending.1 as u32]), u32s(s.camera.clone())].concat();
    s.case(LOAD, &if did == "crate good" { name.to_string() } else { format!("{name}, {did}") }, &input, &answer);
    s.count("cards", name);
    s.tally.count(&format!("cards, verdict {}, {did}", verdict.0));
}

fn with(data: &[(usize, u16)]) -> Data {
    let mut card = sound();
    for (word, value) in data {
        card[*word] = *value;
    }
    card
}

fn lengths_of_cards(s: &mut Stream) {
    let good = image_of(&sound());
    for length in [0, 1, 33, 1663, 1664, 1665, 1680] {
        let mut image = good.clone();
        image.resize(length, 0xFF);
        card(s, &format!("lengths, {length}"), &image, FULL);
    }
    for k in 0..5 {
        for short in [191, 0] {
            let mut lengths = FULL;
            lengths[k] = short;
            card(s, &format!("short tables, table {k} with {short}"), &good, lengths);
        }
    }
    card(s, "long tables, all of 200", &good, [200; 5]);
    card(s, "long tables, of several lengths", &good, [193, 192, 200, 192, 199]);
}

fn wiped(s: &mut Stream) {
    card(s, "wiped to 0x00, 1664 bytes", &[0; 1664], FULL);
    card(s, "wiped to 0x00, 1665 bytes", &[0; 1665], [200; 5]);
    card(s, "wiped to 0xFF, 1664 bytes", &[0xFF; 1664], FULL);
    card(s, "wiped to 0xFF, 1663 bytes", &[0xFF; 1663], FULL);
}

fn flips(s: &mut Stream) {
    for word in [0, 15, 16, 17, 18, 19, 20, 21, 63, 64, 255, 256, 447, 448, 639, 640, 831] {
        for flips in [0x0100u16, 0x8001, 0x0007] {
            let mut image = image_of(&sound());
            image[2 * word] ^= (flips >> 8) as u8;
            image[2 * word + 1] ^= flips as u8;
            card(s, &format!("one word, {} flips, word {word}", flips.count_ones()), &image, FULL);
        }
    }
}

// Raw × 2^scale and its sum with the average at the ends of i16, and the scales themselves.
fn offsets(s: &mut Stream) {
    let edges = [
        (14, 0, 1, 64), (14, 0, -2, 255), (14, 0, 2, 640), (14, 0, -3, 831), (14, -1, 2, 64), (14, -1, -2, 831), (14, 1023, 1, 640),
        (13, 0, 3, 64), (13, 0, 4, 64), (13, 0, -4, 255), (13, -1, -4, 640), (13, 1023, -4, 831), (5, 31, 1023, 64), (5, 32, 1023, 64),
        (5, 0, -1024, 831), (5, -1, -1024, 831), (6, 0, 511, 640), (6, 63, 511, 640), (6, 64, 511, 640), (6, 0, 512, 255), (0, 1023, 1023, 64),
        (0, -1024, -1024, 831), (15, 0, 0, 64), (16, 0, 0, 64), (63, 0, 0, 64), (15, 0, 1, 64), (20, 1, 17, 64), (20, 32767, 1023, 831), (20, -32768, -1024, 255),
        (21, 0, 0, 64), (0, 1024, 0, 64), (0, -1025, 0, 64),
        (5, 2047, 1023, 64), (5, 2047, -1024, 831), (0, 32767, 1, 640), (0, 32767, -1, 640), (0, -32768, -1, 255), (0, -32768, 1, 255),
    ];
    for (scale, average, raw, place) in edges {
        let name = format!("offset scales and sums, scale {scale} average {average} raw {raw} at word {place}");
        card(s, &name, &image_of(&offset_card(scale, average, raw, place)), FULL);
    }
}

// Every other scale of a card, at its ends and where a power leaves f32's range.
fn scales(s: &mut Stream) {
    for word in [0, 1, 126, 127, 128, 129, 149, 150, 2047] {
        card(s, &format!("alpha CP and K_sTo scales, {word}"), &image_of(&with(&[(46, word), (52, word)])), FULL);
    }
    for word in [0, 31, 32, 1023, 1024, 2016, 2047] {
        let all = [22, 24, 25, 26, 27, 49, 50, 51].map(|k| (k, word));
        card(s, &format!("scale words, {word}"), &image_of(&with(&all)), FULL);
    }
    for word in [0, 31, 32, 1023, 1024, 2047] {
        let all = [17, 18, 36, 37, 40, 41, 47, 48].map(|k| (k, word));
        let mut data = with(&all);
        data[16] = 0;
        card(s, &format!("combined words, {word}"), &image_of(&data), FULL);
    }
}

// Two faults in one card: the lower number is returned.
fn pairs(s: &mut Stream) {
    for a in 1..5 {
        for b in a..5 {
            let both = [a, b];
            let mut data = sound();
            if both.contains(&4) {
                data[16] = 21 << 5;
            }
            let mut image = image_of(&data);
            if both.contains(&3) {
                image[1400..1402].copy_from_slice(&[0, 3]);
            }
            if both.contains(&1) {
                image.truncate(1663);
            }
            let lengths = if both.contains(&2) { [192, 192, 192, 192, 191] } else { FULL };
            card(s, &format!("faults in pairs, {a} and {b}"), &image, lengths);
        }
    }
}

fn made_card(s: &mut Stream, k: u64) {
    let mut n = Numbers::new(SEED * 1000 + k);
    let (class, image) = cards::made(&mut n);
    card(s, &format!("made, {class}, {k}"), &image, FULL);
}

// ---- Frames

/// The mask of a call, the number of pixels, and the number of entries of a destination in the stream.
struct Asked<'a> {
    mask: &'a [u8],
    pixels: usize,
    entries: usize,
}

fn asked(f: &Frame) -> Asked<'_> {
    Asked { mask: &f.mask, pixels: 192, entries: ENTRIES }
}

// Writes the case of a call on a frame, from its verdict and the crate's result. If it isn't refused, returns t_a and the destination.
fn call(s: &mut Stream, kind: Kind, name: &str, input: &[u8], asked: &Asked, verdict: Verdict, before: &[u32], said: Said) -> Option<(u32, Vec<u32>)> {
    let did = if said.is_some() { "crate goes on" } else { "crate panics" };
    s.tally.count(&format!("{}, verdict {}, {did}", kind.1, verdict.0));
    assert!(!matches!(verdict.0, 6 | 7) || said.is_none(), "{name}: refusal {verdict:?}, the crate goes on");
    let name = if said.is_some() { name.to_string() } else { format!("{name}, {did}") };
    let (mut t_a, mut lost, mut after) = (0, 0, before.to_vec());
    if verdict.0 == 0 {
        let (ambient, pixels) = said.expect("the crate goes on where there is no refusal");
        t_a = bits(ambient);
        for (i, pixel) in pixels.iter().enumerate() {
            if i < asked.pixels && asked.mask[i] != 0 {
                after[i] = bits(*pixel);
                lost += u32::from(pixel.is_nan());
                s.tally.count(&format!("{}, pixels {}", kind.1, kind_of(*pixel)));
            } else {
                s.tally.count(&format!("{}, pixels left as they were", kind.1));
                assert_eq!(pixel.to_bits(), before[i], "{name}: the crate leaves pixel {i}");
            }
        }
    }
    s.case(kind, &name, input, &[told(verdict), u32s([t_a, lost]), destination_bytes(&after, asked.entries)].concat());
    (verdict.0 == 0).then_some((t_a, after))
}

fn kind_of(pixel: f32) -> &'static str {
    match pixel {
        x if x.is_nan() => "not a number",
        x if x.is_infinite() => "infinite",
        x if x == 0.0 && x.is_sign_negative() => "-0",
        x if x.is_subnormal() => "subnormal",
        _ => "finite",
    }
}

fn frame_bytes(f: &Frame, before: &[u32]) -> Vec<u8> {
    let (given, reflected) = f.reflected.map_or((0, HEATS[f.heat]), |given| (1, given));
    let (t, r) = (&f.tables, &f.ram);
    let padded = |bytes: &[u8], length: usize| [bytes, &vec![0; length - bytes.len()]].concat();
    let lent = [t.offsets[0].len(), t.offsets[1].len(), t.alpha.len(), t.k_v.len(), t.k_ta.len(), f.pixels.len(), f.mask.len(), before.len()];
    let parts = [
        u32s([f.emissivity, f.resolution_correction, f.v_dd_0, reflected].map(f32::to_bits)),
        (f.range as u64).to_be_bytes().to_vec(),
        u16s([r.t_a_v_be, r.t_a_ptat, r.v_dd_pixel, r.gain, r.compensation_pixel].map(|x| x as u16)),
        vec![f.subpage, given],
        u16s(lent.map(|x| x as u16)),
        padded(&f.pixels, PIXELS),
        padded(&f.mask, ENTRIES),
        destination_bytes(before, ENTRIES),
    ];
    parts.concat()
}

// The second call starts from the destination and t_a given, or else from the infrared values of this frame or from whatever is in the destination.
fn frame(s: &mut Stream, name: &str, mut f: Frame, mut before: Vec<u32>, given: Option<f32>, n: &mut Numbers) {
    before.truncate(ENTRIES);
    f.pixels.truncate(PIXELS);
    f.mask.truncate(ENTRIES);
    let mut camera = s.camera.clone();
    put(&mut camera, &f.record, &f.tables);
    if camera != s.camera {
        s.case(CAMERA, name, &u32s(camera.clone()), &[]);
        s.camera = camera;
    }
    s.case(FRAME, name, &frame_bytes(&f, &before), &[]);
    s.count("frames", name);

    let said = of_call(&before, |destination| published::raw_pixels_to_ir_data(&f, destination));
    let infrared = call(s, INFRARED, name, &[], &asked(&f), document::infrared(&f, before.len()), &before, said);

    let (from, t_a) = match (given, infrared) {
        (Some(t_a), _) => (before.clone(), t_a),
        (None, Some((t_a, after))) if !n.one_in(3) => (after, f32::from_bits(t_a)),
        _ => (before.clone(), if n.one_in(2) { n.real(-40.0, 90.0) } else { n.wild() }),
    };
    let mut input = u32s([t_a.to_bits()]);
    if from != before {
        input.extend(destination_bytes(&from, ENTRIES));
    }
    let said = of_call(&from, |destination| rooted::raw_ir_to_temperatures(&f, t_a, destination));
    call(s, TEMPERATURES, name, &input, &asked(&f), document::temperature(&f, from.len()), &from, said);

    let said = of_call(&before, |destination| rooted::raw_pixels_to_temperatures(&f, destination));
    call(s, ONE_PASS, name, &[], &asked(&f), document::one_pass(&f, before.len()), &before, said);

    // For every third frame that the second pass takes, and every twelfth of each refusal.
    let number = document::ranged(&f, before.len()).0;
    let class = format!("frames, verdict {number} of a second pass");
    s.tally.count(&class);
    if s.tally.counts[&class] % if number == 0 { 3 } else { 12 } == 1 {
        calls_of_our_own(s, name, &f, &before);
    }
}

// Calls that the crate does not have. To it an average that is a whole number is another reading of the compensation pixel; the second pass is document.rs's.
fn calls_of_our_own(s: &mut Stream, name: &str, f: &Frame, before: &[u32]) {
    let average = (!s.averages.one_in(4)).then(|| s.averages.word());
    let input = [vec![u8::from(average.is_some())], u32s([f32::from(average.unwrap_or(0)).to_bits()])].concat();
    let filtered = average.map_or(format!("{name}, no average"), |x| format!("{name}, average {x}"));
    let steady = steadied(f, average);
    let length = before.len();

    let said = by_ranges(&mut s.tally, f, before);
    call(s, SECOND_PASS, &format!("{name}, by document"), &[], &asked(f), document::ranged(f, length), before, said);
    let said = of_call(before, |destination| published::raw_pixels_to_ir_data(&steady, destination));
    call(s, FILTERED_INFRARED, &filtered, &input, &asked(f), document::infrared(f, length), before, said);
    let said = of_call(before, |destination| rooted::raw_pixels_to_temperatures(&steady, destination));
    call(s, FILTERED_ONE_PASS, &filtered, &input, &asked(f), document::one_pass(f, length), before, said);
    let said = by_ranges(&mut s.tally, &steady, before);
    call(s, FILTERED_SECOND_PASS, &format!("{filtered}, by document"), &input, &asked(f), document::ranged(f, length), before, said);
}

// A frame of a room, on a card as it loads.
fn room(s: &Stream, n: &mut Numbers, image: &[u8]) -> Frame {
    let (mut record, tables) = by_crate(image);
    record.range_coefficients = coefficients(&s.code, image, &record.range_coefficients);
    Frame {
        image: image.to_vec(),
        record,
        tables,
        emissivity: 0.95,
        resolution_correction: 0.5,
        v_dd_0: 3.3,
        ram: frames::room(n),
        subpage: 0,
        range: 2,
        heat: 0,
        reflected: None,
        pixels: (0..192).flat_map(|_| (n.between(-700, 1200) as i16).to_be_bytes()).collect(),
        mask: vec![1; 192],
    }
}

// One thing changed in a frame of a room.
fn corner(s: &mut Stream, n: &mut Numbers, name: &str, change: impl FnOnce(&mut Frame)) {
    let mut f = room(s, n, &image_of(&sound()));
    change(&mut f);
    let before = frames::destination(n, "realistic");
    frame(s, name, f, before, None, n);
}

fn caller_corners(s: &mut Stream, n: &mut Numbers) {
    for subpage in [0, 1, 2, 255] {
        corner(s, n, &format!("subpages, {subpage}"), |f| f.subpage = subpage);
    }
    for range in [0, 1, 2, 3, 4, 5, 6, 7, 8, 9, 0xFFFF_FFFF] {
        corner(s, n, &format!("ranges, {range}"), |f| f.range = range);
    }
    let (infinity, least) = (f32::INFINITY, f32::from_bits(1));
    for emissivity in [1.0, 0.5, 1.5, -1.0, -0.5, infinity, -infinity, 0.0, -0.0, f32::NAN, f32::from_bits(0xFFC0_0001), least, 1e38] {
        corner(s, n, &format!("emissivities, {emissivity:?} 0x{:08X}", emissivity.to_bits()), |f| f.emissivity = emissivity);
    }
    for (heat, reflected) in [(0, None), (1, None), (2, None), (3, None), (4, None), (0, Some(-40.0)), (0, Some(f32::NAN)), (0, Some(-infinity)), (0, Some(-0.0))] {
        let what = reflected.map_or(format!("self-heating {:?}", HEATS[heat]), |given: f32| format!("given {given:?}"));
        corner(s, n, &format!("reflected temperatures, {what}"), |f| (f.heat, f.reflected, f.emissivity) = (heat, reflected, 0.9));
    }
    for gradient in [None, Some(0.0), Some(-0.0), Some(1.0), Some(-4.0), Some(f32::NAN)] {
        corner(s, n, &format!("gradients, {gradient:?}"), |f| {
            f.record.has_gradient = u8::from(gradient.is_some());
            f.record.gradient = gradient.unwrap_or(0.0);
        });
    }
    for (v_dd_25, v_dd_pixel) in [(32736, -32), (32736, -33), (-32, 32735), (-32, 32736), (-32768, 0), (-32768, -1)] {
        corner(s, n, &format!("supply readings, V_DD25 {v_dd_25} pixel {v_dd_pixel}"), |f| (f.record.v_dd_25, f.ram.v_dd_pixel) = (v_dd_25, v_dd_pixel));
    }
}

fn lengths_of_frames(s: &mut Stream, n: &mut Numbers) {
    for length in [0, 1, 200, 383, 385, 400] {
        corner(s, n, &format!("pixel bytes, {length}"), |f| f.pixels.resize(length, 0x55));
    }
    for length in [0, 1, 191, 193, 200] {
        corner(s, n, &format!("mask lengths, {length}"), |f| f.mask.resize(length, 1));
    }
    for (first, rest) in [(0, 1), (2, 0), (0, 255), (0, 0), (0x80, 0x80)] {
        corner(s, n, &format!("mask bytes, first {first} others {rest}"), |f| {
            f.mask = vec![rest; 192];
            f.mask[0] = first;
        });
    }
    for length in [0, 1, 2, 191, 193, 200] {
        let f = room(s, n, &image_of(&sound()));
        let mut before = frames::destination(n, "realistic");
        before.resize(length, 0x7FA0_1234);
        frame(s, &format!("destination lengths, {length}"), f, before, None, n);
    }
    for (k, short) in [(0, 191), (1, 191), (2, 191), (3, 191), (4, 191), (0, 0), (2, 0)] {
        corner(s, n, &format!("short tables, table {k} with {short}"), |f| {
            let t = &mut f.tables;
            match k {
                0 => t.offsets[0].truncate(short),
                1 => t.offsets[1].truncate(short),
                2 => t.alpha.truncate(short),
                3 => t.k_v.truncate(short),
                _ => t.k_ta.truncate(short),
            }
        });
    }
    corner(s, n, "short tables, none but range 8", |f| f.range = 8);
}

// Entries past 192 are not read.
fn long_tables(s: &mut Stream, n: &mut Numbers) {
    for (subpage, length) in [(0, 200), (1, 200), (1, 193)] {
        corner(s, n, &format!("long tables, {length} subpage {subpage}"), |f| {
            f.subpage = subpage;
            let t = &mut f.tables;
            t.offsets.iter_mut().for_each(|table| table.resize(length, 77));
            [&mut t.alpha, &mut t.k_v, &mut t.k_ta].into_iter().for_each(|table| table.resize(length, 77.0));
        });
    }
}

// Each divisor that may not be zero, and the same call without the zero.
fn divisors(s: &mut Stream, n: &mut Numbers) {
    let usual = (-3104, 42.25, 0.5, 6391, 19442);
    let changes = [
        usual,
        (0, usual.1, usual.2, usual.3, usual.4),
        (usual.0, 0.0, usual.2, usual.3, usual.4),
        (usual.0, -0.0, usual.2, usual.3, usual.4),
        (usual.0, usual.1, 1.0, usual.3, usual.4),
        (usual.0, usual.1, usual.2, 0, usual.4),
        (usual.0, usual.1, usual.2, usual.3, -15399),
        (usual.0, usual.1, usual.2, usual.3, -15400),
        (0, usual.1, usual.2, 0, usual.4),
    ];
    for (k_v_dd, k_t_ptat, k_v_ptat, gain, v_be) in changes {
        let name = format!("divisors, K_VDD {k_v_dd} K_TPTAT {k_t_ptat:?} K_VPTAT {k_v_ptat:?} gain {gain} V_BE {v_be}");
        corner(s, n, &name, |f| {
            let r = &mut f.record;
            (r.k_v_dd, r.v_dd_25, r.k_t_ptat, r.k_v_ptat, r.alpha_ptat) = (k_v_dd, -13056, k_t_ptat, k_v_ptat, 9.0);
            (f.ram.v_dd_pixel, f.ram.gain, f.ram.t_a_ptat, f.ram.t_a_v_be) = (-9952, gain, 1711, v_be);
        });
    }
}

// Pixels at the ends of i16 and around 0, where a gain below 0 makes -0.
fn readings(s: &mut Stream, n: &mut Numbers) {
    let pixels: Vec<u8> = (0..192).flat_map(|i| [0i16, 1, -1, 32767, -32768, -512][i % 6].to_be_bytes()).collect();
    for (gain, gradient) in [(6391, 1), (-6391, 1), (6391, 0), (-6391, 0), (1, 1), (-32768, 0)] {
        corner(s, n, &format!("readings, gain {gain} gradient {gradient}"), |f| {
            (f.pixels, f.ram.gain, f.record.has_gradient, f.emissivity) = (pixels.clone(), gain, gradient, 1.0);
        });
    }
    for gain in [6391, -6391] {
        corner(s, n, &format!("readings with offsets 0, gain {gain}"), |f| {
            (f.pixels, f.ram.gain, f.record.has_gradient, f.tables.offsets[0]) = (pixels.clone(), gain, 0, vec![0; 192]);
        });
    }
}

// Frames where X is the infrared value: alpha 1, K_sTo 0, and both temperatures -273.15. At 2^32, at 2^36, and next to them.
fn known_roots(s: &mut Stream, n: &mut Numbers) {
    for emissivity in [1.0, 0.5] {
        let mut f = room(s, n, &[0; 1664]);
        f.tables.alpha = vec![1.0; 192];
        (f.record.has_gradient, f.emissivity, f.reflected) = (0, emissivity, Some(-273.15));
        let ends = [0x4F7F_FFFFu32, 0x4F80_0000, 0x4F80_0001, 0x517F_FFFF, 0x5180_0000, 0, 0x8000_0000, 0xBF80_0000, 0x7F80_0000, 1];
        let before = (0..192).map(|i| if i < ends.len() { ends[i] } else { 0x4F80_0000 + 0x0002_7A3D * i as u32 }).collect();
        frame(s, &format!("known roots, emissivity {emissivity:?}"), f, before, Some(-273.15), n);
    }
}

// The first root is of -0: A^3 × v and A^4 × t_ar vanish, both from below. Its +0 leaves a temperature.
fn root_of_minus_zero(s: &mut Stream, n: &mut Numbers) {
    let mut f = room(s, n, &[0; 1664]);
    f.tables.alpha = vec![-1e-20; 192];
    f.record.k_s_to[f.range] = 1.0;
    (f.record.has_gradient, f.emissivity, f.reflected) = (0, 0.5, Some(200.0));
    let before = (1..193).map(|i| (1e-6 * i as f32).to_bits()).collect();
    frame(s, "root of -0", f, before, Some(25.0), n);
}

// Any frame of the comparison.
fn made_frame(s: &mut Stream, k: u64) {
    let mut n = Numbers::new(SEED * 1_000_000 + k);
    let (class, f) = frames::made(&mut n);
    let before = frames::destination(&mut n, class);
    frame(s, &format!("made, {class}, {k}"), f, before, None, &mut n);
}

// Frames on a card that was just loaded, as the stream has it.
fn on_card(s: &mut Stream, n: &mut Numbers, name: &str, data: &Data, gain: i16) {
    let image = image_of(data);
    card(s, &format!("for frames, {name}"), &image, FULL);
    for subpage in [0, 1] {
        let mut f = room(s, n, &image);
        f.subpage = subpage;
        f.ram.gain = gain;
        let before = frames::destination(n, "realistic");
        frame(s, &format!("on the card before, {name} subpage {subpage}"), f, before, None, n);
    }
}

fn on_cards(s: &mut Stream, n: &mut Numbers) {
    on_card(s, n, "all zero", &[0; 832], 6391);
    on_card(s, n, "sound", &sound(), 6391);
    on_card(s, n, "sound and gain below 0", &sound(), -6391);
    on_card(s, n, "alpha at its largest", &with(&[(28, 2047), (46, 0), (52, 0)]), 6391);
    on_card(s, n, "K at its largest", &with(&[(22, 2047), (24, 2047)]), 6391);
    for k in 0..8 {
        let data = cards::realistic(n);
        on_card(s, n, &format!("realistic {k}"), &data, 6391);
    }
}

// ---- The MLX90640's cards

const BIGGER_FULL: [usize; 3] = [cards640::PIXELS; 3];

// The verdict, what the crate does, the name, and record and tables as in the answer.
fn bigger_answer(name: &str, image: &[u8], lengths: [usize; 3], basic: usize) -> (Verdict, &'static str, String, Vec<u32>) {
    let verdict = cards640::verdict(image, basic, lengths.into_iter().min().unwrap_or(0));
    let (did, answer) = cards640::ask(image);
    let mut record = vec![0; 40];
    let mut tables = [77, bits(77.0), bits(77.0)].map(|kept| vec![kept; BIGGER_ENTRIES]);
    let mut label = name.to_string();
    if verdict.0 == 0 {
        let c = answer.expect("the crate goes on where there is no refusal");
        let coefficients = cards640::coefficients(&c, basic);
        let same = c.alpha_correction().iter().map(|x| bits(*x)).eq(coefficients.map(bits));
        assert!(basic != cards640::BASIC || same, "{name}: {:?}, document {coefficients:?}", c.alpha_correction());
        record = cards640::record(&c, coefficients);
        for (table, entries) in tables.iter_mut().zip(cards640::tables(&c)) {
            table[..cards640::PIXELS].copy_from_slice(&entries);
        }
    } else if !matches!(verdict.0, 2 | 6) {
        label += &format!(", {did}");
    }
    (verdict, did, label, [record, tables.concat()].concat())
}

fn bigger_card(s: &mut Stream, name: &str, image: &[u8], lengths: [usize; 3], basic: usize) {
    let (verdict, did, label, numbers) = bigger_answer(name, image, lengths, basic);
    let input = [(basic as u64).to_be_bytes().to_vec(), u16s(lengths.map(|x| x as u16)), image.to_vec()].concat();
    s.case(BIGGER_LOAD, &label, &input, &[told(verdict), u32s(numbers)].concat());
    s.count("MLX90640 cards", name);
    s.tally.count(&format!("MLX90640 cards, verdict {}, {did}", verdict.0));
}

fn bigger_lengths(s: &mut Stream, n: &mut Numbers) {
    let good = cards640::image_of(&cards640::realistic(n));
    for length in [0, 830, 831, 1663, 1680] {
        let mut image = good.clone();
        image.resize(length, 0xFF);
        bigger_card(s, &format!("lengths, {length}"), &image, BIGGER_FULL, cards640::BASIC);
    }
    for (k, short) in [(0, 767), (1, 767), (2, 767)] {
        let mut lengths = BIGGER_FULL;
        lengths[k] = short;
        bigger_card(s, &format!("short tables, table {k} with {short}"), &good, lengths, cards640::BASIC);
    }
    bigger_card(s, "long tables, of several lengths", &good, [769, 776, 775], cards640::BASIC);
    bigger_card(s, "basic ranges, 4", &good, BIGGER_FULL, 4);
    for basic in [0, 2, 3] {
        bigger_card(s, &format!("basic ranges, {basic} by document"), &good, BIGGER_FULL, basic);
    }
}

// Words not named are zero.
fn bigger_edges(s: &mut Stream) {
    let edges: [(&str, &[(usize, u16)]); 9] = [
        ("all zero", &[]),
        ("row and column coefficients at their ends", &[(16, 0x0BA0), (18, 0x8007), (23, 0x7008), (24, 0x0087), (31, 0x7800)]),
        ("offset rests at their ends", &[(16, 0xC00A), (64, 0x7C00), (95, 0x8000), (831, 0x83FE)]),
        ("alpha rests at their ends", &[(32, 0xF00A), (33, 0x8000), (64, 0x01F0), (96, 0x0200), (831, 0x0201)]),
        ("K_Ta rests at their ends", &[(56, 0x00FC), (54, 0x7F80), (55, 0x807F), (64, 6), (65, 8), (96, 8), (97, 6), (831, 8)]),
        ("an offset outside by its column", &[(17, 0x8000), (31, 0xF000)]),
        ("a row that drops bits", &[(16, 0x0F00), (21, 0x0200)]),
        ("a base of alpha outside", &[(33, 0x7FFF), (47, 0x1000)]),
        ("a K_Ta outside", &[(56, 0x000D), (55, 0x00FF), (64 + 767, 8)]),
    ];
    for (name, words) in edges {
        bigger_card(s, &format!("edges, {name}"), &cards640::image_of(&cards640::zero_but(words)), BIGGER_FULL, cards640::BASIC);
    }
    bigger_card(s, "edges, all 0xFF", &[0xFF; 1664], BIGGER_FULL, cards640::BASIC);
    for word in [0x7FFF, 0x8000, 0x5555, 0xAAAA] {
        let all: Vec<(usize, u16)> = (48..64).map(|k| (k, word)).collect();
        let image = cards640::image_of(&cards640::zero_but(&all));
        bigger_card(s, &format!("words 48 to 63, 0x{word:04X}"), &image, BIGGER_FULL, cards640::BASIC);
    }
}

fn bigger_made(s: &mut Stream, n: &mut Numbers) {
    bigger_card(s, "card K", &cards640::image_of(&cards640::card_k()), BIGGER_FULL, cards640::BASIC);
    type Make = fn(&mut Numbers) -> cards640::Words;
    let made: [(&str, usize, Make); 4] =
        [("realistic", 4, cards640::realistic), ("mild scales", 5, cards640::mild), ("any bytes", 2, cards640::anything), ("sparse", 3, cards640::sparse)];
    for (class, count, make) in made {
        for k in 0..count {
            bigger_card(s, &format!("made, {class}, {k}"), &cards640::image_of(&make(n)), BIGGER_FULL, cards640::BASIC);
        }
    }
}

fn main() {
    let folder = std::env::args().nth(1).expect("usage: sample FOLDER");
    let shown = std::panic::take_hook();
    std::panic::set_hook(Box::new(move |info| {
        if !tally::caught() {
            shown(info);
        }
    }));
    let (code, averages, tally) = (Code::new(), Numbers::new(SEED + 2), Tally::new());
    let mut s = Stream { bytes: Vec::new(), answers: BTreeMap::new(), camera: blank(), averages, code, tally };
    words(&mut s);
    lengths_of_cards(&mut s);
    wiped(&mut s);
    flips(&mut s);
    offsets(&mut s);
    scales(&mut s);
    pairs(&mut s);
    for k in 0..CARDS_MADE {
        made_card(&mut s, k);
    }
    let mut n = Numbers::new(SEED + 1);
    on_cards(&mut s, &mut n);
    caller_corners(&mut s, &mut n);
    lengths_of_frames(&mut s, &mut n);
    long_tables(&mut s, &mut n);
    divisors(&mut s, &mut n);
    readings(&mut s, &mut n);
    known_roots(&mut s, &mut n);
    root_of_minus_zero(&mut s, &mut n);
    for k in 0..FRAMES_MADE {
        made_frame(&mut s, k);
    }
    let mut n = Numbers::new(SEED + 3);
    bigger_lengths(&mut s, &mut n);
    bigger_edges(&mut s);
    bigger_made(&mut s, &mut n);
    sample640::cases(&mut s);
    let mut lines: String = s.answers.iter().map(|((_, kind), n)| format!("{kind}\t{n}\tagree\t{n}\n")).collect();
    lines += "first disagreement\tnone\n";
    std::fs::write(format!("{folder}/stdin"), &s.bytes).expect("stdin written");
    std::fs::write(format!("{folder}/stdout"), &lines).expect("stdout written");
    for (class, count) in &s.tally.counts {
        println!("{count:>8}  {class}");
    }
    println!("{lines}{} bytes", s.bytes.len());
}
