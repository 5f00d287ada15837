//! Tests of what both cameras share, and of the texts of refusals.
use loamchalice::{mlx90640, mlx90641, Camera, Frame, RamData, Reading, Refusal, Settings, Subpage};
use std::collections::BTreeMap;

const SOUND: &[u8] = include_bytes!("../cards/sound.bin");
const BIGGER: &[u8] = include_bytes!("../cards/bigger.bin");
const ROOM: RamData = RamData { t_a_v_be: 19442, t_a_ptat: 1711, v_dd_pixel: -13115, gain: 6300, compensation_pixel: -80 };
const BOTH: [Subpage; 2] = [Subpage::Zero, Subpage::One];

// One of each kind.
const REFUSALS: [Refusal; 15] = [
    Refusal::ShortImage { length: 1663 },
    Refusal::ShortTable,
    Refusal::DamagedWord { word: 100, bits: 0x0204 },
    Refusal::OffsetScale { scale: 21 },
    Refusal::LargePixel { pixel: 767 },
    Refusal::BasicRange { range: 8 },
    Refusal::SupplyRange,
    Refusal::ZeroDivisor,
    Refusal::DataTooLarge { data: 2048 },
    Refusal::ListedDataTooLarge { index: 813, data: 2048 },
    Refusal::ShortFrame { length: 383 },
    Refusal::UncheckedWord { word: 20 },
    Refusal::UnorderedCorners { corner: 3 },
    Refusal::ZeroFactor { range: 4 },
    Refusal::PixelNumber { pixel: 768 },
];

#[test]
fn a_refusal_says_itself() {
    let said = REFUSALS.map(|refusal| refusal.to_string());
    let expected = [
        "refusal 1: the image is too short, or a list of words is not of its length (length 1663)",
        "refusal 2: a table is too short",
        "refusal 3: a chip word is damaged (word 100, 0x0204)",
        "refusal 4: the offset scale is above 20 (scale 21)",
        "refusal 5: a number of a pixel is outside 16 bits (pixel 767)",
        "refusal 6: there is no such basic range (range 8)",
        "refusal 7: the supply reading is too far from its reference",
        "refusal 8: a divisor is zero, or the emissivity is zero or NaN",
        "refusal 9: data is above 2047 (data 2048)",
        "refusal 9: data is above 2047 (entry 813, data 2048)",
        "refusal 10: pixel bytes, destination or mask are too short (length 383)",
        "refusal 11: an unchecked word is another in the wanted image (word 20)",
        "refusal 12: a corner temperature is not above the one before it (corner 3)",
        "refusal 13: a range coefficient would be divided by zero (range 4)",
        "refusal 14: there is no such pixel (pixel 768)",
    ];
    assert_eq!(said, expected);
    for refusal in REFUSALS {
        assert!(refusal.to_string().starts_with(&format!("refusal {}: {}", refusal.number(), refusal.text())));
        let _: &dyn std::error::Error = &refusal;
    }
}

// The cases of a function that the header defines, by their numbers; None if it has no such function.
fn cases_of(header: &str, function: &str) -> Option<BTreeMap<u64, String>> {
    let called = format!("{function}(");
    let bodies = header.match_indices(&called).filter_map(|(at, _)| {
        let rest = &header[at..];
        let open = rest.find('{').filter(|open| !rest[..*open].contains(';'))?;
        Some(&rest[open..open + rest[open..].find("\n}")?])
    });
    let lines = bodies.last()?.lines().filter_map(|line| {
        let (number, text) = line.trim().strip_prefix("case ")?.split_once(": return \"")?;
        Some((number.parse().ok()?, text.strip_suffix("\";")?.to_string()))
    });
    Some(lines.collect())
}

// A published package has no header, and then there is nothing to compare.
#[test]
fn c_says_the_same() {
    let Ok(header) = std::fs::read_to_string(concat!(env!("CARGO_MANIFEST_DIR"), "/../c/loamchalice.h")) else { return };
    let Some(mut said) = cases_of(&header, "loamchalice_refusal_text") else { return };
    said.remove(&0);
    assert_eq!(said, REFUSALS.iter().map(|refusal| (refusal.number(), refusal.text().to_string())).collect());
}

#[test]
fn cases_of_a_header_are_found() {
    let header = "/* see f(number) */\nconst char *f(int n);\nstatic inline const char *f(int n) {\n    switch (n) {\n    case 3: return \"three\";\n    case 14: return \"a, b\";\n    default: return \"\";\n    }\n}\n\nint g(void) { return 0; }\n";
    let found = cases_of(header, "f").unwrap();
    assert_eq!(found, BTreeMap::from([(3, "three".to_string()), (14, "a, b".to_string())]));
    assert!(cases_of(header, "h").is_none());
    assert!(cases_of("const char *f(int n);\n", "f").is_none());
}

// ---- Code for either camera

fn sizes<C: Camera>() -> [usize; 6] {
    [C::WIDTH, C::HEIGHT, C::NUM_PIXELS, C::PIXEL_BYTES, C::RANGES, C::BASIC_RANGE]
}

#[test]
fn cameras_have_their_sizes() {
    assert_eq!(sizes::<mlx90641::Calibration>(), [16, 12, 192, 384, 8, 2]);
    assert_eq!(sizes::<mlx90640::Calibration>(), [32, 24, 768, 1536, 4, 1]);
    assert_eq!([mlx90641::SELF_HEATING, <mlx90641::Calibration as Camera>::SELF_HEATING], [5.0; 2]);
    assert_eq!([mlx90640::SELF_HEATING, <mlx90640::Calibration as Camera>::SELF_HEATING], [8.0; 2]);
    {
        use mlx90641::{ALL_PIXELS, BASIC_RANGE, HEIGHT, NUM_PIXELS, PIXEL_BYTES, RANGES, WIDTH};
        assert_eq!([WIDTH, HEIGHT, NUM_PIXELS, PIXEL_BYTES, RANGES, BASIC_RANGE], sizes::<mlx90641::Calibration>());
        assert_eq!((ALL_PIXELS, BASIC_RANGE), (loamchalice::ALL_PIXELS, loamchalice::BASIC_RANGE));
    }
    use mlx90640::{ALL_PIXELS, BASIC_RANGE, HEIGHT, NUM_PIXELS, PIXEL_BYTES, RANGES, WIDTH};
    assert_eq!([WIDTH, HEIGHT, NUM_PIXELS, PIXEL_BYTES, RANGES, BASIC_RANGE], sizes::<mlx90640::Calibration>());
    assert_eq!(ALL_PIXELS, [true; 768]);
}

type Call<C> = fn(&C, &Settings, &Reading<<C as Camera>::Pattern>, &[bool], &mut [f32]) -> Result<Frame, Refusal>;

fn calls<C: Camera>() -> [Call<C>; 3] {
    [C::pixels_to_ir_data, C::pixels_to_temperatures, C::pixels_to_ranged_temperatures]
}

fn bits(numbers: &[f32]) -> Vec<u32> {
    numbers.iter().map(|x| x.to_bits()).collect()
}

// The trait's calls equal the camera's own, which `own` makes from the call's number and its arguments.
fn as_its_own<C: Camera>(card: &[u8], patterns: &[C::Pattern], own: impl Fn(&C, usize, &Settings, &Reading<C::Pattern>, &[bool], &mut [f32]) -> Frame) {
    let camera = C::from_data(card).unwrap();
    let settings = Settings { emissivity: 0.9, ..camera.settings(1) };
    assert_eq!((camera.settings_warning(&settings), camera.gain_warning(ROOM)), (None, None));
    assert!(camera.settings_warning(&Settings { basic_range: C::RANGES, ..settings }).is_some());
    assert_eq!(camera.settings(camera.resolution()).self_heating, C::SELF_HEATING);
    assert_eq!(C::from_data_in(card, C::RANGES).err(), Some(Refusal::BasicRange { range: C::RANGES }));
    let pixels: Vec<u8> = (0..C::NUM_PIXELS as i16).flat_map(|pixel| (pixel - 600).to_be_bytes()).collect();
    for (subpage, pattern) in BOTH.into_iter().flat_map(|subpage| patterns.iter().map(move |pattern| (subpage, *pattern))) {
        let mask = C::subpage_mask(subpage, pattern);
        for average in [None, Some(-70.5)] {
            let reading = Reading { ram: ROOM, average, subpage, pattern, pixels: &pixels };
            for (k, call) in calls::<C>().into_iter().enumerate() {
                let (mut by_trait, mut by_own) = (vec![f32::INFINITY; C::NUM_PIXELS], vec![f32::INFINITY; C::NUM_PIXELS]);
                let frame = call(&camera, &settings, &reading, mask.as_ref(), &mut by_trait).unwrap();
                assert_eq!(frame, own(&camera, k, &settings, &reading, mask.as_ref(), &mut by_own));
                assert_eq!(bits(&by_trait), bits(&by_own));
                assert_eq!(frame.written, mask.as_ref().iter().filter(|asked| **asked).count());
            }
            // One pass equals infrared and then temperatures.
            let (mut once, mut twice) = (vec![f32::INFINITY; C::NUM_PIXELS], vec![f32::INFINITY; C::NUM_PIXELS]);
            camera.pixels_to_temperatures(&settings, &reading, mask.as_ref(), &mut once).unwrap();
            let frame = camera.pixels_to_ir_data(&settings, &reading, mask.as_ref(), &mut twice).unwrap();
            camera.ir_to_temperatures(&settings, subpage, frame.t_a, mask.as_ref(), &mut twice).unwrap();
            assert_eq!(bits(&once), bits(&twice));
        }
    }
}

#[test]
fn calls_by_the_trait_are_the_cameras_own() {
    as_its_own::<mlx90641::Calibration>(SOUND, &[()], |camera, call, settings, r, mask, destination| {
        let answer = match (call, r.average) {
            (0, None) => camera.raw_pixels_to_ir_data(settings, r.ram, r.subpage, r.pixels, mask, destination),
            (1, None) => camera.raw_pixels_to_temperatures(settings, r.ram, r.subpage, r.pixels, mask, destination),
            (_, None) => camera.raw_pixels_to_ranged_temperatures(settings, r.ram, r.subpage, r.pixels, mask, destination),
            (0, given) => camera.filtered_pixels_to_ir_data(settings, r.ram, given, r.subpage, r.pixels, mask, destination),
            (1, given) => camera.filtered_pixels_to_temperatures(settings, r.ram, given, r.subpage, r.pixels, mask, destination),
            (_, given) => camera.filtered_pixels_to_ranged_temperatures(settings, r.ram, given, r.subpage, r.pixels, mask, destination),
        };
        answer.unwrap()
    });
    let patterns = [mlx90640::Pattern::Chess, mlx90640::Pattern::Interleave];
    as_its_own::<mlx90640::Calibration>(BIGGER, &patterns, |camera, call, settings, r, mask, destination| {
        let answer = match (call, r.average) {
            (0, None) => camera.raw_pixels_to_ir_data(settings, r.ram, r.subpage, r.pattern, r.pixels, mask, destination),
            (1, None) => camera.raw_pixels_to_temperatures(settings, r.ram, r.subpage, r.pattern, r.pixels, mask, destination),
            (_, None) => camera.raw_pixels_to_ranged_temperatures(settings, r.ram, r.subpage, r.pattern, r.pixels, mask, destination),
            (0, given) => camera.filtered_pixels_to_ir_data(settings, r.ram, given, r.subpage, r.pattern, r.pixels, mask, destination),
            (1, given) => camera.filtered_pixels_to_temperatures(settings, r.ram, given, r.subpage, r.pattern, r.pixels, mask, destination),
            (_, given) => camera.filtered_pixels_to_ranged_temperatures(settings, r.ram, given, r.subpage, r.pattern, r.pixels, mask, destination),
        };
        answer.unwrap()
    });
    assert_eq!(mlx90641::Calibration::from_data(SOUND).unwrap().mended_words().map(|mended| mended.count), Some(0));
    assert!(mlx90640::Calibration::from_data(BIGGER).unwrap().mended_words().is_none());
}

// ---- Random and extreme inputs

// Random numbers, the same in each run.
struct Numbers(u64);

impl Numbers {
    fn next(&mut self) -> u64 {
        self.0 ^= self.0 << 13;
        self.0 ^= self.0 >> 7;
        self.0 ^= self.0 << 17;
        self.0
    }

    fn of<T: Copy>(&mut self, all: &[T]) -> T {
        all[self.next() as usize % all.len()]
    }

    fn float(&mut self) -> f32 {
        let any = f32::from_bits(self.next() as u32);
        let plain = [1.0, 3.3, 0.95, 20.0];
        let odd = [f32::NAN, f32::INFINITY, f32::NEG_INFINITY, 0.0, -0.0, -1.0, f32::MAX, f32::MIN, f32::MIN_POSITIVE, 1e-45, -273.15, any];
        if self.next() % 2 == 0 {
            self.of(&plain)
        } else {
            self.of(&odd)
        }
    }

    fn word(&mut self, usual: i16) -> i16 {
        let any = self.next() as i16;
        self.of(&[usual, usual, usual, usual, any, i16::MIN, i16::MAX, 0, -1, 1])
    }
}

const MARK: f32 = 7.5;

// A refused call writes nothing. After any other call the pixels that the mask leaves out are unchanged, and the lost pixels are the NaNs, which all have the
// same bits.
fn holds(answer: Result<Frame, Refusal>, refusals: &[u64], mask: &[bool], before: &[f32], after: &[f32]) -> bool {
    let same = |k: usize| before[k].to_bits() == after[k].to_bits();
    match answer {
        Err(refusal) => refusals.contains(&refusal.number()) && (0..before.len()).all(same),
        Ok(frame) => {
            let asked: Vec<f32> = mask.iter().zip(after).filter(|(asked, _)| **asked).map(|(_, x)| *x).collect();
            let lost = asked.iter().filter(|x| x.to_bits() == 0x7FC0_0000).count();
            let all_told = asked.iter().filter(|x| x.is_nan()).count() == lost;
            all_told && (frame.written, frame.lost) == (asked.len(), lost) && mask.iter().enumerate().all(|(k, asked)| *asked || same(k))
        }
    }
}

// The number of calls that were refused, and of those that were not.
fn hostile<C: Camera>(cards: &[Vec<u8>], patterns: &[C::Pattern], seed: u64) -> [usize; 2] {
    let mut n = Numbers(seed);
    let mut counts = [0; 2];
    for _ in 0..600 {
        let card = &cards[n.next() as usize % cards.len()];
        let range = n.next() as usize % C::RANGES;
        let Ok(camera) = C::from_data_in(card, range) else { continue };
        let settings = Settings {
            emissivity: n.float(),
            resolution_correction: n.float(),
            v_dd_0: n.float(),
            basic_range: n.of(&[range, range, range, 0, C::RANGES - 1, C::RANGES, usize::MAX]),
            self_heating: n.float(),
            reflected: [None, Some(n.float())][n.next() as usize % 2],
        };
        let ram = RamData {
            t_a_v_be: n.word(ROOM.t_a_v_be),
            t_a_ptat: n.word(ROOM.t_a_ptat),
            v_dd_pixel: n.word(ROOM.v_dd_pixel),
            gain: n.word(ROOM.gain),
            compensation_pixel: n.word(ROOM.compensation_pixel),
        };
        let (_, _) = (camera.settings_warning(&settings), camera.gain_warning(ram));
        let average = [None, Some(n.float())][n.next() as usize % 2];
        let pixels: Vec<u8> = (0..C::NUM_PIXELS).flat_map(|_| n.word(-600).to_be_bytes()).collect();
        let mask: Vec<bool> = (0..C::NUM_PIXELS).map(|_| n.next() % 3 > 0).collect();
        let reading = Reading { ram, average, subpage: n.of(&BOTH), pattern: n.of(patterns), pixels: &pixels };
        let allowed: [&[u64]; 3] = [&[7, 8], &[6, 7, 8], &[6, 7, 8, 12]];
        for (call, refusals) in calls::<C>().into_iter().zip(allowed) {
            let mut picture = vec![MARK; C::NUM_PIXELS];
            let answer = call(&camera, &settings, &reading, &mask, &mut picture);
            assert!(holds(answer, refusals, &mask, &vec![MARK; C::NUM_PIXELS], &picture), "{answer:?}, {settings:?}, {reading:?}");
            counts[usize::from(answer.is_ok())] += 1;
        }
        let before: Vec<f32> = (0..C::NUM_PIXELS).map(|_| n.float()).collect();
        let (mut picture, t_a) = (before.clone(), n.float());
        let answer = camera.ir_to_temperatures(&settings, reading.subpage, t_a, &mask, &mut picture);
        assert!(holds(answer, &[6, 8], &mask, &before, &picture), "{answer:?}, {settings:?}, {t_a}");
        counts[usize::from(answer.is_ok())] += 1;
    }
    counts
}

#[test]
fn hostile_numbers_end_in_an_answer() {
    let mut n = Numbers(7);
    let changed = |card: &[u8], words: &mut dyn FnMut(usize, u16) -> u16| -> Vec<u8> {
        card.chunks(2).enumerate().flat_map(|(k, pair)| words(k, u16::from_be_bytes([pair[0], pair[1]])).to_be_bytes()).collect()
    };
    // Cards with some words of the record replaced: the MLX90641's by random codewords, the MLX90640's by random words.
    let coded = |n: &mut Numbers| {
        changed(SOUND, &mut |k, word| {
            if (21..64).contains(&k) && n.next() % 4 == 0 {
                loamchalice::add_checksum(n.next() as u16 % 2048).unwrap()
            } else {
                word
            }
        })
    };
    let odd = |n: &mut Numbers| changed(BIGGER, &mut |k, word| if (48..64).contains(&k) && n.next() % 3 == 0 { n.next() as u16 } else { word });
    let mut smaller = vec![SOUND.to_vec(), vec![0; 1664]];
    let mut bigger = vec![BIGGER.to_vec(), vec![0; 1664]];
    for _ in 0..20 {
        smaller.push(coded(&mut n));
        bigger.push(odd(&mut n));
    }
    for counts in [
        hostile::<mlx90641::Calibration>(&smaller, &[()], 1),
        hostile::<mlx90640::Calibration>(&bigger, &[mlx90640::Pattern::Chess, mlx90640::Pattern::Interleave], 2),
    ] {
        assert!(counts[0] > 100 && counts[1] > 100, "{counts:?} refused and not");
    }
}
