//! Readings of the MLX90640's paper, through the binding.
use loamchalice::mlx90640::{subpage_mask, Calibration, Half, Pattern, ALL_PIXELS, BASIC_RANGE, NUM_PIXELS, PIXEL_BYTES, RANGES, SELF_HEATING};
use loamchalice::{fourth_root, Filter, Frame, RamData, Refusal, Settings, Subpage};

// Card K.
const K: &[u8; 1664] = include_bytes!("../cards/bigger.bin");
const ROOM: RamData = RamData { t_a_v_be: 19442, t_a_ptat: 1711, v_dd_pixel: -13115, gain: 6273, compensation_pixel: -54 };
const BOTH: [Subpage; 2] = [Subpage::Zero, Subpage::One];
// The modes in the order of the paper's columns.
const MODES: [(Pattern, Subpage); 4] =
    [(Pattern::Chess, Subpage::Zero), (Pattern::Chess, Subpage::One), (Pattern::Interleave, Subpage::Zero), (Pattern::Interleave, Subpage::One)];

fn with(card: &[u8], words: &[(usize, u16)]) -> Vec<u8> {
    let mut card = card.to_vec();
    for (k, word) in words {
        card[2 * k..2 * k + 2].copy_from_slice(&word.to_be_bytes());
    }
    card
}

fn zero_but(words: &[(usize, u16)]) -> Vec<u8> {
    with(&[0; 1664], words)
}

fn pixels_of(pixel: i16) -> Vec<u8> {
    pixel.to_be_bytes().repeat(NUM_PIXELS)
}

// Number, place and value.
type Told = (u64, u64, u64);

fn told(refusal: Refusal) -> Told {
    (refusal.number(), refusal.place(), refusal.value())
}

// Every call of the camera that takes pixels, with a filter's average or without.
const CALLS: [&str; 3] = ["infrared", "one pass", "second pass"];

struct Asked<'a> {
    camera: &'a Calibration,
    settings: Settings,
    ram: RamData,
    mode: (Pattern, Subpage),
    pixels: &'a [u8],
    mask: &'a [bool],
}

impl Asked<'_> {
    fn raw(&self, call: &str, destination: &mut [f32]) -> Result<Frame, Refusal> {
        let calls = [Calibration::raw_pixels_to_ir_data, Calibration::raw_pixels_to_temperatures, Calibration::raw_pixels_to_ranged_temperatures];
        let (pattern, subpage) = self.mode;
        let k = CALLS.iter().position(|name| *name == call).unwrap();
        calls[k](self.camera, &self.settings, self.ram, subpage, pattern, self.pixels, self.mask, destination)
    }

    fn filtered(&self, call: &str, average: Option<f32>, destination: &mut [f32]) -> Result<Frame, Refusal> {
        let calls =
            [Calibration::filtered_pixels_to_ir_data, Calibration::filtered_pixels_to_temperatures, Calibration::filtered_pixels_to_ranged_temperatures];
        let (pattern, subpage) = self.mode;
        let k = CALLS.iter().position(|name| *name == call).unwrap();
        calls[k](self.camera, &self.settings, self.ram, average, subpage, pattern, self.pixels, self.mask, destination)
    }
}

// The bits that a call writes with a mask for every pixel.
fn bits(asked: &Asked, call: &str) -> Vec<u32> {
    let mut picture = [0f32; NUM_PIXELS];
    asked.raw(call, &mut picture).unwrap();
    picture.map(f32::to_bits).to_vec()
}

#[test]
fn card_k_is_loaded() {
    let camera = Calibration::from_data(K).unwrap();
    assert_eq!(camera.offset_reference_pixels(), &[-69; NUM_PIXELS]);
    assert_eq!(camera.alpha_pixels().map(f32::to_bits), [0x33BD_1000; NUM_PIXELS]);
    assert_eq!([0, 1, 32, 33].map(|pixel| camera.k_ta_pixels()[pixel] * 16384.0), [105.0, 83.0, 86.0, 84.0]);
    // Entries 0, 1, 2 and 3 are those of pixels 0, 32, 1 and 33.
    assert_eq!(camera.k_v_pattern(), &[0.625, 0.5, 0.625, 0.5]);
    assert_eq!(BOTH.map(|subpage| camera.alpha_cp(subpage).to_bits()), [0x318C_0000, 0x3184_5800]);
    assert_eq!(BOTH.map(|subpage| camera.offset_reference_cp(subpage)), [-75, -77]);
    assert_eq!(camera.k_s_to().map(f32::to_bits), [0xBA52_0000; RANGES]);
    assert_eq!(camera.corner_temperatures(), &[-40, 0, 160, 320]);
    assert_eq!((camera.k_v_dd(), camera.v_dd_25(), camera.resolution()), (-3168, -13056, 2));
    assert_eq!((camera.k_v_ptat(), camera.k_t_ptat(), camera.v_ptat_25(), camera.alpha_ptat()), (22.0 / 4096.0, 42.25, 12273.0, 9.0));
    assert_eq!((camera.gain(), camera.k_s_ta(), camera.temperature_gradient_coefficient()), (6383.0, -16.0 / 8192.0, Some(1.0)));
    assert_eq!((camera.k_v_cp(), camera.k_ta_cp()), (0.5, 75.0 / 16384.0));
    assert_eq!((camera.basic_range(), camera.range_coefficients()[BASIC_RANGE]), (1, 1.0));
    let entries = camera.access_pattern_compensation_pixels(Pattern::Interleave).unwrap();
    assert_eq!(entries, &loamchalice::mlx90640::access_pattern_corrections(0x0994).pattern);
    assert_eq!(camera.access_pattern_compensation_pixels(Pattern::Chess), None);
    let of_cp = MODES.map(|(pattern, subpage)| camera.access_pattern_compensation_cp(subpage, pattern));
    assert_eq!(of_cp, [None, None, None, Some(1.25)]);
}

// The paper's table: infrared bits and temperature bits of five pixels in each mode.
const READINGS: [(usize, [[u32; 2]; 4]); 5] = [
    (0, [[0x44278A4C, 0x42BE11C0], [0x442700B8, 0x42BD87EC], [0x4427824C, 0x42BE0D58], [0x4426A8B8, 0x42BD57A0]]),
    (1, [[0x44273535, 0x42BDE300], [0x4426ABA1, 0x42BD593C], [0x4427ED35, 0x42BE4808], [0x442713A1, 0x42BD9250]]),
    (3, [[0x44273535, 0x42BDE300], [0x4426ABA1, 0x42BD593C], [0x44266D35, 0x42BD7504], [0x442593A1, 0x42BCBF58]]),
    (32, [[0x442735C4, 0x42BDE350], [0x4426AC30, 0x42BD598C], [0x44273DC4, 0x42BDE7B4], [0x44266430, 0x42BD3200]]),
    (35, [[0x44272E0D, 0x42BDDF10], [0x4426A479, 0x42BD554C], [0x4427F60D, 0x42BE4CE0], [0x44271C79, 0x42BD9728]]),
];

#[test]
fn the_papers_twenty_readings() {
    let camera = Calibration::from_data(K).unwrap();
    let (settings, pixels) = (camera.settings(2), pixels_of(609));
    assert_eq!((settings.emissivity, settings.resolution_correction, settings.self_heating), (1.0, 1.0, SELF_HEATING));
    for (k, mode) in MODES.into_iter().enumerate() {
        let asked = Asked { camera: &camera, settings, ram: ROOM, mode, pixels: &pixels, mask: &ALL_PIXELS };
        let (infrared, once) = (bits(&asked, "infrared"), bits(&asked, "one pass"));
        for (pixel, modes) in READINGS {
            assert_eq!([infrared[pixel], once[pixel]], modes[k], "{mode:?}, pixel {pixel}");
        }
        // One pass equals infrared and then temperatures.
        let mut twice = [0f32; NUM_PIXELS];
        let frame = asked.raw("infrared", &mut twice).unwrap();
        assert_eq!((frame.t_a.to_bits(), frame.written, frame.lost), (0x421C_BCDA, 768, 0));
        let again = camera.raw_ir_to_temperatures(&settings, mode.1, frame.t_a, &ALL_PIXELS, &mut twice).unwrap();
        assert_eq!(again, frame);
        assert_eq!(twice.map(f32::to_bits)[..], once);
    }
}

#[test]
fn readings_without_a_gradient_and_of_another_emissivity() {
    let pixels = pixels_of(609);
    let plain = Calibration::from_data(&with(K, &[(60, 0xF000)])).unwrap();
    assert_eq!(plain.temperature_gradient_coefficient(), None);
    let taken = Calibration::from_data(K).unwrap().with_gradient(None);
    for camera in [plain, taken] {
        for (mode, pixel, expected) in [(MODES[0], 0, [0x442DF4F7, 0x42BD2BAC]), (MODES[3], 32, [0x442DA86F, 0x42BD0374])] {
            let asked = Asked { camera: &camera, settings: camera.settings(2), ram: ROOM, mode, pixels: &pixels, mask: &ALL_PIXELS };
            assert_eq!([bits(&asked, "infrared")[pixel], bits(&asked, "one pass")[pixel]], expected);
        }
    }
    let camera = Calibration::from_data(K).unwrap();
    let settings = Settings { emissivity: 0.95, ..camera.settings(2) };
    let asked = Asked { camera: &camera, settings, ram: ROOM, mode: MODES[0], pixels: &pixels, mask: &ALL_PIXELS };
    assert_eq!([bits(&asked, "infrared")[0], bits(&asked, "one pass")[0]], [0x44305BAF, 0x42C36058]);
}

#[test]
fn an_access_term_that_is_minus_zero_stays() {
    let camera = Calibration::from_data(&zero_but(&[(48, 0xFFFF), (50, 1), (51, 0x0100)])).unwrap();
    let ram = RamData { t_a_v_be: 1, t_a_ptat: 0, v_dd_pixel: -16384, gain: 1, compensation_pixel: 0 };
    let pixels = pixels_of(0);
    for mode in MODES {
        let asked = Asked { camera: &camera, settings: camera.settings(0), ram, mode, pixels: &pixels, mask: &ALL_PIXELS };
        let infrared = bits(&asked, "infrared");
        let minus = (-0f32).to_bits();
        let signs = [0, 3, 33, 1, 32, 35].map(|pixel| infrared[pixel]);
        assert_eq!(signs, if mode.0 == Pattern::Chess { [0; 6] } else { [minus, minus, minus, 0, 0, 0] });
    }
}

#[test]
fn loads_are_refused_by_number_place_and_value() {
    let refused = |image: &[u8]| Calibration::from_data(image).err().map(told);
    assert_eq!(refused(K), None);
    assert_eq!(refused(&[0; 1664]), None);
    assert_eq!(refused(&[0; 1665]), None);
    assert_eq!(refused(&K[..1663]), Some((1, 1663, 0)));
    assert_eq!(refused(&[]), Some((1, 0, 0)));
    let large: [(&[(usize, u16)], u64); 15] = [
        (&[(17, 0x7FFF), (18, 1)], 0),
        (&[(17, 0x7FFF), (24, 1)], 0),
        (&[(17, 0x7FFF), (64, 0x0400)], 0),
        (&[(17, 0x7FFF), (18, 1), (24, 0x000F)], 1),
        (&[(16, 0x0D00), (18, 4)], 0),
        (&[(16, 0x0F00), (18, 2)], 0),
        (&[(16, 0x000B), (64, 0x4000)], 0),
        (&[(33, 0x7FFF), (34, 1)], 0),
        (&[(32, 0x000B), (64, 0x0100)], 0),
        (&[(56, 0x000D), (54, 0xFF00), (64, 8)], 0),
        (&[(56, 0x000E), (64, 4)], 0),
        (&[(17, 0x7FFF), (18, 0x000F), (24, 1)], 32),
        (&[(17, 0x7FFF), (831, 0x0400)], 767),
        (&[(17, 0x7FFF), (831, 0x0400), (33, 0x7FFF), (34, 1)], 0),
        (&[(17, 0x7FFF), (95, 0x0400)], 31),
    ];
    for (words, pixel) in large {
        assert_eq!(refused(&zero_but(words)), Some((5, pixel, 0)), "{words:?}");
    }
    assert_eq!(refused(&[0xFF; 1664]), Some((5, 0, 0)));
    let blank = Calibration::from_data(&[0xFF; 1664]).unwrap_err();
    assert_eq!(blank.to_string(), "refusal 5: a number of a pixel is outside 16 bits (pixel 0)");
    // Each basic range loads, and no other; 5 comes before 6.
    for range in [4, 5, usize::MAX] {
        assert_eq!(Calibration::from_data_in(K, range).err(), Some(Refusal::BasicRange { range }));
        assert_eq!(Calibration::from_data_in(&[0xFF; 1664], range).err(), Some(Refusal::LargePixel { pixel: 0 }));
    }
    for range in 0..RANGES {
        let camera = Calibration::from_data_in(K, range).unwrap();
        assert_eq!((camera.basic_range(), camera.settings(2).basic_range, camera.range_coefficients()[range]), (range, range, 1.0));
    }
}

#[test]
fn sums_that_leave_16_bits_on_the_way_load() {
    let camera = Calibration::from_data(&zero_but(&[(16, 0x0F00), (17, 0xFFFF), (18, 1)])).unwrap();
    assert_eq!(camera.offset_reference_pixels()[..33], [&[32767; 32][..], &[-1]].concat());
    let camera = Calibration::from_data(&zero_but(&[(33, 0x7FFF), (32, 0x000A), (64, 0x01F0)])).unwrap();
    assert_eq!(camera.alpha_pixels()[0], 64511.0 / 2f32.powi(30));
    let camera = Calibration::from_data(&zero_but(&[(56, 0x000F), (64, 0x000E)])).unwrap();
    assert_eq!(camera.k_ta_pixels()[0], -32768.0 / 256.0);
}

// Nothing on this card identifies its camera, so the other camera's card may load. (The MLX90641's words are checked: it refuses card K, but a wiped card
// loads as either.)
#[test]
fn the_other_cameras_card() {
    let other = |card: &[u8]| loamchalice::mlx90641::Calibration::from_data(card).err().map(|refusal| refusal.number());
    assert_eq!(other(K), Some(3));
    assert_eq!(other(&[0; 1664]), None);
    let wiped = Calibration::from_data(&[0; 1664]).unwrap();
    assert!(wiped.gain_warning(ROOM).is_some());
    let camera = Calibration::from_data(K).unwrap();
    for (gain, told) in [(6273, false), (4788, false), (4787, true), (7978, false), (7979, true), (0, true), (i16::MIN, true), (i16::MAX, true)] {
        assert_eq!(camera.gain_warning(RamData { gain, ..ROOM }).is_some(), told, "{gain}");
    }
}

#[test]
fn masks_part_the_pixels() {
    assert_eq!(Pattern::default(), Pattern::Chess);
    for pattern in [Pattern::Chess, Pattern::Interleave] {
        let [zero, one] = BOTH.map(|subpage| subpage_mask(subpage, pattern));
        for pixel in 0..NUM_PIXELS {
            let (row, column) = (pixel / 32, pixel % 32);
            let second = if pattern == Pattern::Chess { (row + column) % 2 } else { row % 2 };
            assert_eq!((zero[pixel], one[pixel]), (second == 0, second == 1));
        }
    }
}

#[test]
fn a_picture_is_two_halves() {
    let camera = Calibration::from_data(K).unwrap();
    let (settings, pixels) = (camera.settings(2), <[u8; PIXEL_BYTES]>::try_from(pixels_of(609)).unwrap());
    let halves = [-54, -60].map(|compensation_pixel| Half { ram: RamData { compensation_pixel, ..ROOM }, average: None, pixels: &pixels });
    for pattern in [Pattern::Chess, Pattern::Interleave] {
        let (picture, frames) = camera.picture(&settings, pattern, halves).unwrap();
        assert_eq!(frames.map(|frame| (frame.written, frame.lost)), [(384, 0); 2]);
        let mut apart = [f32::INFINITY; NUM_PIXELS];
        for (subpage, half) in BOTH.into_iter().zip(halves) {
            let mask = subpage_mask(subpage, pattern);
            let asked = Asked { camera: &camera, settings, ram: half.ram, mode: (pattern, subpage), pixels: &pixels, mask: &mask };
            let frame = asked.raw("one pass", &mut apart).unwrap();
            assert_eq!(frame, frames[subpage as usize]);
        }
        assert_eq!(picture.map(f32::to_bits), apart.map(f32::to_bits));
        // A filter's average belongs to its own half.
        let steady = [Half { average: Some(-54.0), ..halves[0] }, Half { average: Some(-55.5), ..halves[1] }];
        let (steadied, _) = camera.picture(&settings, pattern, steady).unwrap();
        let zero = subpage_mask(Subpage::Zero, pattern);
        assert!((0..NUM_PIXELS).all(|pixel| (steadied[pixel] == picture[pixel]) == zero[pixel]));
    }
    // If one half is refused, there is no picture.
    let broken = [halves[0], Half { ram: RamData { gain: 0, ..ROOM }, ..halves[1] }];
    assert_eq!(camera.picture(&settings, Pattern::Chess, broken), Err(Refusal::ZeroDivisor));
}

// A name, the arguments, and the refusal of each call.
type Case<'a> = (&'a str, &'a Calibration, Settings, RamData, [Option<Told>; 3]);

#[test]
fn frames_are_refused_and_change_nothing() {
    let camera = Calibration::from_data(K).unwrap();
    let flat = Calibration::from_data(&with(K, &[(63, 0x0889)])).unwrap(); // a step of 0 degrees
    let turned = Calibration::from_data(&with(K, &[(63, 0x2089)])).unwrap(); // no step to corner 3
    let low = Calibration::from_data(&with(K, &[(51, 0x01FF)])).unwrap();
    let wiped = Calibration::from_data(&[0; 1664]).unwrap();
    let usual = camera.settings(2);
    let supply = |v_dd_pixel: i16| RamData { v_dd_pixel, ..ROOM };
    let none = |refused: u64, place: u64| [Some((refused, place, 0)); 3];
    let cases: [Case; 12] = [
        ("good", &camera, usual, ROOM, [None; 3]),
        ("range", &camera, Settings { basic_range: 4, ..usual }, ROOM, [None, Some((6, 4, 0)), Some((6, 4, 0))]),
        ("any range", &camera, Settings { basic_range: usize::MAX, ..usual }, ROOM, [None, Some((6, u64::MAX, 0)), Some((6, u64::MAX, 0))]),
        ("supply", &low, usual, supply(24543), [None; 3]),
        ("far supply", &low, usual, supply(24544), none(7, 0)),
        ("gain", &camera, usual, RamData { gain: 0, ..ROOM }, none(8, 0)),
        ("no emissivity", &camera, Settings { emissivity: 0.0, ..usual }, ROOM, none(8, 0)),
        ("emissivity", &camera, Settings { emissivity: f32::NAN, ..usual }, ROOM, none(8, 0)),
        ("wiped", &wiped, usual, ROOM, none(8, 0)),
        ("flat", &flat, usual, ROOM, [None, None, Some((12, 2, 0))]),
        ("turned", &turned, usual, ROOM, [None, None, Some((12, 3, 0))]),
        ("6 before 12", &flat, Settings { basic_range: 4, ..usual }, ROOM, [None, Some((6, 4, 0)), Some((6, 4, 0))]),
    ];
    let pixels = pixels_of(609);
    for (what, camera, settings, ram, expected) in cases {
        for (call, expected) in CALLS.into_iter().zip(expected) {
            for mode in MODES {
                let asked = Asked { camera, settings, ram, mode, pixels: &pixels, mask: &ALL_PIXELS };
                for filtered in [false, true] {
                    let mut picture = [7.5f32; NUM_PIXELS];
                    let answer = if filtered { asked.filtered(call, Some(-54.0), &mut picture) } else { asked.raw(call, &mut picture) };
                    assert_eq!(answer.err().map(told), expected, "{what}, {call}");
                    assert!(expected.is_none() || picture == [7.5; NUM_PIXELS], "{what}, {call}");
                }
            }
        }
    }
    // From infrared values: 6 and then 8, for the emissivity alone.
    let mut picture = [7.5f32; NUM_PIXELS];
    for subpage in BOTH {
        let mut call = |settings: Settings| camera.raw_ir_to_temperatures(&settings, subpage, 39.0, &ALL_PIXELS, &mut picture).err().map(told);
        assert_eq!(call(Settings { basic_range: 4, emissivity: 0.0, ..usual }), Some((6, 4, 0)));
        assert_eq!(call(Settings { emissivity: f32::NAN, ..usual }), Some((8, 0, 0)));
    }
    assert_eq!(picture, [7.5; NUM_PIXELS]);
}

#[test]
fn short_frames_are_refused() {
    let camera = Calibration::from_data(K).unwrap();
    let (settings, pixels) = (camera.settings(2), pixels_of(609));
    let cases = [(1535, 768, 768, 1535), (1536, 767, 768, 767), (1536, 768, 767, 767), (1000, 5, 9, 1000), (1536, 700, 600, 700), (0, 768, 768, 0)];
    for (bytes, entries, asked_for, length) in cases {
        for (call, mode) in CALLS.into_iter().flat_map(|call| MODES.map(|mode| (call, mode))) {
            // 10 comes before 6, 7 and 8.
            let settings = Settings { basic_range: 9, emissivity: 0.0, ..settings };
            let asked = Asked { camera: &camera, settings, ram: ROOM, mode, pixels: &pixels[..bytes], mask: &ALL_PIXELS[..asked_for] };
            let mut picture = vec![f32::INFINITY; entries];
            assert_eq!(asked.raw(call, &mut picture), Err(Refusal::ShortFrame { length }));
            assert_eq!(asked.filtered(call, None, &mut picture), Err(Refusal::ShortFrame { length }));
            assert!(picture.iter().all(|t| *t == f32::INFINITY));
        }
    }
    for (entries, asked_for, length) in [(767, 768, 767), (768, 767, 767), (0, 0, 0)] {
        let refused = camera.raw_ir_to_temperatures(&settings, Subpage::One, 39.0, &ALL_PIXELS[..asked_for], &mut vec![1.0; entries]);
        assert_eq!(refused, Err(Refusal::ShortFrame { length }));
    }
    // What is longer is not read, not changed and not counted.
    let (mask, mut picture) = ([true; NUM_PIXELS + 9], [1f32; NUM_PIXELS + 5]);
    let long = [pixels.clone(), vec![7; 3]].concat();
    let asked = Asked { camera: &camera, settings, ram: ROOM, mode: MODES[0], pixels: &long, mask: &mask };
    assert_eq!(asked.raw("one pass", &mut picture).unwrap().written, 768);
    assert_eq!(picture[NUM_PIXELS..], [1.0; 5]);
}

// An average that is a whole number acts like a reading, so the plain calls give the expected results of the filtered ones.
#[test]
fn an_average_stands_where_the_reading_stood() {
    let camera = Calibration::from_data(K).unwrap();
    let pixels = pixels_of(609);
    for (call, mode) in CALLS.into_iter().flat_map(|call| MODES.map(|mode| (call, mode))) {
        let asked = |ram: RamData| Asked { camera: &camera, settings: camera.settings(1), ram, mode, pixels: &pixels, mask: &ALL_PIXELS };
        let filtered = |average: Option<f32>| {
            let mut picture = [0f32; NUM_PIXELS];
            asked(ROOM).filtered(call, average, &mut picture).unwrap();
            picture.map(f32::to_bits).to_vec()
        };
        assert_eq!(filtered(None), bits(&asked(ROOM), call));
        for reading in [i16::MIN, -1, 0, 99, i16::MAX] {
            assert_eq!(filtered(Some(f32::from(reading))), bits(&asked(RamData { compensation_pixel: reading, ..ROOM }), call));
        }
        assert_ne!(filtered(Some(-54.5)), bits(&asked(ROOM), call));
    }
    // The filter of a constant reading returns that reading.
    let mut filter = Filter::new();
    (0..16).for_each(|_| filter.push(ROOM.compensation_pixel));
    assert_eq!(filter.average(), Some(-54.0));
}

// A pixel's temperature from its infrared value and its basic temperature, in f32 steps, for an emissivity of 1.
fn second(camera: &Calibration, subpage: Subpage, t_a: f32, pixel: usize, v: f32, basic: f32) -> f32 {
    let range = (0..RANGES).rev().find(|k| f32::from(camera.corner_temperatures()[*k]) <= basic).unwrap_or(0);
    let gradient = camera.temperature_gradient_coefficient().map_or(0.0, |gradient| camera.alpha_cp(subpage) * gradient);
    let a = (camera.alpha_pixels()[pixel] - gradient) * (1.0 + camera.k_s_ta() * (t_a - 25.0));
    let growth = 1.0 + camera.k_s_to()[range] * (basic - f32::from(camera.corner_temperatures()[range]));
    let ambient = (t_a + 273.15) * (t_a + 273.15);
    fourth_root(v / (a * camera.range_coefficients()[range] * growth) + ambient * ambient) - 273.15
}

#[test]
fn the_second_pass_goes_by_range() {
    let pixels: Vec<u8> = (0..NUM_PIXELS as i16).flat_map(|pixel| (pixel * 20 - 1500).to_be_bytes()).collect();
    for (range, mode) in (0..RANGES).flat_map(|range| MODES.map(|mode| (range, mode))) {
        let camera = Calibration::from_data_in(&with(K, &[(61, 0x9797), (62, 0x8FA1)]), range).unwrap();
        let asked = Asked { camera: &camera, settings: camera.settings(2), ram: ROOM, mode, pixels: &pixels, mask: &ALL_PIXELS };
        let [mut infrared, mut once, mut ranged] = [[0f32; NUM_PIXELS]; 3];
        let t_a = asked.raw("infrared", &mut infrared).unwrap().t_a;
        asked.raw("one pass", &mut once).unwrap();
        asked.raw("second pass", &mut ranged).unwrap();
        let mut seen = [0; RANGES];
        for pixel in 0..NUM_PIXELS {
            let expected = second(&camera, mode.1, t_a, pixel, infrared[pixel], once[pixel]);
            assert!(ranged[pixel] == expected || expected.is_nan() && ranged[pixel].is_nan(), "{mode:?}, range {range}, pixel {pixel}");
            seen[camera.corner_temperatures().iter().filter(|corner| f32::from(**corner) <= once[pixel]).count().max(1) - 1] += 1;
        }
        assert!(seen.iter().all(|pixels| *pixels > 20), "{seen:?} pixels in each range");
    }
}

#[test]
fn settings_are_warned_of_by_camera_and_card() {
    let none = Some("the camera has no such basic range");
    let another = Some("the basic range is not the one that the card was loaded with");
    for range in 0..RANGES {
        let camera = Calibration::from_data_in(K, range).unwrap();
        let usual = camera.settings(2);
        assert_eq!(camera.settings_warning(&usual), None);
        for basic_range in (0..9).chain([usize::MAX]).filter(|basic_range| *basic_range != range) {
            let told = if basic_range < RANGES { another } else { none };
            assert_eq!(camera.settings_warning(&Settings { basic_range, ..usual }), told);
        }
        assert!(camera.settings_warning(&Settings { emissivity: 95.0, ..usual }).is_some());
    }
    // The other camera's settings give a warning, either way.
    let camera = Calibration::from_data(K).unwrap();
    assert_eq!(camera.settings_warning(&Settings::default()), another);
    let other = loamchalice::Calibration::from_data(include_bytes!("../cards/sound.bin")).unwrap();
    assert_eq!(other.settings_warning(&camera.settings(2)), another);
    assert_eq!(other.settings_warning(&Settings { basic_range: 8, ..Settings::default() }), none);
    assert_eq!(Settings { basic_range: 8, ..Settings::default() }.warning(), none);
}
