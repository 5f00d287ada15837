//! Readings of document 01, through the binding.
use loamchalice::{
    add_checksum, alpha_row, burn, check_word, environment_is_default, fourth_root, next_step, scrub, subpage_offsets, validate_checksum, Burnt, Calibration,
    Card, Checked, Filter, RamData, Reader, Refusal, Settings, Subpage, ALL_PIXELS,
};

const SOUND: &[u8] = include_bytes!("../cards/sound.bin");
const ROOM: RamData = RamData { t_a_v_be: 19442, t_a_ptat: 1711, v_dd_pixel: -13115, gain: 6391, compensation_pixel: -105 };

#[test]
fn cards_are_refused_by_number_place_and_value() {
    let refused = |image: &[u8]| Calibration::from_data(image).err().map(|r| (r.number(), r.place(), r.value()));
    assert_eq!(refused(SOUND), None);
    assert_eq!(refused(include_bytes!("../cards/mended.bin")), None);
    assert_eq!(refused(include_bytes!("../cards/wiped.bin")), None);
    assert_eq!(refused(include_bytes!("../cards/short.bin")), Some((1, 1663, 0)));
    assert_eq!(refused(include_bytes!("../cards/damaged.bin")), Some((3, 100, 516)));
    assert_eq!(refused(&[0xFF; 1664]), Some((4, 63, 0)));
}

#[test]
fn a_refusal_says_itself() {
    let refusal = Calibration::from_data(include_bytes!("../cards/damaged.bin")).unwrap_err();
    assert_eq!(refusal.to_string(), "refusal 3: a chip word is damaged (word 100, 0x0204)");
    let _: &dyn std::error::Error = &refusal;
}

#[test]
fn a_wiped_card_has_no_frames() {
    let wiped = Calibration::from_data(&[0; 1664]).unwrap();
    let mut picture = [7.5f32; 192];
    let ram = RamData { v_dd_pixel: 0, ..ROOM };
    let refused = wiped.raw_pixels_to_temperatures(&Settings::default(), ram, Subpage::One, &[0; 384], &ALL_PIXELS, &mut picture);
    assert_eq!(refused, Err(Refusal::ZeroDivisor));
    assert_eq!(picture, [7.5; 192]);
}

#[test]
fn one_pass_or_two() {
    let camera = Calibration::from_data(SOUND).unwrap();
    let settings = Settings { emissivity: 0.9, reflected: Some(21.0), ..Settings::default() };
    let pixels = [0xFD, 0x94].repeat(192);
    let mut mask = ALL_PIXELS;
    mask[5] = false;
    let (mut once, mut twice) = ([1.0f32; 192], [1.0f32; 192]);
    let frame = camera.raw_pixels_to_temperatures(&settings, ROOM, Subpage::One, &pixels, &mask, &mut once).unwrap();
    let infrared = camera.raw_pixels_to_ir_data(&settings, ROOM, Subpage::One, &pixels, &mask, &mut twice).unwrap();
    camera.raw_ir_to_temperatures(&settings, infrared.t_a, &mask, &mut twice).unwrap();
    assert_eq!(frame.t_a, infrared.t_a);
    assert_eq!(once, twice);
    assert_eq!(once[5], 1.0);
    assert!(once[6] != 1.0);
}

#[test]
fn half_a_picture_does_not_pass() {
    let camera = Calibration::from_data(SOUND).unwrap();
    let pixels = [0xFD, 0x94].repeat(100);
    let mut picture = [f32::INFINITY; 192];
    let frame = camera.raw_pixels_to_temperatures(&Settings::default(), ROOM, Subpage::Zero, &pixels, &ALL_PIXELS, &mut picture);
    assert_eq!(frame, Err(Refusal::ShortFrame { length: 200 }));
    assert!(picture.iter().all(|t| *t == f32::INFINITY));
}

#[test]
fn refusals_of_frames() {
    let camera = Calibration::from_data(SOUND).unwrap();
    let mut picture = [0f32; 192];
    let mut call = |settings: Settings, ram: RamData| {
        let answer = camera.raw_pixels_to_temperatures(&settings, ram, Subpage::Zero, &[0; 384], &ALL_PIXELS, &mut picture);
        answer.err().map(|r| r.number())
    };
    let usual = Settings::default();
    assert_eq!(call(usual, ROOM), None);
    assert_eq!(call(Settings { basic_range: 8, ..usual }, ROOM), Some(6));
    assert_eq!(call(usual, RamData { v_dd_pixel: 32767, ..ROOM }), Some(7));
    assert_eq!(call(usual, RamData { gain: 0, ..ROOM }), Some(8));
    assert_eq!(call(Settings { emissivity: f32::NAN, ..usual }, ROOM), Some(8));
}

// All 65,536 words: 2048 are codewords, 16 more for each are one flipped bit away, and the rest are damaged.
#[test]
fn every_chip_word_is_checked() {
    let mut counts = [0; 3];
    for word in 0..=u16::MAX {
        match check_word(word) {
            Ok(Checked::Clean(data)) => {
                assert_eq!(add_checksum(data), Ok(word));
                counts[0] += 1;
            }
            Ok(Checked::Mended { data, bit }) => {
                assert_eq!(add_checksum(data), Ok(word ^ 1 << bit));
                counts[1] += 1;
            }
            Err(refusal) => {
                assert_eq!(refusal, Refusal::DamagedWord { word: 0, bits: word });
                counts[2] += 1;
            }
        }
        assert_eq!(validate_checksum(word), check_word(word).map(Checked::data));
    }
    assert_eq!(counts, [2048, 32768, 30720]);
    assert!((2048..=u16::MAX).all(|data| add_checksum(data) == Err(Refusal::DataTooLarge { data })));
}

#[test]
fn parts_are_parts_of_what_is_lent() {
    for row in 0..6 {
        assert_eq!(alpha_row(SOUND, row), &SOUND[512 + 64 * row..576 + 64 * row]);
    }
    assert!(alpha_row(SOUND, usize::MAX).is_empty() && alpha_row(&SOUND[..1663], 0).is_empty());
    let (zero, one): (Vec<i32>, Vec<i32>) = ((0..200).collect(), (1000..1192).collect());
    assert_eq!(subpage_offsets(&zero, &one, Subpage::Zero), &zero[..192]);
    assert_eq!(subpage_offsets(&zero, &one, Subpage::One), &one[..]);
    for x in [0.0, 1.0, 16.0, 6561.0, 2f32.powi(100)] {
        assert_eq!(fourth_root(x), x.sqrt().sqrt());
    }
    assert!(fourth_root(-1.0).is_nan());
}

#[test]
fn corners_that_do_not_rise_stop_the_second_pass_alone() {
    let mut card = Card::words(SOUND).unwrap();
    card.data[58 - 18] = 0; // corner 5 at 0 degrees
    let camera = Calibration::from_data(&card.write().unwrap()).unwrap();
    let mut picture = [7.5f32; 192];
    for average in [None, Some(-105.0)] {
        let refused = camera.filtered_pixels_to_ranged_temperatures(&Settings::default(), ROOM, average, Subpage::Zero, &[0; 384], &ALL_PIXELS, &mut picture);
        assert_eq!(refused, Err(Refusal::UnorderedCorners { corner: 5 }));
    }
    let refused = camera.raw_pixels_to_ranged_temperatures(&Settings::default(), ROOM, Subpage::One, &[0; 384], &ALL_PIXELS, &mut picture);
    assert_eq!(refused, Err(Refusal::UnorderedCorners { corner: 5 }));
    assert_eq!(picture, [7.5; 192]);
    assert!(camera.picture(&Settings::default(), ROOM, Subpage::One, &[0; 384]).is_ok());
}

#[test]
fn no_gradient_is_not_gradient_zero_in_kind() {
    let camera = Calibration::from_data(SOUND).unwrap();
    assert!(camera.temperature_gradient_coefficient().is_some());
    assert_eq!(camera.clone().with_gradient(None).temperature_gradient_coefficient(), None);
    assert_eq!(camera.with_gradient(Some(0.0)).temperature_gradient_coefficient(), Some(0.0));
}

#[test]
fn the_bigger_camera_has_768_pixels() {
    use loamchalice::mlx90640::{chessboard_entry, interleave_entry, NUM_PIXELS};
    for pixel in [NUM_PIXELS, usize::MAX] {
        let refused = Err(Refusal::PixelNumber { pixel });
        assert_eq!((interleave_entry(pixel), chessboard_entry(pixel)), (refused, refused));
    }
    let refusal = interleave_entry(768).unwrap_err();
    assert_eq!((refusal.number(), refusal.place(), refusal.value()), (14, 768, 0));
    assert_eq!(refusal.to_string(), "refusal 14: there is no such pixel (pixel 768)");
    assert_eq!((interleave_entry(767), chessboard_entry(767)), (Ok(5), Ok(3)));
}

#[test]
fn a_zero_that_is_negated_is_minus_zero() {
    let bits = |word| loamchalice::mlx90640::access_pattern_corrections(word).pattern.map(f32::to_bits);
    let (plus, minus) = (0f32.to_bits(), (-0f32).to_bits());
    assert_eq!(bits(0), [minus, plus, minus, plus, minus, plus]);
}

#[test]
fn a_card_is_read_and_written() {
    let sound = Card::words(SOUND).unwrap();
    assert_eq!(sound.write().unwrap(), *SOUND);
    let mended = Card::words(include_bytes!("../cards/mended.bin")).unwrap();
    assert_eq!(mended, sound);
    let damaged = Card::words(include_bytes!("../cards/damaged.bin"));
    assert_eq!(damaged, Err(Refusal::DamagedWord { word: 100, bits: 516 }));
    let lines = include_str!("../cards/sound.txt").lines();
    let words: Vec<u16> = lines.map(|line| parsed(line.split('\t').next().unwrap())).collect();
    assert_eq!(sound.unchecked, [&words[..16], &words[19..21]].concat()[..]);
    assert_eq!(sound.data, [&words[16..19], &words[21..]].concat()[..]);
}

fn parsed(number: &str) -> u16 {
    number.strip_prefix("0x").map_or_else(|| number.parse(), |digits| u16::from_str_radix(digits, 16)).unwrap()
}

#[test]
fn a_changed_word_is_loaded() {
    let mut card = Card::words(SOUND).unwrap();
    card.data[0] = 21 << 5;
    let refused = Calibration::from_data(&card.write().unwrap()).err();
    assert_eq!(refused, Some(Refusal::OffsetScale { scale: 21 }));
    card.data[813] = 2048;
    let refused = card.write().unwrap_err();
    assert_eq!((refused.number(), refused.place(), refused.value()), (9, 813, 2048));
    assert_eq!(refused.to_string(), "refusal 9: data is above 2047 (entry 813, data 2048)");
}

// A wiped card with these data; a checked word from 21 on is 18 entries earlier in the list of data.
fn with_words(words: &[(usize, u16)]) -> Vec<u8> {
    let mut card = Card::words(&[0; 1664]).unwrap();
    for (word, data) in words {
        card.data[word - 18] = *data;
    }
    card.write().unwrap().to_vec()
}

#[test]
fn range_coefficients_begin_at_the_basic_range() {
    let steep = Calibration::from_data(&with_words(&[(53, 2047), (54, 2047)])).unwrap();
    let bits = steep.range_coefficients().map(f32::to_bits);
    assert_eq!(bits[..3], [0x3B35_8A48, 0xBD57_9436, 0x3F80_0000]);
    let zero = with_words(&[(57, 2047), (58, 121)]);
    let refused = Calibration::from_data_in(&zero, 5).unwrap_err();
    assert_eq!((refused.number(), refused.place(), refused.value()), (13, 4, 0));
    assert_eq!(refused.to_string(), "refusal 13: a range coefficient would be divided by zero (range 4)");
    assert_eq!(Calibration::from_data_in(&zero, 4).unwrap().range_coefficients(), &[1.0, 1.0, 1.0, 1.0, 1.0, 0.0, 0.0, 0.0]);
    assert_eq!(Calibration::from_data_in(&zero, 8).err(), Some(Refusal::BasicRange { range: 8 }));
}

#[test]
fn burns_are_refused_and_change_nothing() {
    let told = |r: Refusal| (r.number(), r.place(), r.value());
    let mut card = SOUND.to_vec();
    let mut wanted = SOUND.to_vec();
    wanted[2 * 20] ^= 1;
    wanted[2 * 19 + 1] ^= 1;
    wanted[2 * 16] ^= 1;
    assert_eq!(burn(&mut card, &wanted).map_err(told), Err((11, 19, 0)));
    assert_eq!(next_step(&card, &wanted[..1663]).map_err(told), Err((1, 1663, 0)));
    assert_eq!(burn(&mut card[..7], &wanted[..1663]).map_err(told), Err((1, 7, 0)));
    assert_eq!(card, SOUND);
    assert_eq!(burn(&mut card, SOUND), Ok(Burnt { step: None, reached: true }));
}

#[test]
fn a_filter_has_the_last_16() {
    let mut filter = Filter::new();
    let readings: Vec<i16> = (0..100).map(|k| [-32768, 32767, 7, -105][k % 4] ^ (k as i16)).collect();
    for (k, reading) in readings.iter().enumerate() {
        filter.push(*reading);
        let afresh = readings[..=k].iter().rev().take(16).map(|x| f64::from(*x)).sum::<f64>() / 16.0;
        assert_eq!(filter.average().map(f64::from), (k >= 15).then_some(afresh));
    }
    filter.reset();
    assert_eq!(filter, Filter::new());
}

// An average that is a whole number acts like a reading, so the plain calls give the expected results of the filtered ones.
#[test]
fn an_average_stands_where_the_reading_stood() {
    let camera = Calibration::from_data(SOUND).unwrap();
    let settings = Settings { emissivity: 0.9, reflected: Some(21.0), ..Settings::default() };
    let pixels = [0xFD, 0x94].repeat(192);
    let plain = |reading: i16, call: usize| {
        let (ram, mut picture) = (RamData { compensation_pixel: reading, ..ROOM }, [0f32; 192]);
        let calls = [Calibration::raw_pixels_to_ir_data, Calibration::raw_pixels_to_temperatures, Calibration::raw_pixels_to_ranged_temperatures];
        (calls[call](&camera, &settings, ram, Subpage::One, &pixels, &ALL_PIXELS, &mut picture), picture.map(f32::to_bits))
    };
    let filtered = |average: Option<f32>, call: usize| {
        let mut picture = [0f32; 192];
        let calls =
            [Calibration::filtered_pixels_to_ir_data, Calibration::filtered_pixels_to_temperatures, Calibration::filtered_pixels_to_ranged_temperatures];
        (calls[call](&camera, &settings, ROOM, average, Subpage::One, &pixels, &ALL_PIXELS, &mut picture), picture.map(f32::to_bits))
    };
    for call in 0..3 {
        assert_eq!(filtered(None, call), plain(ROOM.compensation_pixel, call));
        for reading in [-32768, -1, 0, 99, 32767] {
            assert_eq!(filtered(Some(f32::from(reading)), call), plain(reading, call));
        }
        assert_ne!(filtered(Some(-105.5), call).1, plain(-105, call).1);
    }
}

#[test]
fn an_average_that_is_no_number_loses_every_pixel_if_there_is_a_gradient() {
    let camera = Calibration::from_data(SOUND).unwrap();
    let mut mask = ALL_PIXELS;
    mask[7] = false;
    for (gradient, lost) in [(Some(0.0), 191), (None, 0)] {
        let camera = camera.clone().with_gradient(gradient);
        let mut picture = [1f32; 192];
        let call = camera.filtered_pixels_to_temperatures(&Settings::default(), ROOM, Some(f32::NAN), Subpage::Zero, &[0xFD; 384], &mask, &mut picture);
        assert_eq!(call.unwrap().lost, lost);
        assert_eq!(picture.iter().filter(|t| t.to_bits() == 0x7FC0_0000).count(), lost);
    }
}

#[test]
fn a_card_is_mended_in_place() {
    let mut card = include_bytes!("../cards/worn.bin").to_vec();
    let first = scrub(&mut card).unwrap();
    assert_eq!((first.changed(), first.damaged()), (&[16, 22, 45, 64, 200, 300, 500, 700, 831][..], &[100, 400][..]));
    assert_eq!(card, include_bytes!("worn_scrubbed.bin"));
    let scrubbed = card.clone();
    let second = scrub(&mut card).unwrap();
    assert_eq!((second.changed(), second.damaged()), (&[][..], &[100, 400][..]));
    assert_eq!(card, scrubbed);
    assert_eq!(scrub(&mut card[..1663]).err(), Some(Refusal::ShortImage { length: 1663 }));
    assert_eq!(card, scrubbed);
}

// However a card is cut, it ends as a load does, with the piece that document 02 says.
#[test]
fn a_card_in_pieces_ends_as_a_load() {
    let cards: [&[u8]; 4] = [SOUND, include_bytes!("../cards/mended.bin"), include_bytes!("../cards/damaged.bin"), include_bytes!("../cards/blank.bin")];
    for card in cards {
        for size in [1, 2, 63, 64, 1663, 1664, 2000] {
            let mut reader = Reader::new();
            let mut heard = 0;
            let ended = card.chunks(size).find_map(|piece| {
                assert!(reader.take(&[]).is_ok_and(|none| none.is_none()));
                heard += piece.len();
                reader.take(piece).map_or_else(|refusal| Some(Err(refusal)), |done| done.map(Ok))
            });
            let whole = Calibration::from_data(card);
            let shown = |c: &Calibration| format!("{c:?}");
            assert_eq!(ended.as_ref().unwrap().as_ref().map(shown), whole.as_ref().map(shown));
            assert_eq!(reader.take(&[7; 9]).map(|again| shown(&again.unwrap())), whole.as_ref().map(shown).map_err(|r| *r));
            assert_eq!(reader.finished().as_ref().map(shown), whole.as_ref().map(shown));
            // A damaged word is reported with the piece that completes it.
            if let Err(Refusal::DamagedWord { word, .. }) = whole {
                assert!(heard >= 2 * word + 2 && heard - (2 * word + 2) < size);
            } else {
                assert_eq!(heard, 1664);
            }
        }
    }
}

// The basic range is that of the call with the last byte, whatever later calls pass.
#[test]
fn settings_have_the_basic_range_of_the_card() {
    assert_eq!(Calibration::from_data(SOUND).unwrap().settings(2).basic_range, 2);
    let loaded = Calibration::from_data_in(SOUND, 3).unwrap();
    assert_eq!((loaded.basic_range(), loaded.settings(2).basic_range), (3, 3));
    let mut reader = Reader::new();
    assert!(reader.take_in(&SOUND[..1000], 7).unwrap().is_none());
    assert_eq!(reader.take_in(&SOUND[1000..], 3).unwrap().unwrap().basic_range(), 3);
    assert_eq!(reader.take_in(&[1], 5).unwrap().unwrap().basic_range(), 3);
    assert_eq!(reader.finished().unwrap().basic_range(), 3);
}

#[test]
fn odd_numbers_are_told() {
    let usual = Settings::default();
    for emissivity in [95.0, -1.0, 0.0, f32::INFINITY, f32::NAN] {
        assert!(Settings { emissivity, ..usual }.warning().is_some());
    }
    for odd in [-3.0, 0.0, f32::INFINITY, f32::NAN] {
        assert!(Settings { v_dd_0: odd, ..usual }.warning().is_some());
        assert!(Settings { resolution_correction: odd, ..usual }.warning().is_some());
    }
    for basic_range in [8, 9, usize::MAX] {
        assert!(Settings { basic_range, ..usual }.warning().is_some());
    }
    for (reflected, told) in [(-273.15, false), (-273.2, true), (-400.0, true), (f32::NAN, true), (f32::INFINITY, true), (300.0, false)] {
        assert_eq!(Settings { reflected: Some(reflected), ..usual }.warning().is_some(), told);
    }
    // What is not read gives no warning.
    let heated = Settings { self_heating: f32::NAN, ..usual };
    assert!(heated.warning().is_some() && Settings { reflected: Some(20.0), ..heated }.warning().is_none());
}

#[test]
fn gains_that_are_far_apart_are_told() {
    let sound = Calibration::from_data(SOUND).unwrap();
    for (gain, told) in [(6383, false), (4788, false), (4787, true), (7978, false), (7979, true), (0, true), (-6383, true), (i16::MAX, true)] {
        assert_eq!(sound.gain_warning(RamData { gain, ..ROOM }).is_some(), told, "{gain}");
    }
    let wiped = Calibration::from_data(&[0; 1664]).unwrap();
    assert!(wiped.gain_warning(RamData { gain: 0, ..ROOM }).is_some());
}

// Runs the check with some bits of this thread's control word set.
#[cfg(any(target_arch = "x86_64", target_arch = "aarch64"))]
fn default_with(bits: u64) -> bool {
    use std::arch::asm;
    let mut usual: u64 = 0;
    #[cfg(target_arch = "x86_64")]
    unsafe {
        asm!("stmxcsr [{}]", in(reg) &mut usual);
        asm!("ldmxcsr [{}]", in(reg) &(usual | bits));
    }
    #[cfg(target_arch = "aarch64")]
    unsafe {
        asm!("mrs {}, fpcr", out(reg) usual);
        asm!("msr fpcr, {}", in(reg) usual | bits);
    }
    let answer = std::hint::black_box(environment_is_default as fn() -> bool)();
    #[cfg(target_arch = "x86_64")]
    unsafe {
        asm!("ldmxcsr [{}]", in(reg) &usual);
    }
    #[cfg(target_arch = "aarch64")]
    unsafe {
        asm!("msr fpcr, {}", in(reg) usual);
    }
    answer
}

// Rounding down, up and to zero, and flushing results or operands to zero; on Arm one bit flushes both.
#[cfg(any(target_arch = "x86_64", target_arch = "aarch64"))]
#[test]
fn another_environment_is_told() {
    let (odd, shift): (&[u64], u32) = if cfg!(target_arch = "x86_64") { (&[0x8000, 0x0040], 13) } else { (&[1 << 24], 22) };
    assert!(environment_is_default() && default_with(0));
    for mode in 1..4 {
        assert!(!default_with(mode << shift), "rounding mode {mode}");
    }
    for flush in odd {
        assert!(!default_with(*flush), "{flush:#x}");
    }
    assert!(environment_is_default());
}
