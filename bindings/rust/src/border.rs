//! The library's C calls, as functions that take slices. Their arguments and results have the library's layout on a 64-bit processor.

// Structs of the C border: each with its size and the offset of each field, in bytes.
macro_rules! structs {
    ($($(#[$about:meta])* $name:ident $size:literal { $($field:ident: $type:ty = $at:literal),* $(,)? })*) => {
        $(
            $(#[$about])*
            #[repr(C)]
            #[derive(Clone, Copy, Debug, PartialEq)]
            pub struct $name {
                $(pub $field: $type,)*
            }
            const _: () = {
                assert!(core::mem::size_of::<$name>() == $size);
                $(assert!(core::mem::offset_of!($name, $field) == $at);)*
            };
        )*
    };
}

// Answers: each begins with its status and dereferences to it, so `answer.number` is `answer.told.number`.
macro_rules! answers {
    ($($name:ident $size:literal { $($fields:tt)* })*) => {
        $(
            structs! { $name $size { told: Told = 0, $($fields)* } }
            impl core::ops::Deref for $name {
                type Target = Told;
                fn deref(&self) -> &Told {
                    &self.told
                }
            }
            impl core::ops::DerefMut for $name {
                fn deref_mut(&mut self) -> &mut Told {
                    &mut self.told
                }
            }
        )*
    };
}

structs! {
    /// The refusal that stopped a call, or three zeros.
    Told 24 { number: u64 = 0, place: u64 = 8, value: u64 = 16 }
    Part 16 { start: usize = 0, length: usize = 8 }
    /// The MLX90641's record. If `has_gradient` is 0 there is no gradient.
    Record 132 {
        k_v_ptat: f32 = 0, k_t_ptat: f32 = 4, v_ptat_25: f32 = 8, alpha_ptat: f32 = 12, gain: f32 = 16, k_s_ta: f32 = 20, emissivity: f32 = 24,
        alpha_cp: f32 = 28, k_v_cp: f32 = 32, k_ta_cp: f32 = 36, gradient: f32 = 40, k_s_to: [f32; 8] = 44, corner_temperatures: [i16; 8] = 76,
        k_v_dd: i16 = 92, v_dd_25: i16 = 94, offset_reference_cp: i16 = 96, resolution: u8 = 98, has_gradient: u8 = 99, range_coefficients: [f32; 8] = 100,
    }
    /// The MLX90640's record. Lists of two have an entry for each subpage.
    Record640 140 {
        k_v_ptat: f32 = 0, k_t_ptat: f32 = 4, v_ptat_25: f32 = 8, alpha_ptat: f32 = 12, gain: f32 = 16, k_s_ta: f32 = 20, k_v_cp: f32 = 24,
        k_ta_cp: f32 = 28, gradient: f32 = 32, access_cp: f32 = 36, alpha_cp: [f32; 2] = 40, k_s_to: [f32; 4] = 48, range_coefficients: [f32; 4] = 64,
        k_v: [f32; 4] = 80, access_pattern: [f32; 6] = 96, corner_temperatures: [i16; 4] = 120, offset_reference_cp: [i16; 2] = 128, k_v_dd: i16 = 132,
        v_dd_25: i16 = 134, resolution: u8 = 136, has_gradient: u8 = 137, unused: [u8; 2] = 138,
    }
    Ram 10 { t_a_v_be: i16 = 0, t_a_ptat: i16 = 2, v_dd_pixel: i16 = 4, gain: i16 = 6, compensation_pixel: i16 = 8 }
    /// If `reflected_given` is 0, the reflected temperature is the ambient temperature minus `self_heating`, and `reflected` is not read.
    Settings 32 {
        basic_range: usize = 0, emissivity: f32 = 8, resolution_correction: f32 = 12, v_dd_0: f32 = 16, self_heating: f32 = 20, reflected: f32 = 24,
        reflected_given: u8 = 28,
    }
    /// Subpage 0 is the first, any other number the second.
    Input 48 { settings: Settings = 0, ram: Ram = 32, subpage: u8 = 42 }
    /// Pattern 0 is interleave, any other number chess.
    Input640 48 { settings: Settings = 0, ram: Ram = 32, subpage: u8 = 42, pattern: u8 = 43 }
    #[derive(Eq)]
    Filter 40 { readings: [i16; 16] = 0, sum: i32 = 32, turn: u8 = 36 }
    Average 8 { average: f32 = 0, ready: u8 = 4 }
    Filtered 56 { input: Input = 0, compensation: Average = 48 }
    Filtered640 56 { input: Input640 = 0, compensation: Average = 48 }
    Reader 192 { count: usize = 0, ended: u8 = 8, answer: Load = 16 }
    Taken 368 { reader: Reader = 0, answer: Load = 192 }
    SixTen 4 { six: i8 = 0, ten: u16 = 2 }
    Unsigned 4 { nibbles: [u8; 4] = 0 }
    Signed 4 { nibbles: [i8; 4] = 0 }
    AccessPattern 36 { chess_3: f32 = 0, chess_2: f32 = 4, chess_1: f32 = 8, pattern: [f32; 6] = 12 }
}

answers! {
    Outcome 24 {}
    Word 32 { word: u16 = 24, mended: u8 = 26, bit: u8 = 27 }
    Load 176 { mended: usize = 24, last_mended: usize = 32, calibration: Record = 40 }
    Load640 168 { calibration: Record640 = 24 }
    Answer 40 { lost: usize = 24, t_a: u32 = 32 }
    Step 40 { word: usize = 24, bits: u16 = 32, reached: u8 = 34 }
    Scrub 40 { changed: usize = 24, damaged: usize = 32 }
    PixelEntry 32 { entry: usize = 24 }
}

// Declares each call twice from one line: the C function, whose slices are a pointer and a count of entries, and a wrapper that takes slices. The arguments
// are processed one by one, into the C function's parameters, the wrapper's parameters, and the arguments that the wrapper passes.
macro_rules! calls {
    (@ $name:ident $answer:ty, [$($declared:tt)*] [$($lent:tt)*] [$($handed:tt)*] $(,)?) => {
        #[allow(clippy::too_many_arguments)]
        pub fn $name($($lent)*) -> $answer {
            extern "C" {
                #[link_name = concat!("loamchalice_", stringify!($name))]
                fn call($($declared)*) -> $answer;
            }
            unsafe { call($($handed)*) }
        }
    };
    (@ $name:ident $answer:ty, [$($declared:tt)*] [$($lent:tt)*] [$($handed:tt)*] $taken:ident: &mut [$entry:ty], $($rest:tt)*) => {
        calls! { @ $name $answer, [$($declared)* _: *mut $entry, _: usize,] [$($lent)* $taken: &mut [$entry],]
            [$($handed)* $taken.as_mut_ptr(), $taken.len(),] $($rest)* }
    };
    (@ $name:ident $answer:ty, [$($declared:tt)*] [$($lent:tt)*] [$($handed:tt)*] $taken:ident: &[$entry:ty], $($rest:tt)*) => {
        calls! { @ $name $answer, [$($declared)* _: *const $entry, _: usize,] [$($lent)* $taken: &[$entry],]
            [$($handed)* $taken.as_ptr(), $taken.len(),] $($rest)* }
    };
    (@ $name:ident $answer:ty, [$($declared:tt)*] [$($lent:tt)*] [$($handed:tt)*] $taken:ident: $type:ty, $($rest:tt)*) => {
        calls! { @ $name $answer, [$($declared)* _: $type,] [$($lent)* $taken: $type,] [$($handed)* $taken,] $($rest)* }
    };
    ($($name:ident($($taken:tt)*) -> $answer:ty;)*) => {
        $(calls! { @ $name $answer, [] [] [] $($taken)*, })*
    };
}

calls! {
    root(x: f32) -> u32;
    encode(data: u16) -> Word;
    check(word: u16) -> Word;
    write(data: &[u16], others: &[u16], image: &mut [u8]) -> Outcome;
    read_words(image: &[u8], data: &mut [u16], others: &mut [u16]) -> Outcome;
    alpha_row(image: &[u8], row: usize) -> Part;
    subpage_offsets(zero: &[i32], one: &[i32], subpage: u8) -> Part;
    next_step(present: &[u8], wanted: &[u8]) -> Step;
    burn(present: &mut [u8], wanted: &[u8]) -> Step;
    scrub(image: &mut [u8], changed: &mut [u16], damaged: &mut [u16]) -> Scrub;
    load(image: &[u8], basic_range: usize, zero: &mut [i32], one: &mut [i32], alpha: &mut [f32], k_v: &mut [f32], k_ta: &mut [f32]) -> Load;
    reader_new() -> Reader;
    reader_take(image: &mut [u8; 1664], reader: Reader, piece: &[u8], basic_range: usize,
        zero: &mut [i32], one: &mut [i32], alpha: &mut [f32], k_v: &mut [f32], k_ta: &mut [f32]) -> Taken;
    reader_finished(reader: Reader) -> Reader;
    filter_new() -> Filter;
    filter_push(filter: Filter, reading: i16) -> Filter;
    filter_average(filter: Filter) -> Average;
    raw_pixels_to_ir_data(card: Record, input: Input, zero: &[i32], one: &[i32], k_v: &[f32], k_ta: &[f32],
        pixels: &[u8], mask: &[u8], destination: &mut [u32]) -> Answer;
    raw_ir_to_temperatures(card: Record, settings: Settings, t_a: f32, alpha: &[f32], mask: &[u8], destination: &mut [u32]) -> Answer;
    raw_pixels_to_temperatures(card: Record, input: Input, zero: &[i32], one: &[i32], alpha: &[f32], k_v: &[f32], k_ta: &[f32],
        pixels: &[u8], mask: &[u8], destination: &mut [u32]) -> Answer;
    raw_pixels_to_ranged_temperatures(card: Record, input: Input, zero: &[i32], one: &[i32], alpha: &[f32], k_v: &[f32], k_ta: &[f32],
        pixels: &[u8], mask: &[u8], destination: &mut [u32]) -> Answer;
    filtered_pixels_to_ir_data(card: Record, filtered: Filtered, zero: &[i32], one: &[i32], k_v: &[f32], k_ta: &[f32],
        pixels: &[u8], mask: &[u8], destination: &mut [u32]) -> Answer;
    filtered_pixels_to_temperatures(card: Record, filtered: Filtered, zero: &[i32], one: &[i32], alpha: &[f32], k_v: &[f32], k_ta: &[f32],
        pixels: &[u8], mask: &[u8], destination: &mut [u32]) -> Answer;
    filtered_pixels_to_ranged_temperatures(card: Record, filtered: Filtered, zero: &[i32], one: &[i32], alpha: &[f32], k_v: &[f32], k_ta: &[f32],
        pixels: &[u8], mask: &[u8], destination: &mut [u32]) -> Answer;
    mlx90640_word_6_10_split(word: u16) -> SixTen;
    mlx90640_word_to_u4s(word: u16) -> Unsigned;
    mlx90640_word_to_i4s(word: u16) -> Signed;
    mlx90640_access_pattern(word: u16) -> AccessPattern;
    mlx90640_interleave_entry(pixel: usize) -> PixelEntry;
    mlx90640_chessboard_entry(pixel: usize) -> PixelEntry;
    mlx90640_load(image: &[u8], basic_range: usize, offsets: &mut [i32], alpha: &mut [f32], k_ta: &mut [f32]) -> Load640;
    mlx90640_subpage_mask(subpage: u8, pattern: u8, mask: &mut [u8]) -> Outcome;
    mlx90640_raw_pixels_to_ir_data(card: Record640, input: Input640, offsets: &[i32], k_ta: &[f32],
        pixels: &[u8], mask: &[u8], destination: &mut [u32]) -> Answer;
    mlx90640_raw_ir_to_temperatures(card: Record640, settings: Settings, subpage: u8, t_a: f32, alpha: &[f32], mask: &[u8], destination: &mut [u32]) -> Answer;
    mlx90640_raw_pixels_to_temperatures(card: Record640, input: Input640, offsets: &[i32], alpha: &[f32], k_ta: &[f32],
        pixels: &[u8], mask: &[u8], destination: &mut [u32]) -> Answer;
    mlx90640_raw_pixels_to_ranged_temperatures(card: Record640, input: Input640, offsets: &[i32], alpha: &[f32], k_ta: &[f32],
        pixels: &[u8], mask: &[u8], destination: &mut [u32]) -> Answer;
    mlx90640_filtered_pixels_to_ir_data(card: Record640, filtered: Filtered640, offsets: &[i32], k_ta: &[f32],
        pixels: &[u8], mask: &[u8], destination: &mut [u32]) -> Answer;
    mlx90640_filtered_pixels_to_temperatures(card: Record640, filtered: Filtered640, offsets: &[i32], alpha: &[f32], k_ta: &[f32],
        pixels: &[u8], mask: &[u8], destination: &mut [u32]) -> Answer;
    mlx90640_filtered_pixels_to_ranged_temperatures(card: Record640, filtered: Filtered640, offsets: &[i32], alpha: &[f32], k_ta: &[f32],
        pixels: &[u8], mask: &[u8], destination: &mut [u32]) -> Answer;
}
