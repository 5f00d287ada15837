//! The meaning of each word of a card, by docs/SCOPE.md.
use crate::model::Kind;

pub fn field(kind: Kind, word: usize) -> String {
    match kind {
        Kind::Mlx90641 => field641(word),
        Kind::Mlx90640 => field640(word),
    }
}

fn field641(word: usize) -> String {
    let name = match word {
        0..=15 | 19 | 20 => "not used",
        16 => "offset scale",
        17 => "offset average, upper part",
        18 => "offset average, lower part",
        21 => "K_Ta average",
        22 => "K_Ta scales",
        23 => "K_V average",
        24 => "K_V scales",
        25..=27 => return format!("sensitivity scales of pixels {} to {}", 64 * (word - 25), 64 * (word - 25) + 63),
        28..=33 => return format!("greatest sensitivity of pixels {} to {}", 32 * (word - 28), 32 * (word - 28) + 31),
        34 => "K_sTa",
        35 => "emissivity",
        36 => "gain, upper part",
        37 => "gain, lower part",
        38 => "supply at 25 degrees (V_DD25)",
        39 => "supply (K_VDD)",
        40 => "V_PTAT25, upper part",
        41 => "V_PTAT25, lower part",
        42 => "K_TPTAT",
        43 => "K_VPTAT",
        44 => "alpha_PTAT",
        45 => "sensitivity of the compensation pixel",
        46 => "scale of that",
        47 => "offset of the compensation pixel, upper part",
        48 => "offset of the compensation pixel, lower part",
        49 => "K_Ta of the compensation pixel",
        50 => "K_V of the compensation pixel",
        51 => "resolution and gradient",
        52 => "K_sTo scale",
        53..=57 => return format!("K_sTo of range {}", word - 53),
        58 | 60 | 62 => return format!("corner temperature of range {}", 5 + (word - 58) / 2),
        59 | 61 | 63 => return format!("K_sTo of range {}", 5 + (word - 59) / 2),
        64..=255 => return format!("offset of pixel {}, subpage 0", word - 64),
        256..=447 => return format!("sensitivity of pixel {}", word - 256),
        448..=639 => return format!("K_Ta and K_V of pixel {}", word - 448),
        _ => return format!("offset of pixel {}, subpage 1", word - 640),
    };
    name.to_string()
}

fn field640(word: usize) -> String {
    let name = match word {
        0..=15 => "not used",
        16 => "alpha_PTAT and offset scales",
        17 => "offset average",
        18..=23 => return format!("offsets of rows {} to {}", 4 * (word - 18), 4 * (word - 18) + 3),
        24..=31 => return format!("offsets of columns {} to {}", 4 * (word - 24), 4 * (word - 24) + 3),
        32 => "sensitivity scales",
        33 => "sensitivity average",
        34..=39 => return format!("sensitivities of rows {} to {}", 4 * (word - 34), 4 * (word - 34) + 3),
        40..=47 => return format!("sensitivities of columns {} to {}", 4 * (word - 40), 4 * (word - 40) + 3),
        48 => "gain",
        49 => "V_PTAT25",
        50 => "K_VPTAT and K_TPTAT",
        51 => "supply (K_VDD) and supply at 25 degrees (V_DD25)",
        52 => "K_V by row and column",
        53 => "access corrections",
        54 => "K_Ta averages of even columns",
        55 => "K_Ta averages of odd columns",
        56 => "resolution, K_V scale, K_Ta scales",
        57 => "sensitivity of the compensation pixel",
        58 => "offset of the compensation pixel",
        59 => "K_V and K_Ta of the compensation pixel",
        60 => "K_sTa and gradient",
        61 => "K_sTo of ranges 0 and 1",
        62 => "K_sTo of ranges 2 and 3",
        63 => "corner temperatures and K_sTo scale",
        _ => return format!("offset, sensitivity and K_Ta of pixel {}", word - 64),
    };
    name.to_string()
}
