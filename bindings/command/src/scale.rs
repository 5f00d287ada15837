//! Colours for temperatures: those of matplotlib's inferno, which grow lighter from end to end, so that their order can be seen in grey and by the
//! colour-blind.
use crate::view::Picture;

const COLOURS: [[u8; 3]; 9] = [
    [0x00, 0x00, 0x04],
    [0x21, 0x0C, 0x4A],
    [0x56, 0x10, 0x6E],
    [0x89, 0x22, 0x6A],
    [0xBB, 0x37, 0x54],
    [0xE3, 0x59, 0x32],
    [0xF9, 0x8C, 0x0A],
    [0xF9, 0xC9, 0x32],
    [0xFC, 0xFF, 0xA4],
];

/// The least number of degrees that a scale spans, so that the noise of a room is not spread over all colours.
const LEAST: f32 = 30.0;

/// Powers of ten for the steps of a scale. The steps of wider scales are not round numbers.
const POWERS: [f64; 7] = [0.01, 0.1, 1.0, 10.0, 100.0, 1000.0, 10000.0];

/// The temperatures of the darkest and the lightest colour.
#[derive(Clone, Copy, Debug, PartialEq)]
pub struct Scale {
    pub low: f32,
    pub high: f32,
}

impl Scale {
    /// A scale around the pictures' temperatures and the limit, rounded to multiples of five. It begins at the coldest pixel: if all are alike, all are dark.
    pub fn of(pictures: &[Picture], limit: Option<f32>, from: Option<f32>, to: Option<f32>) -> Self {
        let seen = || pictures.iter().flat_map(Picture::degrees).map(|spot| spot.degrees).filter(|t| t.is_finite());
        let coldest = seen().reduce(f32::min).or(limit).unwrap_or(0.0);
        let hottest = seen().chain(limit).reduce(f32::max).unwrap_or(coldest);
        let low = from.unwrap_or_else(|| to.map_or(f32::INFINITY, |to| to - LEAST).min((coldest / 5.0).floor() * 5.0));
        let high = to.unwrap_or_else(|| (low + LEAST).max((hottest / 5.0).ceil() * 5.0));
        Scale { low, high }
    }

    /// The position of a temperature on the scale, from 0 to 1.
    pub fn share(self, t: f32) -> f32 {
        let share = (t - self.low) / (self.high - self.low);
        if share.is_nan() {
            return 0.0;
        }
        share.clamp(0.0, 1.0)
    }

    pub fn colour(self, t: f32) -> [u8; 3] {
        colour(self.share(t))
    }

    /// The temperatures to write beside the scale: multiples of 1, 2 or 5 times a power of ten, at most twelve.
    pub fn ticks(self) -> Vec<f32> {
        let rough = f64::from(self.high - self.low) / 10.0;
        let steps = POWERS.iter().flat_map(|power| [1.0, 2.0, 5.0].map(|factor| factor * power));
        let step = steps.into_iter().find(|step| *step >= rough).unwrap_or(rough);
        let first = (f64::from(self.low) / step).ceil();
        (0..12).map(|k| ((first + f64::from(k)) * step) as f32).filter(|t| t.is_finite() && *t <= self.high).collect()
    }
}

/// The colour at a position from 0 to 1.
pub fn colour(share: f32) -> [u8; 3] {
    let at = share.clamp(0.0, 1.0) * (COLOURS.len() - 1) as f32;
    let below = (at as usize).min(COLOURS.len() - 2);
    let part = at - below as f32;
    [0, 1, 2].map(|k| {
        let (a, b) = (f32::from(COLOURS[below][k]), f32::from(COLOURS[below + 1][k]));
        (a + (b - a) * part).round() as u8
    })
}

/// Whether black is more readable than white on a colour.
pub fn light(colour: [u8; 3]) -> bool {
    let [r, g, b] = colour.map(f32::from);
    0.299 * r + 0.587 * g + 0.114 * b > 117.0
}

pub fn hex(colour: [u8; 3]) -> String {
    format!("#{:02x}{:02x}{:02x}", colour[0], colour[1], colour[2])
}

#[cfg(test)]
mod tests {
    use super::*;

    #[test]
    fn colours_grow_lighter() {
        let lightness = |k: usize| {
            let [r, g, b] = colour(k as f32 / 200.0).map(f32::from);
            0.2126 * r + 0.7152 * g + 0.0722 * b
        };
        assert!((0..200).all(|k| lightness(k) < lightness(k + 1)));
    }

    #[test]
    fn no_scale_ends_in_a_panic() {
        for (low, high) in [(20.0, 50.0), (20.0, 20.5), (-3e38, 3e38), (1e30, 1e30), (f32::MIN, f32::MAX), (0.0, 1e-30)] {
            let scale = Scale { low, high };
            assert!(scale.ticks().len() <= 12);
            assert!([f32::NAN, f32::INFINITY, f32::NEG_INFINITY, low, high, 0.0].iter().all(|t| (0.0..=1.0).contains(&scale.share(*t))));
        }
        assert_eq!(Scale { low: 20.0, high: 105.0 }.ticks(), [20.0, 30.0, 40.0, 50.0, 60.0, 70.0, 80.0, 90.0, 100.0]);
        assert_eq!(Scale { low: 20.0, high: 22.0 }.ticks()[1], 20.2);
    }
}
