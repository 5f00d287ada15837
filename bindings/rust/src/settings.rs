use crate::border;
use crate::mlx90641::{BASIC_RANGE, RANGES, SELF_HEATING};

/// The numbers that the caller chooses. [`mlx90641::Calibration::settings`](crate::mlx90641::Calibration::settings) and
/// [`mlx90640::Calibration::settings`](crate::mlx90640::Calibration::settings) make them from a card, as mlx9064x's driver does. The defaults are for the
/// MLX90641 only, for a card of emissivity 1 that was written at the camera's current resolution.
#[derive(Clone, Copy, Debug, PartialEq)]
pub struct Settings {
    /// The emissivity of the object in view, above 0 and at most 1. The calls refuse only 0 and NaN: 95 instead of 0.95, -1 or infinity give plausible
    /// results that are too cold. See [`Settings::warning`].
    pub emissivity: f32,
    /// A ratio: see [`resolution_correction`].
    pub resolution_correction: f32,
    /// The nominal supply, in volts: 3.3.
    pub v_dd_0: f32,
    /// The basic range, 0 to 7 (MLX90640: 0 to 3): the one that the card was loaded with.
    pub basic_range: usize,
    /// Degrees subtracted from the ambient temperature to estimate the reflected one, if that is not given: 5 (MLX90640: 8).
    pub self_heating: f32,
    /// The reflected temperature in degrees Celsius, if it is known.
    pub reflected: Option<f32>,
}

impl Default for Settings {
    fn default() -> Self {
        Settings { emissivity: 1.0, resolution_correction: 1.0, v_dd_0: 3.3, basic_range: BASIC_RANGE, self_heating: SELF_HEATING, reflected: None }
    }
}

impl Settings {
    /// Returns what looks wrong in these settings for the MLX90641. The calls refuse only some of it. A lamp controller should not run with a warning. A
    /// calibration's own `settings_warning` also knows its camera, and the basic range that it was loaded with.
    ///
    /// ```
    /// use loamchalice::Settings;
    /// let usual = Settings::default();
    /// assert_eq!(usual.warning(), None);
    /// assert!(Settings { emissivity: 95.0, ..usual }.warning().is_some());
    /// assert!(Settings { basic_range: 9, ..usual }.warning().is_some());
    /// assert!(Settings { v_dd_0: -3.0, ..usual }.warning().is_some());
    /// assert!(Settings { reflected: Some(-400.0), ..usual }.warning().is_some());
    /// ```
    pub fn warning(&self) -> Option<&'static str> {
        self.warning_of(RANGES)
    }

    // The same for a camera with this number of ranges.
    pub(crate) fn warning_of(&self, ranges: usize) -> Option<&'static str> {
        let positive = |x: f32| x > 0.0 && x.is_finite();
        if self.basic_range >= ranges {
            return Some("the camera has no such basic range");
        }
        if !(positive(self.emissivity) && self.emissivity <= 1.0) {
            return Some("the emissivity is not above 0 and at most 1");
        }
        if !positive(self.resolution_correction) {
            return Some("the resolution correction is no positive number");
        }
        if !positive(self.v_dd_0) {
            return Some("the nominal supply is no positive number");
        }
        match self.reflected {
            None if !self.self_heating.is_finite() => Some("the self-heating is no number"),
            Some(t) if !(t.is_finite() && t >= -273.15) => Some("the reflected temperature is no number, or below -273.15"),
            _ => None,
        }
    }

    pub(crate) fn lent(&self) -> border::Settings {
        border::Settings {
            basic_range: self.basic_range,
            emissivity: self.emissivity,
            resolution_correction: self.resolution_correction,
            v_dd_0: self.v_dd_0,
            self_heating: self.self_heating,
            reflected: self.reflected.unwrap_or(0.0),
            reflected_given: self.reflected.is_some().into(),
        }
    }
}

/// Returns 2 to the power of the card's resolution minus the camera's current one, each 0 to 3: the factor of a supply reading if the camera reads at another
/// resolution than the card was written at.
///
/// ```
/// assert_eq!(loamchalice::resolution_correction(2, 3), 0.5);
/// ```
pub fn resolution_correction(calibrated: u8, current: u8) -> f32 {
    let step = if calibrated < current { 0.5 } else { 2.0 };
    (0..calibrated.abs_diff(current)).fold(1.0, |power, _| power * step)
}
