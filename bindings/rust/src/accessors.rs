//! The accessors that the calibrations of both cameras share.

// For a module that has a `Calibration` with record, basic range and tables, and the constants `RANGES` and `NUM_PIXELS`.
macro_rules! accessors {
    () => {
        impl Calibration {
            /// The basic range that the card was loaded with.
            pub fn basic_range(&self) -> usize {
                self.basic_range
            }

            /// The resolution that the card was written at, 0 to 3.
            pub fn resolution(&self) -> u8 {
                self.record.resolution
            }

            /// Returns what looks wrong in settings for this card: a basic range that is not the one the card was loaded with, as in the other camera's
            /// settings, or values that no camera should be used with. The calls refuse only some of it. A lamp controller should not run with a warning.
            pub fn settings_warning(&self, settings: &Settings) -> Option<&'static str> {
                let other = settings.basic_range != self.basic_range;
                settings.warning_of(RANGES).or(other.then_some("the basic range is not the one that the card was loaded with"))
            }

            /// The gradient coefficient, a ratio, or `None` if the card has no gradient.
            pub fn temperature_gradient_coefficient(&self) -> Option<f32> {
                (self.record.has_gradient != 0).then_some(self.record.gradient)
            }

            /// Returns the same card with another gradient, or without one.
            pub fn with_gradient(mut self, gradient: Option<f32>) -> Self {
                self.record.has_gradient = gradient.is_some().into();
                self.record.gradient = gradient.unwrap_or(0.0);
                self
            }

            /// The card's gain, in counts, which corrects for a frame's own gain.
            pub fn gain(&self) -> f32 {
                self.record.gain
            }

            /// K_VDD, the divisor of the supply reading, in counts per volt.
            pub fn k_v_dd(&self) -> i16 {
                self.record.k_v_dd
            }

            /// The supply reading at 25 degrees Celsius, in counts.
            pub fn v_dd_25(&self) -> i16 {
                self.record.v_dd_25
            }

            /// K_VPTAT, per volt.
            pub fn k_v_ptat(&self) -> f32 {
                self.record.k_v_ptat
            }

            /// K_TPTAT, in counts per degree.
            pub fn k_t_ptat(&self) -> f32 {
                self.record.k_t_ptat
            }

            /// V_PTAT at 25 degrees Celsius, in counts.
            pub fn v_ptat_25(&self) -> f32 {
                self.record.v_ptat_25
            }

            /// alpha_PTAT, a ratio.
            pub fn alpha_ptat(&self) -> f32 {
                self.record.alpha_ptat
            }

            /// K_sTa, the change of sensitivity with the ambient temperature, per degree.
            pub fn k_s_ta(&self) -> f32 {
                self.record.k_s_ta
            }

            /// K_sTo of the ranges, per degree.
            pub fn k_s_to(&self) -> &[f32; RANGES] {
                &self.record.k_s_to
            }

            /// The compensation pixel's K_V, per volt.
            pub fn k_v_cp(&self) -> f32 {
                self.record.k_v_cp
            }

            /// The compensation pixel's K_Ta, per degree.
            pub fn k_ta_cp(&self) -> f32 {
                self.record.k_ta_cp
            }

            /// The lower corner temperatures of the ranges, in degrees Celsius.
            pub fn corner_temperatures(&self) -> &[i16; RANGES] {
                &self.record.corner_temperatures
            }

            /// The coefficients of the ranges, ratios: 1 at the basic range that the card was loaded with.
            pub fn range_coefficients(&self) -> &[f32; RANGES] {
                &self.record.range_coefficients
            }

            /// The sensitivities of the pixels, in counts per kelvin to the fourth.
            pub fn alpha_pixels(&self) -> &[f32; NUM_PIXELS] {
                &self.tables.alpha
            }

            /// K_Ta of the pixels, per degree.
            pub fn k_ta_pixels(&self) -> &[f32; NUM_PIXELS] {
                &self.tables.k_ta
            }
        }
    };
}
pub(crate) use accessors;
