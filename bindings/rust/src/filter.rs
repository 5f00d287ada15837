use crate::border;

/// A moving average of the compensation pixel: its last 16 raw readings, in counts. Noise in that one pixel moves the whole picture, and the camera's maker
/// advises a moving average of 16 or more. A filter knows nothing of subpages: keep one for each subpage that you read.
///
/// ```
/// let mut filter = loamchalice::Filter::new();
/// for reading in -116..-101 {
///     filter.push(reading);
///     assert_eq!(filter.average(), None);
/// }
/// filter.push(-101);
/// assert_eq!(filter.average(), Some(-108.5));
/// filter.push(-100);
/// assert_eq!(filter.average(), Some(-107.5));
/// filter.reset();
/// assert_eq!(filter.average(), None);
/// ```
#[derive(Clone, Copy, Debug, PartialEq, Eq)]
pub struct Filter(border::Filter);

impl Filter {
    /// Returns a filter without readings.
    pub fn new() -> Self {
        Filter(border::filter_new())
    }

    /// Adds a reading, the `compensation_pixel` of a frame's RAM. It replaces the oldest of 16.
    pub fn push(&mut self, reading: i16) {
        self.0 = border::filter_push(self.0, reading);
    }

    /// The average of the last 16 readings, in counts, which is exact; `None` while there are fewer than 16.
    pub fn average(&self) -> Option<f32> {
        let answer = border::filter_average(self.0);
        (answer.ready != 0).then_some(answer.average)
    }

    /// Forgets all readings.
    pub fn reset(&mut self) {
        *self = Filter::new();
    }
}

impl Default for Filter {
    fn default() -> Self {
        Filter::new()
    }
}
