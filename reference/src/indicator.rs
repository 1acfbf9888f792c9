//! Indicators and the data on which they rest.

/// Attachment 5: fields whose original characters were invalid or out of range. The data
/// of an indicator may stand there.
pub const ERRONEOUS_ID: u8 = 5;

/// An indicator and its data, by their fields.
#[derive(Clone, Copy, Debug, PartialEq, Eq)]
pub struct Indicator {
    pub field: usize,
    pub data: &'static [usize],
}

const fn indicator(field: usize, data: &'static [usize]) -> Indicator {
    Indicator { field, data }
}

/// The indicators, ascending.
pub const INDICATORS: [Indicator; 6] = [
    // DI on D, WI on W, VI on VB.
    indicator(17, &[18]),
    indicator(19, &[20]),
    indicator(21, &[22]),
    // TI on A, WB, DPT and S; BI on S.
    indicator(27, &[28, 29, 30, 31]),
    indicator(32, &[31]),
    // HI on H.
    indicator(36, &[37]),
];

impl Indicator {
    pub fn rests_on(self, field: usize) -> bool {
        self.data.contains(&field)
    }

    /// Whether all its data are missing.
    pub fn has_lost_its_data(self, is_present: impl Fn(usize) -> bool) -> bool {
        !self.data.iter().any(|&field| is_present(field))
    }
}
