use std::fmt;

/// Why an operation was refused, in the order and numbers of documents 01 and 02.
#[derive(Debug, Clone, Copy, PartialEq, Eq, Hash)]
pub enum Refusal {
    /// 1: the configuration is not valid.
    Configuration,
    /// 2: a price or a size is over 1,000,000,000.
    OverDomain,
    /// 3: the bid is 0, the ask is not above the bid, or both sizes are 0.
    BadQuote,
    /// 4: a price is not a multiple of the tick.
    OffTick,
    /// 5: the time is before the last quote's.
    EarlierTime,
    /// 6: a counter, a cell or a total would pass its limit, or is past it.
    CountLimit,
    /// 7: a slice has a wrong length.
    SliceLength,
    /// 8: the last quote would itself be refused by 2, 3 or 4.
    LastQuoteBroken,
    /// 9: the move totals of two mirrored states are not opposite.
    TotalsUnmirrored,
    /// 10: a cell differs from its mirror.
    CellsUnmirrored,
    /// 11: the cells together are not twice the pairs.
    CellsNotTwicePairs,
    /// 12: the image is not laid out as an image is.
    ImageLayout,
    /// 13: a row of the model is bad; this is its state.
    ModelRow(usize),
    /// 14: the times of a recording fall.
    RecordingUnsorted,
    /// 15: the window is backward and a quote lies in it.
    WindowBackward,
    /// 16: no state is calibrated.
    NoCalibratedState,
    /// 17: the transitions cannot be inverted.
    SingularTransitions,
    /// 18: the series does not converge.
    NotConverged,
    /// 19: an adjustment is not finite, or of size 2^96 or more.
    Unrepresentable,
    /// 26: the rounds of a fit are outside of their ranges.
    RoundsOutOfRange,
}

impl Refusal {
    /// The documents' number.
    pub fn number(self) -> u64 {
        match self {
            Self::Configuration => 1,
            Self::OverDomain => 2,
            Self::BadQuote => 3,
            Self::OffTick => 4,
            Self::EarlierTime => 5,
            Self::CountLimit => 6,
            Self::SliceLength => 7,
            Self::LastQuoteBroken => 8,
            Self::TotalsUnmirrored => 9,
            Self::CellsUnmirrored => 10,
            Self::CellsNotTwicePairs => 11,
            Self::ImageLayout => 12,
            Self::ModelRow(_) => 13,
            Self::RecordingUnsorted => 14,
            Self::WindowBackward => 15,
            Self::NoCalibratedState => 16,
            Self::SingularTransitions => 17,
            Self::NotConverged => 18,
            Self::Unrepresentable => 19,
            Self::RoundsOutOfRange => 26,
        }
    }

    /// The refusal of an answer, with the row that 13 names; `None` at 0.
    ///
    /// Panics at a number that no function answers to the words that this crate lends.
    pub(crate) fn of(answer: u64, row: u64) -> Option<Self> {
        Some(match answer {
            0 => return None,
            1 => Self::Configuration,
            2 => Self::OverDomain,
            3 => Self::BadQuote,
            4 => Self::OffTick,
            5 => Self::EarlierTime,
            6 => Self::CountLimit,
            7 => Self::SliceLength,
            8 => Self::LastQuoteBroken,
            9 => Self::TotalsUnmirrored,
            10 => Self::CellsUnmirrored,
            11 => Self::CellsNotTwicePairs,
            12 => Self::ImageLayout,
            13 => Self::ModelRow(row as usize),
            14 => Self::RecordingUnsorted,
            15 => Self::WindowBackward,
            16 => Self::NoCalibratedState,
            17 => Self::SingularTransitions,
            18 => Self::NotConverged,
            19 => Self::Unrepresentable,
            26 => Self::RoundsOutOfRange,
            other => panic!("an answer that the header does not have: {other}"),
        })
    }

    /// `Ok` at 0.
    pub(crate) fn check(answer: u64) -> Result<(), Self> {
        Self::of(answer, 0).map_or(Ok(()), Err)
    }
}

impl fmt::Display for Refusal {
    fn fmt(&self, f: &mut fmt::Formatter<'_>) -> fmt::Result {
        let text = match self {
            Self::Configuration => "the configuration is not valid",
            Self::OverDomain => "a price or a size is over 1,000,000,000",
            Self::BadQuote => "the quote is crossed or empty",
            Self::OffTick => "a price is off the tick",
            Self::EarlierTime => "the quote is earlier than the last one",
            Self::CountLimit => "a count passes its limit",
            Self::SliceLength => "a slice has a wrong length",
            Self::LastQuoteBroken => "the last quote is broken",
            Self::TotalsUnmirrored => "move totals do not match their mirrors",
            Self::CellsUnmirrored => "counts do not match their mirrors",
            Self::CellsNotTwicePairs => "the counts are not twice the pairs",
            Self::ImageLayout => "the image is not laid out as an image is",
            Self::ModelRow(row) => return write!(f, "row {row} of the model is bad (13)"),
            Self::RecordingUnsorted => "the recording is not in order of time",
            Self::WindowBackward => "the window is backward",
            Self::NoCalibratedState => "no state is calibrated",
            Self::SingularTransitions => "the transitions are singular",
            Self::NotConverged => "the series does not converge",
            Self::Unrepresentable => "an adjustment is not representable",
            Self::RoundsOutOfRange => "the rounds of a fit are out of range",
        };
        write!(f, "{text} ({})", self.number())
    }
}

impl std::error::Error for Refusal {}
