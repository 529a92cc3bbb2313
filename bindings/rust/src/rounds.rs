/// How many rounds a fit may make. Any numbers can stand in it; a fit refuses those outside of their ranges.
#[derive(Debug, Clone, Copy, PartialEq, Eq, Hash)]
pub struct Rounds {
    /// Most rounds of the series: 1 to 10,000.
    pub series: u64,
    /// Rounds of the share, each a move of the mid: at most 100.
    pub fallback: u64,
}

impl Rounds {
    /// The series rounds of a fit that does not set them.
    pub const MAX_SERIES_TERMS: u64 = 10_000;
    /// The fallback rounds of a fit that does not set them.
    pub const FALLBACK_HORIZON_MOVES: u64 = 10;
    /// The most series rounds: document 02, Q-10.
    pub const SERIES_ROUNDS_LIMIT: u64 = 10_000;
    /// The most fallback rounds.
    pub const FALLBACK_ROUNDS_LIMIT: u64 = 100;
}

/// The two defaults, which an evening keeps.
impl Default for Rounds {
    fn default() -> Self {
        Self {
            series: Self::MAX_SERIES_TERMS,
            fallback: Self::FALLBACK_HORIZON_MOVES,
        }
    }
}
