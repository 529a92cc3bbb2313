//! The functions of `include/micro_price.h` as they are, and its numbers for what they are lent; the header says what each
//! takes and answers. Each number stands here once, by the header's name.

/// What `micro_price_replay` answers for the restore of an image with another configuration, which it does not make.
pub const OTHER_CONFIGURATION: u64 = 101;

/// Words of a configuration.
pub const CONFIG_WORDS: usize = 5;
/// Words of a record.
pub const RECORD_WORDS: usize = 10;
/// Words of a quote.
pub const QUOTE_WORDS: usize = 5;
/// Words of a row of the model.
pub const ROW_WORDS: usize = 7;
/// Words of a signal.
pub const SIGNAL_WORDS: usize = 4;
/// Words of a call of a replay.
pub const CALL_WORDS: usize = 6;

/// Bytes of an image's header.
pub const IMAGE_HEADER: usize = 160;

/// The word of an image that is N.
pub const IMAGE_STATES: usize = 0;
/// That of the imbalance buckets n.
pub const IMAGE_BUCKETS: usize = 1;
/// That of the spread states s.
pub const IMAGE_SPREAD_STATES: usize = 2;
/// That of the tick.
pub const IMAGE_TICK: usize = 3;
/// That of the least observations.
pub const IMAGE_MIN_STATE_OBSERVATIONS: usize = 4;
/// That of the largest gap.
pub const IMAGE_MAX_QUOTE_GAP_MS: usize = 5;

/// The kind of a call that gives a quote.
pub const CALL_QUOTE: u64 = 0;
/// That of one that saves.
pub const CALL_SAVE: u64 = 1;
/// That of one that restores.
pub const CALL_RESTORE: u64 = 2;

/// Floats of scratch for so many states.
pub const fn scratch_length(states: usize) -> usize {
    states * (2 * states + 10)
}

/// Words of a model for so many states.
pub const fn model_length(states: usize) -> usize {
    ROW_WORDS * states
}

/// Bytes of an image of so many states.
pub const fn image_length(states: usize) -> usize {
    IMAGE_HEADER + 16 * states * states + 8 * states
}

unsafe extern "C" {
    pub fn micro_price_validate(config: *const u64, config_len: usize) -> u64;

    pub fn micro_price_new(
        config: *const u64,
        config_len: usize,
        rec: *mut u64,
        rec_len: usize,
        stay: *mut u64,
        stay_len: usize,
        moved: *mut u64,
        moved_len: usize,
        move_half_ticks: *mut i64,
        move_half_ticks_len: usize,
    ) -> u64;

    pub fn micro_price_observe(
        config: *const u64,
        config_len: usize,
        rec: *mut u64,
        rec_len: usize,
        stay: *mut u64,
        stay_len: usize,
        moved: *mut u64,
        moved_len: usize,
        move_half_ticks: *mut i64,
        move_half_ticks_len: usize,
        timestamp_ms: u64,
        bid: u64,
        ask: u64,
        bid_size: u64,
        ask_size: u64,
    ) -> u64;

    pub fn micro_price_save(
        config: *const u64,
        config_len: usize,
        rec: *const u64,
        rec_len: usize,
        stay: *const u64,
        stay_len: usize,
        moved: *const u64,
        moved_len: usize,
        move_half_ticks: *const i64,
        move_half_ticks_len: usize,
        out: *mut u8,
        out_len: usize,
    ) -> u64;

    pub fn micro_price_restore(
        image: *const u8,
        image_len: usize,
        config: *mut u64,
        config_len: usize,
        rec: *mut u64,
        rec_len: usize,
        stay: *mut u64,
        stay_len: usize,
        moved: *mut u64,
        moved_len: usize,
        move_half_ticks: *mut i64,
        move_half_ticks_len: usize,
    ) -> u64;

    pub fn micro_price_fit_counts(
        config: *const u64,
        config_len: usize,
        rec: *const u64,
        rec_len: usize,
        stay: *const u64,
        stay_len: usize,
        moved: *const u64,
        moved_len: usize,
        move_half_ticks: *const i64,
        move_half_ticks_len: usize,
        scratch: *mut f64,
        scratch_len: usize,
        model: *mut u64,
        model_len: usize,
    ) -> u64;

    pub fn micro_price_fit_counts_with(
        config: *const u64,
        config_len: usize,
        rec: *const u64,
        rec_len: usize,
        stay: *const u64,
        stay_len: usize,
        moved: *const u64,
        moved_len: usize,
        move_half_ticks: *const i64,
        move_half_ticks_len: usize,
        series_rounds: u64,
        fallback_rounds: u64,
        scratch: *mut f64,
        scratch_len: usize,
        model: *mut u64,
        model_len: usize,
    ) -> u64;

    pub fn micro_price_check_model(
        config: *const u64,
        config_len: usize,
        model: *const u64,
        model_len: usize,
        row: *mut u64,
    ) -> u64;

    pub fn micro_price_signal(
        config: *const u64,
        config_len: usize,
        model: *const u64,
        model_len: usize,
        timestamp_ms: u64,
        bid: u64,
        ask: u64,
        bid_size: u64,
        ask_size: u64,
        out: *mut u64,
        out_len: usize,
        row: *mut u64,
    ) -> u64;

    pub fn micro_price_window_of(
        recording: *const u64,
        recording_len: usize,
        start: u64,
        end: u64,
        first: *mut u64,
        past: *mut u64,
    ) -> u64;

    pub fn micro_price_calibrate(
        config: *const u64,
        config_len: usize,
        rec: *mut u64,
        rec_len: usize,
        stay: *mut u64,
        stay_len: usize,
        moved: *mut u64,
        moved_len: usize,
        move_half_ticks: *mut i64,
        move_half_ticks_len: usize,
        recording: *const u64,
        recording_len: usize,
        start: u64,
        end: u64,
        scratch: *mut f64,
        scratch_len: usize,
        model: *mut u64,
        model_len: usize,
        invalid: *mut u64,
    ) -> u64;

    pub fn micro_price_replay(
        config: *const u64,
        config_len: usize,
        rec: *mut u64,
        rec_len: usize,
        stay: *mut u64,
        stay_len: usize,
        moved: *mut u64,
        moved_len: usize,
        move_half_ticks: *mut i64,
        move_half_ticks_len: usize,
        calls: *const u64,
        calls_len: usize,
        room: *mut u8,
        room_len: usize,
        answers: *mut u64,
        answers_len: usize,
    ) -> u64;
}
