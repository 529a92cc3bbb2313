use crate::calibrator::Calibrator;
use crate::config::Config;
use crate::model::Model;
use crate::refusal::Refusal;
use crate::sys;

/// The quotes of a recording with start ≤ time < end, as a part of the caller's own words; `sys::QUOTE_WORDS` are a quote.
/// Refusals: 7, 14, 15.
pub fn quotes_in(recording: &[u64], start: u64, end: u64) -> Result<&[u64], Refusal> {
    let (mut first, mut past) = (0, 0);
    // SAFETY: the pointer and the length are those of one slice; `first` and `past` are two numbers.
    let answer = unsafe {
        sys::micro_price_window_of(
            recording.as_ptr(),
            recording.len(),
            start,
            end,
            &mut first,
            &mut past,
        )
    };
    let place = |quote: u64| sys::QUOTE_WORDS * quote as usize;
    Refusal::check(answer).map(|()| &recording[place(first)..place(past)])
}

/// What an evening's calibration answers.
#[derive(Debug, Clone, PartialEq, Eq)]
pub struct Evening {
    /// The calibrator after the quotes of the window.
    pub calibrator: Calibrator,
    /// Quotes of the window that 3 or 4 refused.
    pub invalid: u64,
    /// The model, or why there is none: 16, 17, 18 or 19.
    pub fit: Result<Model, Refusal>,
}

/// Counts the quotes of a recording with start ≤ time < end from new, and fits the counts with the default rounds.
/// Refusals before the fit: 7, 14, 15, 1, then 2 or 6 at a quote.
pub fn calibrate(
    config: Config,
    recording: &[u64],
    start: u64,
    end: u64,
) -> Result<Evening, Refusal> {
    let mut calibrator = Calibrator::zeros(&config);
    let states = calibrator.move_half_ticks.len();
    let mut scratch = vec![0.0; sys::scratch_length(states)];
    let mut model = vec![0; sys::model_length(states)];
    let mut invalid = 0;
    // SAFETY: each pointer and its length are those of one array, vector or slice, and no two are the same.
    let answer = unsafe {
        sys::micro_price_calibrate(
            calibrator.config.as_ptr(),
            calibrator.config.len(),
            calibrator.rec.as_mut_ptr(),
            calibrator.rec.len(),
            calibrator.stay.as_mut_ptr(),
            calibrator.stay.len(),
            calibrator.moved.as_mut_ptr(),
            calibrator.moved.len(),
            calibrator.move_half_ticks.as_mut_ptr(),
            calibrator.move_half_ticks.len(),
            recording.as_ptr(),
            recording.len(),
            start,
            end,
            scratch.as_mut_ptr(),
            scratch.len(),
            model.as_mut_ptr(),
            model.len(),
            &mut invalid,
        )
    };
    let fit = match Refusal::of(answer, 0) {
        None => Ok(Model::from_words(config, model)),
        Some(refusal) if refusal.number() >= 16 => Err(refusal),
        Some(refusal) => return Err(refusal),
    };
    Ok(Evening {
        calibrator,
        invalid,
        fit,
    })
}
