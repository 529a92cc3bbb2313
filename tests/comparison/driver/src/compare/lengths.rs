//! Wrong lengths (7), words that are no configuration or record (100), records of any words that are overwritten, and that
//! a refusal changes no lent memory. The Rust owns its memory and has none of this: everything here is judged by document 01
//! and the ABI's own rules, in `plain` and below.

use crate::compare::sides::same_memory;
use crate::compare::{Case, Compared, Run, fits, images};
use crate::inputs::models::fine_model;
use crate::inputs::quotes::{self as inputs, SMALL};
use crate::paper::{
    CALL_WORDS, CONFIG_WORDS, COUNTERS, Config, Memory, QUOTE_WORDS, Quote, RECORD_WORDS, Record,
    SIGNAL_WORDS, join,
};
use crate::plain;
use crate::port::{self, BAD_ENCODING, Lent, Room};
use crate::random::Random;
use crate::seen::{Operation, Seen};

/// What memory that was not cleared may hold.
const UNCLEARED: u64 = 0xa5a5_a5a5_a5a5_a5a5;

/// A word that stands where nothing is to be written.
const UNWRITTEN: u64 = 0x7777;

pub fn run(run: &mut Run) -> Compared {
    for _ in 0..run.times(60_000) {
        let lent = bent(&mut run.random);
        quote(run, &lent)?;
        new(run.seen, &lent)?;
        save(run, &lent)?;
        restore(run, &lent)?;
        fit(run, &lent)?;
        evening(run, &lent)?;
        model(run)?;
        signal(run)?;
        window(run)?;
        replay(run, &lent)?;
    }
    Ok(())
}

// ---- inputs

fn other_length(random: &mut Random, length: usize) -> usize {
    random.choose(&[0, 1, length.saturating_sub(1), length + 1, 2 * length])
}

/// A calibrator's memory with up to two things wrong with it.
pub fn bent(random: &mut Random) -> Lent {
    let mut lent = Lent::of(&images::some_memory(random, &SMALL[..5]));
    for _ in 0..random.below(3) {
        let any = random.word() as usize;
        let length = |random: &mut Random, slice: usize| other_length(random, slice);
        match random.below(10) {
            0 => lent.config.resize(length(random, lent.config.len()), 3),
            1 => lent.rec.resize(length(random, lent.rec.len()), 0),
            2 if lent.rec.len() == RECORD_WORDS => lent.rec[0] = inputs::special_word(random, 1),
            3 if lent.rec.len() == RECORD_WORDS => {
                lent.rec[1 + any % QUOTE_WORDS] ^= 1 << random.below(64);
            }
            4 => lent.stay.resize(length(random, lent.stay.len()), 0),
            5 => lent.moved.resize(length(random, lent.moved.len()), 0),
            6 => lent.totals.resize(length(random, lent.totals.len()), 0),
            7 if lent.config.len() == CONFIG_WORDS => {
                let word = &mut lent.config[any % CONFIG_WORDS];
                *word = inputs::special_word(random, *word);
            }
            8 => lent.rec.fill(UNCLEARED),
            _ => {}
        }
    }
    lent
}

/// As many words as there should be: all that new, restore and the evening ask of a configuration's words and of the record.
fn right_words(lent: &Lent) -> bool {
    lent.config.len() == CONFIG_WORDS && lent.rec.len() == RECORD_WORDS
}

/// A record's words: 1 and a quote, or 0 and zeros; then any counters.
fn is_record(rec: &[u64]) -> bool {
    rec.len() == RECORD_WORDS && (rec[0] == 1 || rec[..COUNTERS] == [0; COUNTERS])
}

/// The memory that is lent, or 100, 1 or 7.
fn told(lent: &Lent) -> Result<Memory, u64> {
    if right_words(lent) && !is_record(&lent.rec) {
        return Err(BAD_ENCODING);
    }
    overwritten(lent)
}

/// The same where the record is overwritten, whose words may be any.
fn overwritten(lent: &Lent) -> Result<Memory, u64> {
    if !right_words(lent) {
        return Err(BAD_ENCODING);
    }
    let config = Config::of_words(&lent.config);
    if !plain::valid(&config) {
        return Err(1);
    }
    fitting(lent, &config).ok_or(7)
}

/// The memory with this configuration, if the tables have its lengths.
fn fitting(lent: &Lent, config: &Config) -> Option<Memory> {
    let states = config.states();
    let lengths = [lent.stay.len(), lent.moved.len(), lent.totals.len()];
    (lengths == [states * states, states * states, states]).then(|| held(lent, config))
}

fn held(lent: &Lent, config: &Config) -> Memory {
    Memory {
        config: *config,
        record: Record::of_words(&lent.rec),
        stay: lent.stay.clone(),
        moved: lent.moved.clone(),
        totals: lent.totals.clone(),
    }
}

/// The memory that is lent, of any configuration and with tables of any lengths; none at 100.
pub fn read(lent: &Lent) -> Option<Memory> {
    let words = right_words(lent) && is_record(&lent.rec);
    words.then(|| held(lent, &Config::of_words(&lent.config)))
}

fn print(lent: &Lent) -> String {
    format!(
        "config {}\nrecord {}\nlengths of stay, moved and totals: {} {} {}\nstay {}\nmoved {}\ntotals {}\n",
        join(&lent.config),
        join(&lent.rec),
        lent.stay.len(),
        lent.moved.len(),
        lent.totals.len(),
        join(&lent.stay),
        join(&lent.moved),
        join(&lent.totals)
    )
}

/// Checks an answer, and what is lent after it: as it was if the answer is a refusal, else as wanted.
fn after(
    seen: &mut Seen,
    operation: Operation,
    (before, lent): (&Lent, &Lent),
    answer: u64,
    want: Result<Memory, u64>,
) -> Compared {
    seen.answer(operation, answer);
    seen.volume("calls with lengths and words of any kind", 1);
    let case = Case {
        operation,
        input: &|| print(before),
    };
    match want {
        Ok(memory) => {
            case.equal("answer", answer, 0)?;
            same_memory(&case, lent, &memory)
        }
        Err(number) => {
            case.equal("answer", answer, number)?;
            case.holds("a refusal leaves the memory as it was", lent == before)
        }
    }
}

// ---- the calibrator

fn some_quote(random: &mut Random, lent: &Lent) -> Quote {
    let config = match told(lent) {
        Ok(memory) => memory.config,
        Err(_) => inputs::config(random, &SMALL),
    };
    let last = is_record(&lent.rec)
        .then(|| Record::of_words(&lent.rec).last)
        .flatten();
    let last = last.filter(|last| !last.over_domain());
    inputs::quote(random, &config, last.as_ref())
}

fn quote(run: &mut Run, before: &Lent) -> Compared {
    let quote = some_quote(&mut run.random, before);
    let want = told(before).and_then(|mut memory| match plain::observe(&mut memory, &quote) {
        0 => Ok(memory),
        number => Err(number),
    });
    let mut lent = before.clone();
    let answer = lent.observe(&quote);
    after(run.seen, Operation::Quote, (before, &lent), answer, want)
}

fn new(seen: &mut Seen, before: &Lent) -> Compared {
    let want = overwritten(before).map(|memory| Memory::new(memory.config));
    let mut lent = before.clone();
    let answer = lent.start_new();
    after(seen, Operation::New, (before, &lent), answer, want)
}

fn save(run: &mut Run, lent: &Lent) -> Compared {
    let random = &mut run.random;
    let length = plain::image_length(lent.totals.len());
    let wrong = random.one_in(4);
    let length = if wrong {
        other_length(random, length)
    } else {
        length
    };
    let mut out = vec![0x5a; length];
    let memory = told(lent).and_then(|memory| {
        if length != plain::image_length(memory.totals.len()) {
            return Err(7);
        }
        match plain::memory_refusal(&memory) {
            0 => Ok(memory),
            number => Err(number),
        }
    });
    let answer = lent.save(&mut out);
    let want = memory.as_ref().map_or(vec![0x5a; length], plain::image);
    let case = Case {
        operation: Operation::Save,
        input: &|| print(lent),
    };
    case.same("output", &out, &want)?;
    after(run.seen, Operation::Save, (lent, lent), answer, memory)
}

fn restore(run: &mut Run, before: &Lent) -> Compared {
    let random = &mut run.random;
    let mut image = plain::image(&images::some_memory(random, &SMALL[..5]));
    if random.one_in(3) {
        images::damage(random, &mut image);
    }
    let want = if !right_words(before) {
        Err(BAD_ENCODING)
    } else {
        plain::read_image(&image).and_then(|memory| {
            fitting(before, &memory.config).ok_or(7u64)?;
            match plain::memory_refusal(&memory) {
                0 => Ok(memory),
                number => Err(number),
            }
        })
    };
    let mut lent = before.clone();
    let answer = lent.restore(&image);
    after(run.seen, Operation::Restore, (before, &lent), answer, want)
}

// ---- the fit and the evening

/// Room of the right lengths, or not.
pub fn some_room(random: &mut Random, states: usize) -> Room {
    let mut room = Room::used(states);
    match random.below(6) {
        0 => room
            .scratch
            .resize(other_length(random, room.scratch.len()), 7.25),
        1 => room
            .model
            .resize(other_length(random, room.model.len()), 0x5555),
        _ => {}
    }
    room
}

fn room_fits(room: &Room, states: usize) -> bool {
    let lengths = [room.scratch.len(), room.model.len()];
    lengths == [plain::scratch_length(states), plain::model_length(states)]
}

fn fit(run: &mut Run, lent: &Lent) -> Compared {
    let mut room = some_room(&mut run.random, lent.totals.len());
    let unused = room.clone();
    let memory = told(lent).and_then(|memory| {
        if room_fits(&room, memory.totals.len()) {
            return Ok(memory);
        }
        Err(7)
    });
    match memory {
        Ok(memory) => fits::compare_fit(run.seen, &memory),
        Err(number) => {
            let answer = lent.fit(&mut room.scratch, &mut room.model);
            let case = Case {
                operation: Operation::Fit,
                input: &|| print(lent),
            };
            case.holds("scratch and model table are as they were", room == unused)?;
            after(run.seen, Operation::Fit, (lent, lent), answer, Err(number))
        }
    }
}

/// Some bad quotes and a window, seldom with a word too many.
fn some_recording(random: &mut Random) -> (Vec<u64>, (u64, u64)) {
    let times: Vec<u64> = (0..random.below(5)).map(|_| random.below(4)).collect();
    let quote = |time: &u64| -> [u64; QUOTE_WORDS] { [*time, 0, 1, 1, 1] };
    let mut recording: Vec<u64> = times.iter().flat_map(quote).collect();
    if random.one_in(6) {
        recording.push(0);
    }
    (recording, (random.below(5), random.below(5)))
}

/// What an evening is refused by before it counts: 100, 7 of the recording, 14, 15, 1, 7 of the others; or 0.
fn evening_refusal(lent: &Lent, recording: &[u64], window: (u64, u64), room: &Room) -> u64 {
    if !right_words(lent) {
        return BAD_ENCODING;
    }
    if !recording.len().is_multiple_of(QUOTE_WORDS) {
        return 7;
    }
    let times: Vec<u64> = recording
        .chunks(QUOTE_WORDS)
        .map(|quote| quote[0])
        .collect();
    match plain::window(&times, window.0, window.1).and_then(|_| overwritten(lent)) {
        Ok(memory) if room_fits(room, memory.totals.len()) => 0,
        Ok(_) => 7,
        Err(number) => number,
    }
}

/// An evening that is refused before it counts changes nothing; one that counts bad quotes alone leaves a new calibrator: 16.
fn evening(run: &mut Run, before: &Lent) -> Compared {
    let (recording, window) = some_recording(&mut run.random);
    let mut room = some_room(&mut run.random, before.totals.len());
    let mut unused = room.clone();
    let want = evening_refusal(before, &recording, window, &room);
    let (mut lent, mut invalid) = (before.clone(), UNWRITTEN);
    let answer = lent.calibrate(&recording, window, &mut room, &mut invalid);
    let case = Case {
        operation: Operation::Evening,
        input: &|| format!("{}recording {}", print(before), join(&recording)),
    };
    if want == 0 {
        run.seen.answer(Operation::Evening, answer);
        let inside = |quote: &&[u64]| window.0 <= quote[0] && quote[0] < window.1;
        let bad = recording.chunks(QUOTE_WORDS).filter(inside).count() as u64;
        unused.scratch.fill(0.0);
        case.equal("answer and invalid quotes", (answer, invalid), (16, bad))?;
        case.holds(
            "scratch is zero and the model table as it was",
            room == unused,
        )?;
        return same_memory(&case, &lent, &Memory::new(Config::of_words(&before.config)));
    }
    let untouched = room == unused && invalid == UNWRITTEN;
    case.holds("room and invalid quotes are as they were", untouched)?;
    after(
        run.seen,
        Operation::Evening,
        (before, &lent),
        answer,
        Err(want),
    )
}

// ---- models, signals and windows

/// A configuration's words and a model table, of any lengths.
struct Lengths {
    config: Vec<u64>,
    model: Vec<u64>,
}

fn some_lengths(random: &mut Random) -> Lengths {
    let config = match random.below(3) {
        0 => inputs::changed_config(random),
        _ => inputs::config(random, &SMALL[..4]),
    };
    let mut lent = Lengths {
        config: config.words().to_vec(),
        model: if plain::valid(&config) {
            fine_model(random, &config)
        } else {
            vec![0; plain::model_length(3)]
        },
    };
    if random.one_in(2) {
        let length = other_length(random, lent.model.len());
        lent.model.resize(length, 0);
    }
    if random.one_in(4) {
        lent.config.resize(other_length(random, CONFIG_WORDS), 1);
    }
    lent
}

/// 100, 1 or 7 of a model check, or 0.
fn model_refusal(lent: &Lengths) -> u64 {
    if lent.config.len() != CONFIG_WORDS {
        return BAD_ENCODING;
    }
    let config = Config::of_words(&lent.config);
    if !plain::valid(&config) {
        1
    } else if lent.model.len() != plain::model_length(config.states()) {
        7
    } else {
        0
    }
}

fn model(run: &mut Run) -> Compared {
    let lent = some_lengths(&mut run.random);
    let input = || format!("config {}, {} words", join(&lent.config), lent.model.len());
    let case = |operation| Case {
        operation,
        input: &input,
    };
    let want = model_refusal(&lent);
    let mut row = UNWRITTEN;
    let answer = port::check_model(&lent.config, &lent.model, &mut row);
    run.seen.answer(Operation::ModelCheck, answer);
    case(Operation::ModelCheck).equal("answer and row", (answer, row), (want, UNWRITTEN))?;
    let answer = port::validate(&lent.config);
    run.seen.answer(Operation::Validate, answer);
    let want = if want == 7 { 0 } else { want };
    case(Operation::Validate).equal("answer", answer, want)
}

fn signal(run: &mut Run) -> Compared {
    let lent = some_lengths(&mut run.random);
    let random = &mut run.random;
    let length = if random.one_in(4) {
        other_length(random, SIGNAL_WORDS)
    } else {
        SIGNAL_WORDS
    };
    let mut out = vec![UNWRITTEN; length];
    let want = match model_refusal(&lent) {
        _ if length != SIGNAL_WORDS => BAD_ENCODING,
        // A quote over the domain, which comes after 1 and 7.
        0 => 2,
        number => number,
    };
    let quote = Quote::of_words(&[1, 0, 0, 0, u64::MAX]);
    let mut row = UNWRITTEN;
    let answer = port::signal(&lent.config, &lent.model, &quote, &mut out, &mut row);
    run.seen.answer(Operation::Signal, answer);
    let case = Case {
        operation: Operation::Signal,
        input: &|| format!("config {}, {} words", join(&lent.config), lent.model.len()),
    };
    let untouched = row == UNWRITTEN && out.iter().all(|word| *word == UNWRITTEN);
    case.equal("answer", answer, want)?;
    case.holds("row and output are as they were", untouched)
}

fn window(run: &mut Run) -> Compared {
    let length = run.random.index(24);
    let recording: Vec<u64> = (0..length).map(|_| run.random.below(3)).collect();
    if length.is_multiple_of(QUOTE_WORDS) {
        return Ok(());
    }
    let (mut first, mut past) = (1, 2);
    let answer = port::window_of(&recording, 0, 3, &mut first, &mut past);
    run.seen.answer(Operation::Window, answer);
    let case = Case {
        operation: Operation::Window,
        input: &|| format!("recording {}", join(&recording)),
    };
    case.equal("answer and part", (answer, first, past), (7, 1, 2))
}

// ---- replay

/// A quote and a save as calls, or something that is not well coded; with the answers' room.
struct Coded {
    calls: Vec<u64>,
    answers: Vec<u64>,
    well: bool,
}

fn coded(random: &mut Random, quote: &Quote, long: usize) -> Coded {
    let mut calls = vec![0];
    calls.extend(quote.words());
    calls.extend([1, 3, long as u64, 0, 0, 0]);
    let mut coded = Coded {
        calls,
        answers: vec![UNWRITTEN; 2],
        well: random.one_in(2),
    };
    if !coded.well {
        match random.below(4) {
            0 => coded.calls.truncate(2 * CALL_WORDS - 1),
            1 => coded.answers.push(UNWRITTEN),
            2 => coded.calls[CALL_WORDS] = random.choose(&[3, 4, 1 << 32, u64::MAX]),
            _ => coded.calls[CALL_WORDS + 1] = random.choose(&[4, u64::MAX, u64::MAX - 7, 1 << 63]),
        }
    }
    coded
}

/// Replay of memory of any kind answers as the calls one by one; a list that is not well coded changes nothing.
fn replay(run: &mut Run, before: &Lent) -> Compared {
    let quote = some_quote(&mut run.random, before);
    let long = plain::image_length(before.totals.len());
    let mut coded = coded(&mut run.random, &quote, long);
    let (mut lent, mut room) = (before.clone(), vec![0x33; long + 3]);
    let answer = lent.replay(&coded.calls, &mut room, &mut coded.answers);
    run.seen.answer(Operation::Replay, answer);
    let case = Case {
        operation: Operation::Replay,
        input: &|| format!("{}calls {}", print(before), join(&coded.calls)),
    };
    if !coded.well || !right_words(before) || !is_record(&before.rec) {
        let untouched = lent == *before
            && room.iter().all(|b| *b == 0x33)
            && coded.answers.iter().all(|a| *a == UNWRITTEN);
        case.equal("answer", answer, BAD_ENCODING)?;
        return case.holds("nothing is changed", untouched);
    }
    let mut other = before.clone();
    let mut out = vec![0x33; long];
    let want = [other.observe(&quote), other.save(&mut out)];
    case.equal("answer", answer, 0)?;
    case.same("answers", &coded.answers, &want)?;
    case.equal("memory", &lent, &other)?;
    case.same("room", &room[3..], &out)
}
