//! Images: damaged ones restored, what an accepted one goes on to do, and saves of calibrators that hold anything.
//!
//! The Rust's serde judges 1, 8, 9, 10 and 11. The image's bytes, 12, 7, 6, and 8 for a last quote over the domain are
//! document 01's alone and computed in `plain`.

use crate::compare::sides::{Sides, same_memory};
use crate::compare::{Case, Compared, Difference, Run, fits};
use crate::inputs::quotes::{self as inputs, LARGE, MIDDLE, SMALL};
use crate::paper::{CONFIG_WORDS, COUNTERS, Memory, QUOTE_WORDS, Quote, Record, Refusal, join};
use crate::plain::{self, HEADER, HEADER_WORDS, MOST_PAIRS, MOST_TOTAL, RECORD_AT};
use crate::port::Lent;
use crate::random::{self, Random};
use crate::rust::{self, Unrestored};
use crate::seen::{Operation, Rule, Seen};

pub fn run(run: &mut Run) -> Compared {
    every_byte(run)?;
    for (shapes, images) in [
        (&SMALL[..6], 850_000),
        (&SMALL[..], 60_000),
        (&MIDDLE[..], 600),
        (&LARGE[..], 200),
    ] {
        let mut left = run.times(images);
        while left > 0 {
            let memory = some_memory(&mut run.random, shapes);
            let image = plain::image(&memory);
            for _ in 0..left.min(20) {
                let mut damaged = image.clone();
                damage(&mut run.random, &mut damaged);
                if damaged != image {
                    run.seen.volume("damaged images restored", 1);
                }
                compare_restore(run, &damaged, memory.totals.len())?;
            }
            left = left.saturating_sub(20);
        }
    }
    for _ in 0..run.times(150_000) {
        let memory = any_memory(&mut run.random);
        compare_save(run.seen, &memory)?;
    }
    Ok(())
}

/// Every change of one byte of an image of three states; in a quick run 15 of the 255 at each byte.
fn every_byte(run: &mut Run) -> Compared {
    let step = if run.share == 1 { 1 } else { 17 };
    for _ in 0..3 {
        let memory = some_memory(&mut run.random, &SMALL[..1]);
        let image = plain::image(&memory);
        for at in 0..image.len() {
            for change in (1..=255).step_by(step) {
                let mut damaged = image.clone();
                damaged[at] ^= change;
                run.seen.volume("damaged images restored", 1);
                compare_restore(run, &damaged, 3)?;
            }
        }
    }
    Ok(())
}

// ---- inputs

/// A calibrator after some quotes, or with random tables.
pub fn some_memory(random: &mut Random, shapes: &[(u64, u64)]) -> Memory {
    let config = inputs::lively_config(random, shapes);
    let mut memory = if random.one_in(3) {
        Memory::of_tables(&random::tables(config, random))
    } else {
        Memory::new(config)
    };
    for _ in 0..random.below(12) {
        let last = memory.record.last;
        let quote = inputs::good_quote(random, &config, last.as_ref());
        plain::observe(&mut memory, &quote);
    }
    memory
}

/// A calibrator that may hold anything, as a caller can lend it to save.
fn any_memory(random: &mut Random) -> Memory {
    let mut memory = some_memory(random, &SMALL[..6]);
    let mut image = plain::image(&memory);
    // Damage to what only an image has, its header and its length, is left out.
    damage(random, &mut image);
    if image.len() == plain::image_length(memory.totals.len()) {
        let words = words_of(&image);
        let cells = memory.stay.len();
        let record = RECORD_AT.map(|at| words[at]);
        if record[0] == 1 || record[..COUNTERS] == [0; COUNTERS] {
            memory.record = Record::of_words(&record);
        }
        let (stay, rest) = words[HEADER_WORDS..].split_at(cells);
        let (moved, totals) = rest.split_at(cells);
        memory.stay.copy_from_slice(stay);
        memory.moved.copy_from_slice(moved);
        memory.totals = totals.iter().map(|v| v.cast_signed()).collect();
    }
    memory
}

fn words_of(image: &[u8]) -> Vec<u64> {
    let words = image.chunks_exact(8);
    words
        .map(|bytes| u64::from_le_bytes(bytes.try_into().expect("eight bytes")))
        .collect()
}

fn put(image: &mut [u8], at: usize, word: u64) {
    image[8 * at..8 * at + 8].copy_from_slice(&word.to_le_bytes());
}

/// Damages an image of whole words, or now and then leaves it whole.
pub fn damage(random: &mut Random, image: &mut Vec<u8>) {
    let words = image.len() / 8;
    match random.below(12) {
        0 => {
            let at = random.index(image.len());
            image[at] ^= 1 + random.below(255) as u8;
        }
        1 => change_word(random, image, 0, HEADER_WORDS),
        2 => change_word(random, image, HEADER_WORDS, words),
        3 => {
            let (a, b) = (random.index(words), random.index(words));
            let words = words_of(image);
            put(image, a, words[b]);
            put(image, b, words[a]);
        }
        4 => mirrored_change(random, image, true),
        5 => mirrored_change(random, image, false),
        6 => mirrored_totals(random, image),
        7 => last_quote(random, image),
        8 => {
            let length =
                random.choose(&[0, 8, HEADER - 1, HEADER, image.len() - 1, image.len() + 1]);
            image.resize(length, 0);
        }
        9 => {
            for _ in 0..1 + random.below(4) {
                let at = random.index(words);
                let word = random.word() >> random.below(64);
                put(image, at, word);
            }
        }
        10 => huge_cells(random, image),
        _ => {}
    }
}

fn change_word(random: &mut Random, image: &mut [u8], from: usize, to: usize) {
    let at = from + random.index(to - from);
    let word = words_of(image)[at];
    put(image, at, inputs::special_word(random, word));
}

/// A cell and its mirror changed alike, and the pairs with them or not.
fn mirrored_change(random: &mut Random, image: &mut [u8], with_pairs: bool) {
    let Ok(memory) = plain::read_image(image) else {
        return;
    };
    let (config, states) = (memory.config, memory.totals.len());
    let (x, y) = (random.index(states), random.index(states));
    let table = HEADER_WORDS + states * states * random.index(2);
    let (cell, mirror) = (x * states + y, config.mirror(x) * states + config.mirror(y));
    let words = words_of(image);
    let more = if random.one_in(4) {
        MOST_PAIRS / 2
    } else {
        1 + random.below(3)
    };
    // A cell that is its own mirror holds each of its pairs twice.
    let (more, pairs) = if cell == mirror {
        (2 * more, more)
    } else {
        (more, more)
    };
    put(image, table + cell, words[table + cell].wrapping_add(more));
    put(
        image,
        table + mirror,
        words[table + cell].wrapping_add(more),
    );
    if with_pairs {
        let at = RECORD_AT[COUNTERS];
        put(image, at, words[at].wrapping_add(pairs));
    }
}

/// Two mirrored totals made opposite, at or beside their limits.
fn mirrored_totals(random: &mut Random, image: &mut [u8]) {
    let Ok(memory) = plain::read_image(image) else {
        return;
    };
    let states = memory.totals.len();
    let x = random.index(states);
    let first = image.len() / 8 - states;
    let size = random.choose(&[
        1,
        MOST_TOTAL - 1,
        MOST_TOTAL,
        MOST_TOTAL + 1,
        1 << 60,
        1u64 << 63,
    ]);
    put(image, first + x, size);
    put(image, first + memory.config.mirror(x), size.wrapping_neg());
}

/// A last quote that nothing or something refuses.
fn last_quote(random: &mut Random, image: &mut [u8]) {
    let Ok(memory) = plain::read_image(image) else {
        return;
    };
    let last = memory.record.last;
    let mut quote = inputs::quote(random, &memory.config, last.as_ref());
    if random.one_in(2) {
        let mut words = quote.words();
        let at = random.index(QUOTE_WORDS);
        words[at] = inputs::special_word(random, words[at]);
        quote = Quote::of_words(&words);
    }
    put(image, RECORD_AT[0], 1);
    for (i, word) in quote.words().into_iter().enumerate() {
        put(image, RECORD_AT[1 + i], word);
    }
}

/// Mirrored cells so large that their sum may pass 64 bits, and now and then something unmirrored after them.
fn huge_cells(random: &mut Random, image: &mut [u8]) {
    let Ok(memory) = plain::read_image(image) else {
        return;
    };
    let (config, states) = (memory.config, memory.totals.len());
    for _ in 0..1 + random.below(3) {
        let (x, y) = (random.index(states), random.index(states));
        let size = random.choose(&[1 << 62, 1 << 63, u64::MAX]);
        let mirrored = config.mirror(x) * states + config.mirror(y);
        put(image, HEADER_WORDS + x * states + y, size);
        put(image, HEADER_WORDS + mirrored, size);
    }
    if random.one_in(3) {
        change_word(random, image, HEADER_WORDS, image.len() / 8);
    }
}

// ---- restore

/// What restore has to answer, and the memory that the image tells if its layout is right.
pub struct Told {
    pub answer: u64,
    pub memory: Option<Memory>,
}

/// Judges an image that is restored into the tables of so many states. The Rust is asked wherever it can be.
pub fn judge(seen: &mut Seen, image: &[u8], states: usize) -> Result<Told, Difference> {
    let memory = match plain::read_image(image) {
        Err(answer) => {
            judge_config(image, answer)?;
            return Ok(Told {
                answer,
                memory: None,
            });
        }
        Ok(memory) => memory,
    };
    let answer = if memory.totals.len() == states {
        plain::memory_refusal(&memory)
    } else {
        7
    };
    judge_by_rust(seen, &memory)?;
    Ok(Told {
        answer,
        memory: Some(memory),
    })
}

/// An image with a whole header is refused by 1 exactly if the Rust refuses its configuration or its tick is over the domain.
fn judge_config(image: &[u8], answer: u64) -> Compared {
    if image.len() < HEADER {
        return Ok(());
    }
    let words = words_of(image);
    let config = plain::config_in(&words);
    let case = Case {
        operation: Operation::Restore,
        input: &|| format!("header {}", join(&words[..HEADER_WORDS])),
    };
    case.equal(
        "the Rust's judgement of the configuration",
        answer == 1,
        rust::config(&config).is_err(),
    )
}

/// The Rust's serde on what an image tells: it must say what `plain` says, but for the listed differences.
fn judge_by_rust(seen: &mut Seen, memory: &Memory) -> Compared {
    let case = Case {
        operation: Operation::Restore,
        input: &|| memory.print(),
    };
    if memory.record.last.is_some_and(|last| last.over_domain()) {
        seen.rule(Rule::LastOverDomain);
        return Ok(());
    }
    let rust = rust::restore(memory).err();
    let walk = plain::walk(memory);
    let broken = plain::memory_refusal(memory) == 8;
    let mut want = if broken { 8 } else { walk.answer };
    if plain::memory_refusal(memory) == 6 {
        seen.rule(Rule::CountsOverLimit);
    }
    if !broken && walk.passes_64_bits {
        seen.rule(Rule::SumOver64Bits);
        want = 64;
    }
    let rust = rust.map_or(0, |unrestored| match unrestored {
        Unrestored::Refused(Refusal(number)) => u64::from(number),
        Unrestored::SumOverflows => 64,
    });
    case.equal("the Rust's judgement (64: its sum overflows)", want, rust)
}

/// Restores an image into memory that holds anything; an accepted one goes on with quotes, a fit and a save.
fn compare_restore(run: &mut Run, image: &[u8], states: usize) -> Compared {
    let told = judge(run.seen, image, states)?;
    let random = &mut run.random;
    let mut lent = Lent {
        config: vec![random.word(); CONFIG_WORDS],
        rec: inputs::any_record(random).words().to_vec(),
        stay: vec![random.word(); states * states],
        moved: vec![random.word(); states * states],
        totals: vec![random.word().cast_signed(); states],
    };
    let before = lent.clone();
    let answer = lent.restore(image);
    run.seen.answer(Operation::Restore, answer);
    run.seen.volume("images restored", 1);
    let case = Case {
        operation: Operation::Restore,
        input: &|| {
            format!(
                "image words {}, bytes {}",
                join(&words_of(image)),
                image.len()
            )
        },
    };
    case.equal("answer", answer, told.answer)?;
    match told.memory.filter(|_| answer == 0) {
        None => case.holds("a refusal leaves the memory as it was", lent == before),
        Some(memory) => {
            same_memory(&case, &lent, &memory)?;
            go_on(run, lent, &memory)
        }
    }
}

/// What a restored calibrator does next: some quotes, a save that is read back, and now and then a fit.
fn go_on(run: &mut Run, lent: Lent, memory: &Memory) -> Compared {
    let mut sides = Sides::of(memory);
    sides.port = lent;
    for _ in 0..run.random.below(3) {
        let last = sides.plain.record.last;
        let quote = inputs::quote(&mut run.random, &memory.config, last.as_ref());
        sides.quote(run.seen, &quote)?;
        run.seen.volume("quotes given to a restored calibrator", 1);
    }
    if run.random.one_in(8) {
        sides.whole(Operation::Quote)?;
    }
    compare_save(run.seen, &sides.plain)?;
    if memory.totals.len() <= 27 && run.random.one_in(8) {
        fits::compare_fit(run.seen, &sides.plain)?;
    }
    Ok(())
}

// ---- save

/// A save of a calibrator that may hold anything.
fn compare_save(seen: &mut Seen, memory: &Memory) -> Compared {
    let lent = Lent::of(memory);
    let image = plain::image(memory);
    let mut out = vec![0xa5; image.len()];
    let answer = lent.save(&mut out);
    seen.answer(Operation::Save, answer);
    seen.volume("saves of calibrators that hold anything", 1);
    let case = Case {
        operation: Operation::Save,
        input: &|| memory.print(),
    };
    judge_by_rust(seen, memory)?;
    case.equal("answer", answer, plain::memory_refusal(memory))?;
    if answer == 0 {
        case.same("image", &out, &image)
    } else {
        case.holds(
            "a refusal leaves the output as it was",
            out.iter().all(|b| *b == 0xa5),
        )
    }
}
