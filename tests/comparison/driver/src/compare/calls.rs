//! Lists of calls: quotes, saves and restores mixed. Each list is made call by call on all sides, and once more by the port's
//! replay, which must answer the same and leave the same memory and the same bytes.

use crate::compare::sides::{Sides, same_memory};
use crate::compare::{Case, Compared, Difference, Run, fits, images, smallest};
use crate::inputs::quotes::{self as inputs, LARGE, MIDDLE, SMALL};
use crate::paper::{CALL_WORDS, Config, Memory, Quote, join};
use crate::plain;
use crate::port::{self, Lent};
use crate::random::Random;
use crate::seen::{Operation, Rule, Seen};

/// A call. A save or restore names bytes in the room.
#[derive(Debug, Clone, Copy)]
enum Call {
    Quote(Quote),
    Save { at: usize, length: usize },
    Restore { at: usize, length: usize },
}

impl Call {
    fn words(&self) -> [u64; CALL_WORDS] {
        let bytes = |kind, at: usize, length: usize| [kind, at as u64, length as u64, 7, 8, 9];
        match self {
            Call::Quote(quote) => {
                let [time, bid, ask, bid_size, ask_size] = quote.words();
                [0, time, bid, ask, bid_size, ask_size]
            }
            Call::Save { at, length } => bytes(1, *at, *length),
            Call::Restore { at, length } => bytes(2, *at, *length),
        }
    }
}

/// A new calibrator's configuration, the room as it is at first, and the calls.
struct List {
    config: Config,
    room: Vec<u8>,
    calls: Vec<Call>,
}

pub fn run(run: &mut Run) -> Compared {
    for (shapes, lists, length) in [
        (&SMALL[..], 45_000, 45),
        (&MIDDLE[..], 400, 100),
        (&LARGE[..], 250, 150),
    ] {
        for _ in 0..run.times(lists) {
            let list = random_list(&mut run.random, shapes, length);
            compare_list(run.seen, &list).map_err(|found| {
                smallest(&list.calls, found, |calls| {
                    compare_list(
                        &mut Seen::default(),
                        &List {
                            config: list.config,
                            room: list.room.clone(),
                            calls: calls.to_vec(),
                        },
                    )
                })
            })?;
        }
    }
    Ok(())
}

/// Three places for images, the first two empty. The third has at first a damaged image, or one of another configuration.
fn random_list(random: &mut Random, shapes: &[(u64, u64)], length: u64) -> List {
    let config = if random.one_in(8) {
        inputs::config(random, shapes)
    } else {
        inputs::lively_config(random, shapes)
    };
    let long = plain::image_length(config.states());
    let mut room = vec![0; 2 * long];
    room.extend(foreign_image(random, &config));
    let mut calls = Vec::new();
    let mut last = None;
    for _ in 0..1 + random.below(2 * length) {
        let at = long * random.index(3);
        let wrong = random.one_in(8);
        let length = if wrong {
            random.choose(&[0, 8, long - 1])
        } else {
            long
        };
        calls.push(match random.below(20) {
            0 => Call::Save { at, length },
            1 => Call::Restore { at, length },
            _ => {
                let quote = inputs::quote(random, &config, last.as_ref());
                if plain::quote_refusal(&config, &quote) == 0 {
                    last = Some(quote);
                }
                Call::Quote(quote)
            }
        });
    }
    List {
        config,
        room,
        calls,
    }
}

/// An image of as many states: of another tick or gap, or damaged.
fn foreign_image(random: &mut Random, config: &Config) -> Vec<u8> {
    let other = Config {
        tick: random.choose(&[config.tick, 1, 7]),
        gap: random.choose(&[config.gap, 5]),
        ..*config
    };
    let mut memory = Memory::new(other);
    for _ in 0..random.below(6) {
        let last = memory.record.last;
        let quote = inputs::quote(random, &other, last.as_ref());
        plain::observe(&mut memory, &quote);
    }
    let mut image = plain::image(&memory);
    if random.one_in(3) {
        images::damage(random, &mut image);
        image.resize(plain::image_length(config.states()), 0);
    }
    image
}

// ---- comparing a list

fn compare_list(seen: &mut Seen, list: &List) -> Compared {
    let mut sides = Sides::of(&Memory::new(list.config));
    let mut room = list.room.clone();
    let mut answers = Vec::new();
    let told = |difference: Difference| Difference {
        input: format!(
            "config {}\n{}{}",
            join(&list.config.words()),
            list.calls
                .iter()
                .map(|call| format!("call {}\n", join(&call.words())))
                .collect::<String>(),
            difference.input
        ),
        ..difference
    };
    for call in &list.calls {
        answers.push(compare_call(seen, &mut sides, &mut room, call).map_err(told)?);
    }
    seen.volume("lists of calls", 1);
    sides.whole(Operation::Quote).map_err(told)?;
    if sides.rust.is_some() && sides.plain.totals.len() <= 27 && list.calls.len().is_multiple_of(4)
    {
        seen.volume("fits after a list of calls", 1);
        fits::compare_fit(seen, &sides.plain).map_err(told)?;
    }
    compare_replay(seen, list, &sides, &room, &answers).map_err(told)
}

/// One call on all sides; its answer as replay numbers it.
fn compare_call(
    seen: &mut Seen,
    sides: &mut Sides,
    room: &mut [u8],
    call: &Call,
) -> Result<u64, Difference> {
    match call {
        Call::Quote(quote) => {
            seen.volume("quotes in lists of calls", 1);
            sides.quote(seen, quote)
        }
        Call::Save { at, length } => {
            seen.volume("saves in lists of calls", 1);
            save(seen, sides, &mut room[*at..at + length])
        }
        Call::Restore { at, length } => {
            seen.volume("restores in lists of calls", 1);
            restore(seen, sides, &room[*at..at + length])
        }
    }
}

fn save(seen: &mut Seen, sides: &Sides, out: &mut [u8]) -> Result<u64, Difference> {
    let memory = &sides.plain;
    let image = plain::image(memory);
    let refused = if out.len() == image.len() {
        plain::memory_refusal(memory)
    } else {
        7
    };
    let before = out.to_vec();
    let answer = sides.port.save(out);
    seen.answer(Operation::Save, answer);
    let case = Case {
        operation: Operation::Save,
        input: &|| memory.print(),
    };
    case.equal("answer", answer, refused)?;
    case.same("output", out, if refused == 0 { &image } else { &before })?;
    same_memory(&case, &sides.port, memory)?;
    Ok(answer)
}

/// A restore into the calibrator's own memory. One of another configuration is left out: the port's memory is put back.
fn restore(seen: &mut Seen, sides: &mut Sides, image: &[u8]) -> Result<u64, Difference> {
    let before = sides.plain.clone();
    let told = images::judge(seen, image, before.totals.len())?;
    let answer = sides.port.restore(image);
    seen.answer(Operation::Restore, answer);
    let case = Case {
        operation: Operation::Restore,
        input: &|| format!("into\n{}image {image:?}\n", before.print()),
    };
    case.equal("answer", answer, told.answer)?;
    let Some(memory) = told.memory.filter(|_| answer == 0) else {
        same_memory(&case, &sides.port, &before)?;
        return Ok(answer);
    };
    same_memory(&case, &sides.port, &memory)?;
    if memory.config != before.config {
        seen.rule(Rule::OtherConfiguration);
        sides.port = Lent::of(&before);
        return Ok(port::OTHER_CONFIGURATION);
    }
    *sides = Sides::of(&memory);
    Ok(0)
}

/// The same list by the port's replay.
fn compare_replay(
    seen: &mut Seen,
    list: &List,
    sides: &Sides,
    room: &[u8],
    answers: &[u64],
) -> Compared {
    let words: Vec<u64> = list.calls.iter().flat_map(Call::words).collect();
    let mut lent = Lent::of(&Memory::new(list.config));
    let mut replayed_room = list.room.clone();
    let mut replayed = vec![77; answers.len()];
    let answer = lent.replay(&words, &mut replayed_room, &mut replayed);
    seen.answer(Operation::Replay, answer);
    let case = Case {
        operation: Operation::Replay,
        input: &String::new,
    };
    case.equal("answer", answer, 0)?;
    case.same("answers", &replayed, answers)?;
    case.same("room", &replayed_room, room)?;
    same_memory(&case, &lent, &sides.plain)
}
