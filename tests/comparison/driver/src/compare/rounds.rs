//! Fits with other rounds than the defaults (document 02, Q-10). The Rust has none: `plain_fit` says what is wanted, which the
//! part on fits holds to the Rust at the defaults.

use crate::cases;
use crate::compare::{Case, Compared, Difference, Run, fits, lengths};
use crate::inputs::quotes::{LARGE, MIDDLE};
use crate::inputs::tables;
use crate::paper::{
    COUNTERS, Config, MOST_FALLBACK_ROUNDS, MOST_SERIES_ROUNDS, Memory, Quote, ROUNDS_OUT_OF_RANGE,
    ROW_WORDS, Rounds, join,
};
use crate::plain;
use crate::plain_fit::{Fits, Series};
use crate::port::{BAD_ENCODING, Lent, Room};
use crate::random::Random;
use crate::seen::{Operation, Seen};

/// The fixed cases, which build.sh puts beside the driver.
const FIXED: &str = include_str!("../../../fit_cases.txt");

/// Fallback rounds that each table is fitted with.
const FALLBACK: [u64; 4] = [0, 1, Rounds::DEFAULT.fallback, MOST_FALLBACK_ROUNDS];

pub fn run(run: &mut Run) -> Compared {
    worked_example(run.seen)?;
    thirty_nine_rounds(run.seen)?;
    for case in cases::read(FIXED).expect("the fixed cases") {
        compare(run, &Memory::of_tables(&case.tables))?;
    }
    for _ in 0..run.times(6_000) {
        let memory = tables::small(&mut run.random);
        compare(run, &memory)?;
    }
    for (shapes, full) in [(&MIDDLE[..], 200), (&LARGE[..], 40)] {
        for _ in 0..run.times(full) {
            let memory = tables::large(&mut run.random, shapes);
            compare(run, &memory)?;
        }
    }
    for _ in 0..run.times(500) {
        let memory = tables::small(&mut run.random);
        if plain::counts_refusal(&memory) == 0 {
            refusals(run.seen, &memory)?;
        }
    }
    for _ in 0..run.times(20_000) {
        let lent = lengths::bent(&mut run.random);
        let room = lengths::some_room(&mut run.random, lent.totals.len());
        let rounds = any_rounds(&mut run.random);
        asked(run.seen, &lent, rounds, &room)?;
    }
    Ok(())
}

/// Rounds in their ranges.
fn some_rounds(random: &mut Random) -> Rounds {
    Rounds {
        series: 1 + random.below(60),
        fallback: random.below(MOST_FALLBACK_ROUNDS + 1),
    }
}

/// Rounds in their ranges and outside of them.
fn any_rounds(random: &mut Random) -> Rounds {
    let mut rounds = some_rounds(random);
    if random.one_in(2) {
        rounds.series = random.choose(&SERIES).0;
    }
    if random.one_in(2) {
        rounds.fallback = random.choose(&FALLBACKS).0;
    }
    rounds
}

// ---- one fit

/// What a fit answers and leaves, floats by their bits.
#[derive(Debug, Clone, PartialEq, Eq)]
struct Outcome {
    answer: u64,
    model: Vec<u64>,
    scratch: Vec<u64>,
}

impl Outcome {
    /// Of a fit that is lent such room.
    fn of(room: &Room, fit: impl FnOnce(&mut [f64], &mut [u64]) -> u64) -> Self {
        let mut room = room.clone();
        let answer = fit(&mut room.scratch, &mut room.model);
        Self {
            answer,
            model: room.model,
            scratch: room.scratch.iter().map(|v| v.to_bits()).collect(),
        }
    }
}

/// What a fit is lent, as text; of the tables only the cells that are not zero.
fn print(lent: &Lent, room: &Room, rounds: Rounds) -> String {
    let held = match lengths::read(lent) {
        Some(memory) => memory.print(),
        None => format!(
            "config {}\nrecord {}\n",
            join(&lent.config),
            join(&lent.rec)
        ),
    };
    let tables = [lent.stay.len(), lent.moved.len(), lent.totals.len()];
    let rooms = [room.scratch.len(), room.model.len()];
    format!(
        "rounds {} {}\nlengths of stay, moved and totals: {}; of scratch and model table: {}\n{held}",
        rounds.series,
        rounds.fallback,
        join(&tables),
        join(&rooms)
    )
}

/// The port's fit, which must be the wanted one whole and leave what it reads as it was.
fn same_fit(
    seen: &mut Seen,
    lent: &Lent,
    rounds: Rounds,
    room: &Room,
    want: &Outcome,
) -> Result<Outcome, Difference> {
    let case = Case {
        operation: Operation::FitWith,
        input: &|| print(lent, room, rounds),
    };
    let before = lent.clone();
    let port = Outcome::of(room, |scratch, model| lent.fit_with(rounds, scratch, model));
    seen.answer(Operation::FitWith, port.answer);
    seen.volume("fits with rounds", 1);
    case.equal("answer", port.answer, want.answer)?;
    case.same("model table", &port.model, &want.model)?;
    case.same("scratch, in bits", &port.scratch, &want.scratch)?;
    case.holds("the lent counts are as they were", *lent == before)?;
    Ok(port)
}

/// A fit of whatever is lent, compared; its answer.
fn asked(seen: &mut Seen, lent: &Lent, rounds: Rounds, room: &Room) -> Result<u64, Difference> {
    let want = Outcome::of(room, |scratch, model| match lengths::read(lent) {
        Some(memory) => Fits::of(&memory).fit(rounds, scratch, model),
        None => BAD_ENCODING,
    });
    same_fit(seen, lent, rounds, room, &want).map(|outcome| outcome.answer)
}

// ---- one table with several rounds

fn compare(run: &mut Run, memory: &Memory) -> Compared {
    let some = some_rounds(&mut run.random);
    compare_table(run.seen, memory, some).map_err(|found| {
        fits::shrunk(memory, found, |less| {
            compare_table(&mut Seen::default(), less, some)
        })
    })
}

/// A table with the series rounds that it needs, one less, one more and the most, each with all of `FALLBACK`; and with some.
fn compare_table(seen: &mut Seen, memory: &Memory, some: Rounds) -> Compared {
    let table = Table::of(memory);
    let series = table.fits.series(MOST_SERIES_ROUNDS);
    count_series(seen, series.as_ref());
    // Where no rounds are enough, or the fit comes to no series, those about 1.
    let needed = match series {
        Some(Series::Converged(round, _) | Series::Infinite(round)) => round,
        Some(Series::Cut) | None => 1,
    };
    let converged = matches!(series, Some(Series::Converged(..)));
    let case = Case {
        operation: Operation::FitWith,
        input: &|| memory.print(),
    };
    for fallback in FALLBACK {
        let mut ask = |series| table.ask(seen, Rounds { series, fallback });
        let less = ask(needed - 1)?;
        let enough = ask(needed)?;
        let more = ask(needed + 1)?;
        let most = ask(MOST_SERIES_ROUNDS)?;
        // So fewer than `needed` are not enough.
        if needed > 1 {
            case.equal("answer to a series round less", less.answer, 18)?;
        }
        if converged {
            let last = needed == MOST_SERIES_ROUNDS;
            case.holds("one round more changes nothing", last || more == enough)?;
            case.holds("the most rounds change nothing", most == enough)?;
        }
        if fallback == Rounds::DEFAULT.fallback {
            case.holds(
                "the defaults are the fit without rounds",
                most == table.fit(),
            )?;
        }
    }
    table.ask(seen, some).map(|_| ())
}

fn count_series(seen: &mut Seen, series: Option<&Series>) {
    let what = match series {
        None => "tables with several rounds, no series",
        Some(Series::Infinite(_)) => "tables with several rounds, an infinite term",
        Some(Series::Cut) => "tables with several rounds, over 10,000 needed",
        Some(Series::Converged(1, _)) => "tables with several rounds, 1 needed",
        Some(Series::Converged(2..100, _)) => "tables with several rounds, 2 to 99 needed",
        Some(Series::Converged(..)) => "tables with several rounds, 100 or more needed",
    };
    seen.volume(what, 1);
}

/// A memory on both sides, with room for its fits.
struct Table<'a> {
    fits: Fits<'a>,
    lent: Lent,
    room: Room,
}

impl<'a> Table<'a> {
    fn of(memory: &'a Memory) -> Self {
        Self {
            fits: Fits::of(memory),
            lent: Lent::of(memory),
            room: Room::used(memory.totals.len()),
        }
    }

    fn ask(&self, seen: &mut Seen, rounds: Rounds) -> Result<Outcome, Difference> {
        let fit = |scratch: &mut [f64], model: &mut [u64]| self.fits.fit(rounds, scratch, model);
        let want = Outcome::of(&self.room, fit);
        same_fit(seen, &self.lent, rounds, &self.room, &want)
    }

    /// The port's fit without rounds.
    fn fit(&self) -> Outcome {
        Outcome::of(&self.room, |scratch, model| self.lent.fit(scratch, model))
    }
}

// ---- worked cases

/// Document 01's example with one series round: the table that it prints, as with the most.
fn worked_example(seen: &mut Seen) -> Compared {
    const WANTED: [[u64; ROW_WORDS]; 6] = [
        [1, 1, 1, 0xbfe0 << 48, 0xbfe0 << 48, 0x3ff0 << 48, 0],
        [2, 1, 0, 0, 0, 0x3ff0 << 48, 1],
        [3, 1, 1, 0x3fe0 << 48, 0x3fe0 << 48, 0x3ff0 << 48, 0],
        [1, 2, 0, 0, 0, 0x3ff0 << 48, 1],
        [2, 2, 0, 0, 0, 0x3ff0 << 48, 1],
        [3, 2, 0, 0, 0, 0x3ff0 << 48, 1],
    ];
    let mut memory = Memory::new(Config::of_words(&[1, 3, 2, 1, 1000]));
    for words in [[0, 100, 101, 9, 1], [1, 100, 102, 5, 5]] {
        plain::observe(&mut memory, &Quote::of_words(&words));
    }
    let table = Table::of(&memory);
    let case = Case {
        operation: Operation::FitWith,
        input: &|| memory.print(),
    };
    for series in [1, MOST_SERIES_ROUNDS] {
        let fallback = Rounds::DEFAULT.fallback;
        let outcome = table.ask(seen, Rounds { series, fallback })?;
        case.equal("answer", outcome.answer, 0)?;
        case.same("the example's table", &outcome.model, WANTED.as_flattened())?;
    }
    refusals(seen, &memory)
}

/// The case `thirty_nine_rounds`: 18 after 38 rounds, and a model after 39, of which only the share depends on its rounds.
fn thirty_nine_rounds(seen: &mut Seen) -> Compared {
    const SHARES: [u64; FALLBACK.len()] = [0, 0x3fe0 << 48, 0x3fef_f800 << 32, 0x3ff0 << 48];
    const ADJUSTMENT: u64 = 0xbfdf_ffff_ffff_e000;
    let memory = fixed("thirty_nine_rounds");
    let table = Table::of(&memory);
    let case = Case {
        operation: Operation::FitWith,
        input: &|| memory.print(),
    };
    for (fallback, share) in FALLBACK.into_iter().zip(SHARES) {
        let mut ask = |series| table.ask(seen, Rounds { series, fallback });
        case.equal("answer to 38 rounds", ask(38)?.answer, 18)?;
        let model = ask(39)?.model;
        case.equal("shares", [model[5], model[2 * ROW_WORDS + 5]], [share; 2])?;
        case.equal("adjustment", model[4], ADJUSTMENT)?;
        case.same(
            "model of the most rounds",
            &ask(MOST_SERIES_ROUNDS)?.model,
            &model,
        )?;
    }
    Ok(())
}

/// The fixed case of this name.
fn fixed(name: &str) -> Memory {
    let cases = cases::read(FIXED).expect("the fixed cases");
    let case = cases.into_iter().find(|case| case.name == name);
    Memory::of_tables(&case.expect("a fixed case").tables)
}

// ---- refusals

/// Series rounds, and whether a fit takes them. In 32 bits 2^32 + 1 would be 1.
const SERIES: [(u64, bool); 6] = [
    (0, false),
    (1, true),
    (MOST_SERIES_ROUNDS, true),
    (MOST_SERIES_ROUNDS + 1, false),
    ((1 << 32) + 1, false),
    (u64::MAX, false),
];

/// Fallback rounds, and whether a fit takes them. In 32 bits 2^32 would be 0.
const FALLBACKS: [(u64, bool); 6] = [
    (0, true),
    (1, true),
    (MOST_FALLBACK_ROUNDS, true),
    (MOST_FALLBACK_ROUNDS + 1, false),
    (1 << 32, false),
    (u64::MAX, false),
];

/// What is lent, with the refusal of it that rounds in their ranges meet; 0 where none is meant.
struct Refused {
    lent: Lent,
    room: Room,
    number: u64,
}

/// A memory as it is, and with what each neighbour of 26 in the order refuses.
fn refused(memory: &Memory) -> Vec<Refused> {
    let states = memory.totals.len();
    let other_pairs = memory.record.pairs.checked_sub(1).unwrap_or(1);
    let of = |number: u64, change: &dyn Fn(&mut Lent, &mut Room)| {
        let (mut lent, mut room) = (Lent::of(memory), Room::used(states));
        change(&mut lent, &mut room);
        Refused { lent, room, number }
    };
    vec![
        of(0, &|_, _| {}),
        of(BAD_ENCODING, &|lent, _| lent.config.truncate(4)),
        of(BAD_ENCODING, &|lent, _| lent.rec[0] = 2),
        of(1, &|lent, _| lent.config[1] += 1),
        of(1, &|lent, room| {
            lent.config[0] = 0;
            room.scratch.truncate(1);
        }),
        of(7, &|_, room| room.scratch.truncate(room.scratch.len() - 1)),
        of(7, &|_, room| room.model.push(1)),
        of(7, &|lent, _| lent.stay.truncate(lent.stay.len() - 1)),
        of(7, &|lent, _| lent.totals.push(0)),
        of(6, &|lent, _| lent.rec[COUNTERS] = u64::MAX),
        of(11, &|lent, _| lent.rec[COUNTERS] = other_pairs),
    ]
}

/// 26 for rounds outside of their ranges, after 100 and 1 and before all else. The memory is one whose counts are fine.
fn refusals(seen: &mut Seen, memory: &Memory) -> Compared {
    for refused in refused(memory) {
        for (series, series_taken) in SERIES {
            for (fallback, fallback_taken) in FALLBACKS {
                let rounds = Rounds { series, fallback };
                let answer = asked(seen, &refused.lent, rounds, &refused.room)?;
                let want = match refused.number {
                    BAD_ENCODING | 1 => refused.number,
                    _ if !series_taken || !fallback_taken => ROUNDS_OUT_OF_RANGE,
                    0 => answer,
                    number => number,
                };
                let case = Case {
                    operation: Operation::FitWith,
                    input: &|| print(&refused.lent, &refused.room, rounds),
                };
                case.equal("answer", answer, want)?;
            }
        }
    }
    Ok(())
}
