//! Runs of interleaved verdicts and orders of all callers: "What one caller receives, refusals and tally
//! included, depends on that caller's own calls and its tally's start alone, whichever calls the others make.
//! The eight together equal their start plus the sum of tried over all verdicts since", "the tool's verdicts
//! into #104's sum".

use crate::compare::hold;
use crate::seed_of;
use crate::vary::caller;
use cadwezin::{ffi, Tallies, ANSWER_BYTES, CALLERS, TALLY_MOST};
use reference::generate::{random, Prng};
use reference::vectors::{Vector, MINIMISE, VERDICT};
use std::fmt;

/// Vectors drawn for a run; one in ten is a verdict and one an order.
const DRAWN: usize = 1_200;
/// A caller whose tally begins so far below the bound, or less, reaches it within some thousand calls.
const NEAR: u64 = 1_200;
const QUESTIONS: usize = 17;

/// One verdict or order with the contents of the buffer that is lent.
struct Call {
    vector: Vector,
    contents: Vec<u8>,
}

/// What a call answered and left behind, all eight tallies included.
#[derive(Debug, PartialEq, Eq)]
struct Outcome {
    refused: u64,
    /// The kind, or how many nodes were struck.
    value: u64,
    tried: u64,
    buffer: Vec<u8>,
    counts: [u64; CALLERS],
}

/// What happened in some runs.
#[derive(Clone, Debug, Default)]
pub struct Told {
    runs: u64,
    calls: u64,
    /// Orders that were shortened, and what their verdicts tried.
    shortened: u64,
    tried_by_orders: u64,
    /// By a number that is no caller's.
    by_nobody: u64,
    /// By number; accepted ones at 0.
    refused: [u64; QUESTIONS + 1],
    /// Callers whose tally was at first far enough from the bound, and later not.
    came_to_the_bound: u64,
    tried: u64,
}

/// Makes so many calls in one run and holds it to itself and to the reference; or tells what differs, a
/// line for each way in which it is held.
pub fn run(seed: u64, number: u64, calls: usize) -> Result<Told, String> {
    let mut prng = Prng::new(seed_of(seed, number));
    let start = start(&mut prng, number);
    let calls = drawn(&mut prng, calls);
    let together = by_library(&calls, start);
    let mut held = vec![
        same_by_reference(&calls, start, &together),
        adds_up(&calls, start, &together),
    ];
    held.extend((0..CALLERS).map(|caller| same_alone(&mut prng, &calls, start, caller, &together)));
    let wrong: Vec<String> = held.into_iter().filter_map(Result::err).collect();
    hold(wrong.is_empty(), || wrong.join("\n"))?;
    Ok(told(&calls, &together))
}

/// By turns: all eight so low that together they are below the bound too, since a library that refuses by
/// what all of them hold would else refuse the caller's calls alone just as much; each far below the bound
/// and together past it; and twice, in any order, three near it, two past it and three far below.
fn start(prng: &mut Prng, number: u64) -> [u64; CALLERS] {
    let (least, more) = match number % 4 {
        1 => (TALLY_MOST / 8, TALLY_MOST / 8),
        _ => (0, TALLY_MOST / 10),
    };
    let mut counts = [0; CALLERS].map(|_| least + prng.draw() % more);
    if number % 4 < 2 {
        return counts;
    }
    for near in &mut counts[..3] {
        *near = TALLY_MOST - prng.draw() % NEAR;
    }
    counts[3] = TALLY_MOST + 1 + prng.draw() % TALLY_MOST;
    counts[4] = u64::MAX;
    counts[5] = 0;
    prng.shuffle(&mut counts);
    counts
}

/// Cases as the generator draws them, each with a caller, a limit and a buffer of its own.
fn drawn(prng: &mut Prng, count: usize) -> Vec<Call> {
    let mut vectors = random(prng.draw(), DRAWN);
    vectors.retain(|vector| [VERDICT, MINIMISE].contains(&vector.call));
    (0..count)
        .map(|_| {
            let mut vector = vectors[prng.below(vectors.len())].clone();
            vector.caller = some_caller(prng);
            vector.limit = limit(prng, vector.limit);
            vector.length = length(prng);
            let contents = (0..vector.length).map(|_| prng.draw() as u8).collect();
            Call { vector, contents }
        })
        .collect()
}

fn some_caller(prng: &mut Prng) -> u64 {
    match prng.draw() {
        any if prng.percent(8) => caller(prng, any),
        _ => prng.below(CALLERS) as u64,
    }
}

/// Mostly one with which the reference is quick; now and then the vector's own, or none.
fn limit(prng: &mut Prng, own: u64) -> u64 {
    let quick = 1 + prng.draw() % [1, 3, 10, 40][prng.below(4)];
    match prng.below(200) {
        0 => own,
        1 => [0, 1_000_001, u64::MAX][prng.below(3)],
        _ => quick,
    }
}

fn length(prng: &mut Prng) -> u64 {
    let more = prng.below(40);
    let length = match prng.below(100) {
        0 => ANSWER_BYTES - 1 - more,
        1..=9 => ANSWER_BYTES + more,
        _ => ANSWER_BYTES,
    };
    length as u64
}

fn by_library<'a>(
    calls: impl IntoIterator<Item = &'a Call>,
    counts: [u64; CALLERS],
) -> Vec<Outcome> {
    let mut tallies = Tallies { counts };
    let one = |call: &Call| {
        let (v, mut buffer) = (&call.vector, call.contents.clone());
        let (refused, value, tried) = if v.call == MINIMISE {
            let got = ffi::minimise(&v.case, v.limit, v.caller, &mut tallies, &mut buffer);
            (got.refused, got.struck, got.tried)
        } else {
            let got = ffi::verdict(&v.case, v.limit, v.caller, &mut tallies, &mut buffer);
            (got.refused, got.kind, got.tried)
        };
        Outcome {
            refused,
            value,
            tried,
            buffer,
            counts: tallies.counts,
        }
    };
    calls.into_iter().map(one).collect()
}

/// Each call of the whole run leaves what the reference leaves.
fn same_by_reference(
    calls: &[Call],
    mut counts: [u64; CALLERS],
    together: &[Outcome],
) -> Result<(), String> {
    for (number, (call, ours)) in calls.iter().zip(together).enumerate() {
        let (v, mut buffer) = (&call.vector, call.contents.clone());
        let (refused, value, tried) = if v.call == MINIMISE {
            let got = reference::minimise(&v.case, v.limit, v.caller, &mut counts, &mut buffer);
            (got.refused, got.struck, got.tried)
        } else {
            let got = reference::verdict(&v.case, v.limit, v.caller, &mut counts, &mut buffer);
            (got.refused, got.kind, got.tried)
        };
        let theirs = Outcome {
            refused,
            value,
            tried,
            buffer,
            counts,
        };
        hold(*ours == theirs, || {
            format!(
                "call {number} of {}: {ours} and by the reference {theirs}",
                v.caller
            )
        })?;
    }
    Ok(())
}

/// The caller's calls alone, with other numbers in the others' tallies: each answers, writes and counts
/// what it did among the others.
fn same_alone(
    prng: &mut Prng,
    calls: &[Call],
    start: [u64; CALLERS],
    caller: usize,
    together: &[Outcome],
) -> Result<(), String> {
    let own = |call: &Call| call.vector.caller == caller as u64;
    let counts = with_others(prng, start, caller);
    let alone = by_library(calls.iter().filter(|call| own(call)), counts);
    let among = calls.iter().zip(together).filter(|(call, _)| own(call));
    for (number, (alone, (_, among))) in alone.iter().zip(among).enumerate() {
        let mut expected = counts;
        expected[caller] = among.counts[caller];
        let same = (alone.refused, alone.value, alone.tried)
            == (among.refused, among.value, among.tried)
            && alone.buffer == among.buffer
            && alone.counts == expected;
        hold(same, || {
            format!("call {number} of caller {caller}'s own: alone {alone}, among others {among}")
        })?;
    }
    Ok(())
}

/// Another number for each caller but one.
fn with_others(prng: &mut Prng, start: [u64; CALLERS], caller: usize) -> [u64; CALLERS] {
    let mut counts = start;
    for other in (0..CALLERS).filter(|&other| other != caller) {
        while counts[other] == start[other] {
            let numbers = [0, u64::MAX, TALLY_MOST, TALLY_MOST + 1, prng.draw()];
            counts[other] = numbers[prng.below(numbers.len())];
        }
    }
    counts
}

/// Each tally is its start and what its caller's calls tried, and all together are their start and what
/// all calls tried.
fn adds_up(calls: &[Call], start: [u64; CALLERS], outcomes: &[Outcome]) -> Result<(), String> {
    let end = outcomes.last().map_or(start, |last| last.counts);
    let tried = |of: &dyn Fn(u64) -> bool| -> u128 {
        let all = calls.iter().zip(outcomes);
        let meant = all.filter(|(call, _)| of(call.vector.caller));
        meant.map(|(_, outcome)| u128::from(outcome.tried)).sum()
    };
    for caller in 0..CALLERS {
        let own = tried(&|named| named == caller as u64);
        let raised = u128::from(start[caller]) + own;
        hold(u128::from(end[caller]) == raised, || {
            format!(
                "caller {caller}'s tally is {} and not {raised}",
                end[caller]
            )
        })?;
    }
    let all = |counts: [u64; CALLERS]| counts.iter().map(|&count| u128::from(count)).sum::<u128>();
    let raised = all(start) + tried(&|_| true);
    hold(all(end) == raised, || {
        format!("all tallies come to {} and not {raised}", all(end))
    })
}

fn told(calls: &[Call], outcomes: &[Outcome]) -> Told {
    let mut told = Told {
        runs: 1,
        calls: calls.len() as u64,
        ..Told::default()
    };
    let mut raised = [false; CALLERS];
    let mut full = [false; CALLERS];
    for (call, outcome) in calls.iter().zip(outcomes) {
        told.refused[outcome.refused as usize] += 1;
        told.tried += outcome.tried;
        if call.vector.call == MINIMISE {
            told.shortened += u64::from(outcome.value > 0);
            told.tried_by_orders += outcome.tried;
        }
        match call.vector.caller as usize {
            caller if caller < CALLERS => {
                raised[caller] |= outcome.tried > 0;
                full[caller] |= outcome.refused == 9 && raised[caller];
            }
            _ => told.by_nobody += 1,
        }
    }
    told.came_to_the_bound = full.iter().filter(|&&full| full).count() as u64;
    told
}

impl Told {
    pub fn add(&mut self, other: &Told) {
        self.runs += other.runs;
        self.calls += other.calls;
        self.shortened += other.shortened;
        self.tried_by_orders += other.tried_by_orders;
        self.by_nobody += other.by_nobody;
        for (number, more) in self.refused.iter_mut().zip(other.refused) {
            *number += more;
        }
        self.came_to_the_bound += other.came_to_the_bound;
        self.tried += other.tried;
    }

    /// Whether there was something to compare: accepted calls, orders that were shortened and paid for,
    /// callers who came to the bound, and numbers that are no caller's.
    pub fn enough(&self) -> bool {
        let orders = self.shortened > 0 && self.tried_by_orders > 0;
        self.refused[0] > 0 && orders && self.came_to_the_bound > 0 && self.refused[16] > 0
    }
}

impl fmt::Display for Told {
    fn fmt(&self, out: &mut fmt::Formatter) -> fmt::Result {
        let numbers = (1..=QUESTIONS).filter(|&number| self.refused[number] > 0);
        let refused: Vec<String> = numbers
            .map(|number| format!("{} by {number}", self.refused[number]))
            .collect();
        write!(
            out,
            "{} runs of interleaved verdicts and orders, {} calls, {} of them of no caller; {} accepted, {} orders shortened; {} tried, {} of them by orders; refused {}; {} callers came to the bound",
            self.runs,
            self.calls,
            self.by_nobody,
            self.refused[0],
            self.shortened,
            self.tried,
            self.tried_by_orders,
            refused.join(", "),
            self.came_to_the_bound
        )
    }
}

/// All but the buffer, which is long.
impl fmt::Display for Outcome {
    fn fmt(&self, out: &mut fmt::Formatter) -> fmt::Result {
        let hash = reference::vectors::fnv1a(&self.buffer);
        write!(
            out,
            "refused {} kind or struck {} tried {} tallies {:?} buffer {hash:016x}",
            self.refused, self.value, self.tried, self.counts
        )
    }
}
