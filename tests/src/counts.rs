//! Document 02, "a count in the record": records whose count is at its most or near it; and runs of calls from seeding, whose count is
//! the pairs that were handed out or skipped.
use crate::cases::{below, lower, same, Call, Called, Case};
use crate::edges;
use crate::inputs;
use crate::jump;
use crate::library::{self, lent, record_of, Answer};
use crate::random::Random;
use crate::sample::Tables;
use crate::stream::{self, fresh, Record, Registers, MOST_ASKED};

/// Seeds and calls, each passed what the one before returned. The other side keeps no record: before and after each call the record is
/// that of the seeds, as many pairs on as the accepted calls were for, and that is its count; its note is of the last ask, take or giving up that was
/// accepted.
#[derive(Clone, Debug)]
struct Run(Registers, Vec<Call>);

impl Case for Run {
    type Answer = Vec<Answer>;
    fn library(&self) -> Vec<Answer> {
        let mut record = record_of(&library::seed(&self.0).1);
        let mut answer = |call: &Call| {
            let answer = call.library(&record);
            record = record_of(&answer.1);
            answer
        };
        self.1.iter().map(&mut answer).collect()
    }
    fn other(&self, tables: &Tables) -> Vec<Answer> {
        let registers = stream::seed(&self.0).1.registers;
        let after =
            |pairs, (open, asked)| Record { registers: jump::ahead(&registers, pairs), count: pairs, open, asked };
        let (mut pairs, mut note) = (0, (0, 0));
        let mut answer = |call: &Call| {
            let (number, _, samples) = call.other(tables, &after(pairs, note));
            if number == 0 {
                pairs += call.pairs();
                note = match *call {
                    Call::Ask(n) => (1, n),
                    Call::Take(_) | Call::GiveUp => (0, 0),
                    _ => note,
                };
            }
            (number, lent(&after(pairs, note)), samples)
        };
        self.1.iter().map(&mut answer).collect()
    }
    fn smaller(&self) -> Vec<Run> {
        let Run(seeds, calls) = self;
        let with = |j: usize, call: Option<Call>| {
            let rest = calls[j + 1..].iter().copied();
            Run(*seeds, calls[..j].iter().copied().chain(call).chain(rest).collect())
        };
        let shorter = below(calls.len() as u64).into_iter().map(|n| Run(*seeds, calls[..n as usize].to_vec()));
        let without = (0..calls.len()).map(|j| with(j, None));
        let less = (0..calls.len()).flat_map(|j| calls[j].smaller().into_iter().map(move |call| with(j, Some(call))));
        let lower = lower(seeds).into_iter().map(|s| Run(s, calls.clone()));
        shorter.chain(without).chain(less).chain(lower).collect()
    }
}

/// Every call for few pairs, for just as many as fit, for one fewer and one more, and a skip of the most.
fn calls(count: u64) -> Vec<Call> {
    let fit = u64::MAX - count;
    let blocks = (0..=5).flat_map(|length| [Call::Look(length), Call::Block(length)]);
    let skips = [0, 1, 2, 3, fit.saturating_sub(1), fit, fit.saturating_add(1), u64::MAX].map(Call::Skip);
    let few =
        [fit.saturating_sub(1), fit, fit.saturating_add(1)].map(|n| Call::Ask(u32::try_from(n).unwrap_or(u32::MAX)));
    let asks = [0, 1, MOST_ASKED, MOST_ASKED + 1].map(Call::Ask);
    [Call::Pair, Call::GiveUp, Call::Take(0)].into_iter().chain(blocks).chain(skips).chain(few).chain(asks).collect()
}

/// The registers of the edges with every count at the edges: each refusal before the ones that come after it.
pub fn given(tables: &Tables) -> String {
    let most = u64::MAX;
    let low = 1 << 32;
    let counts =
        [0, 1, low - 2, low - 1, low, most / 2, most / 2 + 1, most - low, most - 4, most - 3, most - 2, most - 1, most];
    let (extremes, mut run, mut full) = (edges::extremes(), 0, 0);
    for &registers in &extremes {
        for count in counts {
            for call in calls(count) {
                let (number, ..) = same(tables, &Called(Record { count, ..fresh(registers) }, call));
                run += 1;
                full += usize::from(number == 13);
            }
        }
    }
    format!(
        "{run} calls on {} records with {} counts at the edges, {full} refused with 13",
        extremes.len(),
        counts.len()
    )
}

/// A call where so many pairs still fit: often for all of them or nearly all, or for one more.
fn call(random: &mut Random, fit: u64) -> Call {
    match random.below(20) {
        0..=4 => Call::Pair,
        5 => Call::Block(2 * random.below(3)),
        6..=8 => Call::Block(random.below(20)),
        9..=10 => Call::Look(random.below(20)),
        11 => Call::Block(2 * random.below(300)),
        12 => Call::Ask(random.below(40) as u32),
        13 => Call::Ask(fit.saturating_add(1).saturating_sub(random.below(3) as u64).min(u32::MAX.into()) as u32),
        14 => Call::Skip(random.below(4) as u64),
        15 => Call::Skip(fit - (random.below(4) as u64).min(fit)),
        16 => Call::Skip(fit.saturating_add(1 + random.below(2) as u64)),
        17 => Call::Skip(fit / 2),
        _ => Call::Skip(inputs::n(random)),
    }
}

/// A call while a request for so many pairs is open: often its take, or one that is not quite that.
fn call_while_open(random: &mut Random, asked: u32) -> Call {
    let just = 2 * asked as usize;
    match random.below(12) {
        0..=3 => Call::Take(just),
        4 => Call::Take((just + random.below(5)).saturating_sub(2)),
        5 => Call::GiveUp,
        6 => Call::Look(random.below(20)),
        7 => Call::Ask(random.below(3) as u32),
        8 => Call::Pair,
        9 => Call::Block(random.below(4)),
        10 => Call::Skip(random.below(3) as u64),
        _ => Call::Take(random.below(50)),
    }
}

/// Runs from seeding. The calls are chosen by a tally of the pairs that still fit and of the request that is open.
pub fn runs(tables: &Tables, random: &mut Random) -> String {
    let (count, mut numbers) = (2_000, [0; 17]);
    for _ in 0..count {
        let seeds = inputs::seeds(random);
        let (mut calls, mut fit, mut open) = (Vec::new(), u64::MAX, None);
        for _ in 0..random.below(40) {
            let next = match open {
                Some(asked) => call_while_open(random, asked),
                None if random.below(20) == 0 => {
                    [Call::Take(0), Call::Take(random.below(6)), Call::GiveUp][random.below(3)]
                }
                None => call(random, fit),
            };
            match (next, open) {
                (Call::Ask(n), None) if n <= MOST_ASKED && u64::from(n) <= fit => open = Some(n),
                (Call::Take(length), Some(asked)) if length == 2 * asked as usize => {
                    (open, fit) = (None, fit - u64::from(asked))
                }
                (Call::GiveUp, _) => open = None,
                (Call::Block(length), None) if length % 2 == 1 => (),
                (Call::Pair | Call::Block(_) | Call::Skip(_), None) => {
                    fit = fit.checked_sub(next.pairs()).unwrap_or(fit)
                }
                _ => (),
            }
            calls.push(next);
        }
        for (number, ..) in same(tables, &Run(seeds, calls)) {
            numbers[number as usize] += 1;
        }
    }
    let told = [4, 11, 13, 14, 15, 16];
    for number in told.into_iter().chain([0]) {
        assert!(numbers[number] >= 100, "only {} calls with number {number}", numbers[number]);
    }
    let refused = told.map(|number| format!("{} with {number}", numbers[number])).join(", ");
    format!("{count} runs from seeding, {} calls accepted; refused {refused}", numbers[0])
}

/// Records of every kind and every note, each with every call: what a call that is accepted or refused for its note leaves.
pub fn noted(tables: &Tables, random: &mut Random) -> String {
    let (count, mut numbers) = (200_000, [0; 17]);
    for _ in 0..count {
        let record = inputs::noted(random, 20);
        let just = 2 * record.asked.min(400) as usize;
        let next = match random.below(8) {
            0 => Call::Pair,
            1 => Call::Block(random.below(40)),
            2 => Call::Look(random.below(40)),
            3 => Call::Skip(random.below(3) as u64),
            4 => Call::Ask(
                [random.below(30) as u32, MOST_ASKED, MOST_ASKED + 1, random.number(32) as u32][random.below(4)],
            ),
            5 => Call::GiveUp,
            6 => Call::Take(random.below(40)),
            _ => Call::Take(just),
        };
        let (number, ..) = same(tables, &Called(record, next));
        numbers[number as usize] += 1;
    }
    let few = [0, 4, 11, 12, 13, 14, 15, 16].into_iter().find(|&number| numbers[number] < 1000);
    assert!(few.is_none(), "few calls by number: {numbers:?}");
    format!("{count} calls on records with any note, by number {numbers:?}")
}
