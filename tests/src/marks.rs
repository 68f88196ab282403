//! Document 02, "marks to come back to". Sets from anywhere are compared call by call, as they stand in memory. Of a set that grew from the empty one
//! the other side keeps no memory: it has the names and records of 16 places, and says at the end what the set's members have to be.
use crate::cases::{below, same, without_one, Call, Case};
use crate::elsewhere::Written;
use crate::inputs;
use crate::library::{self, lent, record_of, Lent};
use crate::random::Random;
use crate::sample::Tables;
use crate::stream::{self, fresh, refusal, Record, Registers};

extern "C" {
    fn jabulghi_marks_save_members(
        used: *mut u32,
        lengths: *mut u32,
        names: *mut u8,
        records: *mut u32,
        record: *const u32,
        name: *const u8,
        length: usize,
    ) -> u32;
    fn jabulghi_marks_return_members(
        used: *const u32,
        lengths: *const u32,
        names: *const u8,
        records: *const u32,
        record: *mut u32,
        name: *const u8,
        length: usize,
    ) -> u32;
    fn jabulghi_marks_drop_members(
        used: *mut u32,
        lengths: *mut u32,
        names: *mut u8,
        records: *mut u32,
        name: *const u8,
        length: usize,
    ) -> u32;
}

const PLACES: usize = 16;
const LETTERS: usize = 12;

/// A place as a maker keeps it.
#[derive(Clone, Copy, PartialEq, Debug)]
struct Place {
    used: u32,
    length: u32,
    name: [u8; LETTERS],
    record: Record,
}

type Set = [Place; PLACES];

fn free() -> Place {
    Place { used: 0, length: 0, name: [0; LETTERS], record: fresh([0; 6]) }
}

fn marked(name: &[u8], record: &Record) -> Place {
    let mut place = Place { used: 1, length: name.len() as u32, record: *record, ..free() };
    place.name[..name.len()].copy_from_slice(name);
    place
}

/// A save, a return or a drop under a name.
#[derive(Clone, Copy, PartialEq, Debug)]
enum What {
    Save,
    Return,
    Drop,
}

// ---- the other implementation

/// "a name of the station kind"
fn well_formed(name: &[u8]) -> bool {
    (1..=LETTERS).contains(&name.len()) && name.iter().all(u8::is_ascii_alphanumeric)
}

/// "a malformed name there matches none"
fn name_of(place: &Place) -> Option<&[u8]> {
    let name = place.name.get(..place.length as usize).filter(|name| well_formed(name));
    name.filter(|_| place.used != 0)
}

/// 11 and 12, then 14: what a save and a return wait for; a drop is passed no record.
fn waits(what: What, record: &Record) -> u32 {
    let open = if record.open == 0 { 0 } else { 14 };
    match (what, refusal(&record.registers)) {
        (What::Drop, _) => 0,
        (_, 0) => open,
        (_, unfit) => unfit,
    }
}

/// Number, set and record.
fn call(what: What, mut set: Set, record: Record, name: &[u8]) -> (u32, Set, Record) {
    let held = set.iter().position(|place| name_of(place) == Some(name));
    let place = held.or_else(|| set.iter().position(|place| place.used == 0).filter(|_| what == What::Save));
    let number = match (waits(what, &record), well_formed(name), place, what) {
        (0, true, Some(_), _) => 0,
        (0, true, None, What::Save) => 20,
        (0, true, None, _) => 19,
        (0, false, ..) => 18,
        (wait, ..) => wait,
    };
    let mut next = record;
    if let (0, Some(place)) = (number, place) {
        match what {
            What::Save => set[place] = marked(name, &record),
            What::Return => next = set[place].record,
            What::Drop => set[place] = free(),
        }
    }
    (number, set, next)
}

// ---- the library's memory

/// The members of a set, a record and a name, each between margins.
#[derive(Clone, PartialEq, Debug)]
struct Memory {
    used: Lent<u32>,
    lengths: Lent<u32>,
    names: Lent<u8>,
    records: Lent<u32>,
    record: Lent<u32>,
    name: Lent<u8>,
}

impl Memory {
    fn of(set: &Set, record: &Record, name: &[u8]) -> Memory {
        let records: Vec<u32> = set.iter().flat_map(|place| lent(&place.record).elements().to_vec()).collect();
        Memory {
            used: Lent::holding(&set.map(|place| place.used)),
            lengths: Lent::holding(&set.map(|place| place.length)),
            names: Lent::holding(&set.map(|place| place.name).concat()),
            records: Lent::holding(&records),
            record: lent(record),
            name: Lent::holding(name),
        }
    }

    fn call(&mut self, what: What) -> u32 {
        let Memory { used, lengths, names, records, record, name } = self;
        let (used, lengths, names, records) = (used.pointer(), lengths.pointer(), names.pointer(), records.pointer());
        let (record, length, name) = (record.pointer(), name.elements().len(), name.pointer());
        match what {
            What::Save => unsafe { jabulghi_marks_save_members(used, lengths, names, records, record, name, length) },
            What::Return => unsafe {
                jabulghi_marks_return_members(used, lengths, names, records, record, name, length)
            },
            What::Drop => unsafe { jabulghi_marks_drop_members(used, lengths, names, records, name, length) },
        }
    }
}

// ---- one call on any set

#[derive(Clone, Debug)]
struct One(What, Set, Record, Vec<u8>);

impl Case for One {
    type Answer = (u32, Memory);
    fn library(&self) -> Self::Answer {
        let One(what, set, record, name) = self;
        let mut memory = Memory::of(set, record, name);
        let number = memory.call(*what);
        (number, memory)
    }
    fn other(&self, _: &Tables) -> Self::Answer {
        let One(what, set, record, name) = self;
        let (number, set, record) = call(*what, *set, *record, name);
        (number, Memory::of(&set, &record, name))
    }
    fn smaller(&self) -> Vec<One> {
        let One(what, set, record, name) = self;
        let with = |j: usize, place: Place| {
            let mut less = *set;
            less[j] = place;
            One(*what, less, *record, name.clone())
        };
        let freed = (0..PLACES).filter(|&j| set[j] != free()).map(|j| with(j, free()));
        let plain = (0..PLACES).map(|j| Place { record: fresh([0; 6]), ..set[j] }).enumerate();
        let plain = plain.filter(|&(j, place)| set[j] != place).map(|(j, place)| with(j, place));
        let shorter =
            below(name.len() as u64).into_iter().map(|n| One(*what, *set, *record, name[..n as usize].to_vec()));
        freed.chain(plain).chain(shorter).collect()
    }
}

// ---- runs from seeding and the empty set

#[derive(Clone, Debug)]
enum Step {
    On(Call),
    Mark(What, Vec<u8>),
}

#[derive(Clone, Debug)]
struct Run(Registers, Vec<Step>);

impl Case for Run {
    /// Of each step its number, the record and the samples; at the end the set.
    type Answer = (Vec<library::Answer>, Memory);
    fn library(&self) -> Self::Answer {
        let mut record = record_of(&library::seed(&self.0).1);
        let mut memory = Memory::of(&[free(); PLACES], &record, b"");
        let mut answers = Vec::new();
        for step in &self.1 {
            let answer = match step {
                Step::On(call) => call.library(&record),
                Step::Mark(what, name) => {
                    memory.record = lent(&record);
                    memory.name = Lent::holding(name);
                    let number = memory.call(*what);
                    (number, memory.record.clone(), Lent::holding(&[]))
                }
            };
            record = record_of(&answer.1);
            answers.push(answer);
        }
        memory.record = lent(&record);
        memory.name = Lent::holding(b"");
        (answers, memory)
    }
    fn other(&self, tables: &Tables) -> Self::Answer {
        let mut record = stream::seed(&self.0).1;
        let mut marks: Vec<Option<(Vec<u8>, Record)>> = vec![None; PLACES];
        let mut answers = Vec::new();
        for step in &self.1 {
            let answer = match step {
                Step::On(call) => call.other(tables, &record),
                Step::Mark(what, name) => {
                    let number = grown(*what, &mut marks, &mut record, name);
                    (number, lent(&record), Lent::holding(&[]))
                }
            };
            record = record_of(&answer.1);
            answers.push(answer);
        }
        let set: Vec<Place> =
            marks.iter().map(|mark| mark.as_ref().map_or(free(), |(name, record)| marked(name, record))).collect();
        (answers, Memory::of(&set.try_into().unwrap(), &record, b""))
    }
    fn smaller(&self) -> Vec<Run> {
        let Run(seeds, steps) = self;
        let shorter = below(steps.len() as u64).into_iter().map(|n| Run(*seeds, steps[..n as usize].to_vec()));
        let without = without_one(steps).map(|steps| Run(*seeds, steps));
        shorter.chain(without).collect()
    }
}

/// A call on the marks of a set that grew from the empty one, whose names are all well-formed.
fn grown(what: What, marks: &mut [Option<(Vec<u8>, Record)>], record: &mut Record, name: &[u8]) -> u32 {
    let held = marks.iter().position(|mark| mark.as_ref().is_some_and(|(n, _)| n == name));
    let free = marks.iter().position(Option::is_none);
    match (waits(what, record), well_formed(name), what) {
        (0, true, What::Save) => match held.or(free) {
            Some(place) => marks[place] = Some((name.to_vec(), *record)),
            None => return 20,
        },
        (0, true, _) => match held {
            Some(place) if what == What::Return => *record = marks[place].as_ref().unwrap().1,
            Some(place) => marks[place] = None,
            None => return 19,
        },
        (0, false, _) => return 18,
        (wait, ..) => return wait,
    }
    0
}

// ---- inputs

/// Few names, so that many are held; some differ in their last letter, or one is the beginning of another.
fn good_name(random: &mut Random) -> Vec<u8> {
    let long = ["ABCDEFGHIJKL", "ABCDEFGHIJKM", "abcdefghijkl", "ABCDEFGHIJK"];
    let short = ["D", "D7", "D77", "d7", "7", "7D", "Z", "z9"];
    match random.below(10) {
        0..=2 => random.of(&short).as_bytes().to_vec(),
        3 => random.of(&long).as_bytes().to_vec(),
        _ => format!("S{}", random.below(20)).into_bytes(),
    }
}

fn bad_name(random: &mut Random) -> Vec<u8> {
    let bad: [&[u8]; 14] = [
        b"",
        b"ABCDEFGHIJKLM",
        b"a b",
        b"D7\0",
        b"\0",
        b"\0\0",
        b"D-7",
        b"D7 ",
        b"\xc3\xa9",
        b"@",
        b"[",
        b"`",
        b"{",
        b"/",
    ];
    match random.below(8) {
        0 => vec![b'A'; random.below(200)],
        1 => (0..1 + random.below(LETTERS)).map(|_| random.next() as u8).collect(),
        2 => [&good_name(random)[..], bad[random.below(bad.len())]].concat(),
        _ => random.of(&bad).to_vec(),
    }
}

fn name(random: &mut Random) -> Vec<u8> {
    if random.one_in(8) {
        bad_name(random)
    } else {
        good_name(random)
    }
}

/// A place as a call of ours leaves it, free or a mark; or with a name that no call would save, a length that is not its name's, bytes after it,
/// or a free one that is not empty; its record any.
fn place(random: &mut Random, all_used: bool) -> Place {
    let kept = inputs::noted(random, 1);
    let mut place = marked(&good_name(random), &kept);
    match random.below(12) {
        0 | 1 if !all_used => return free(),
        2 if !all_used => place.used = 0,
        3 => place.used = random.number(32).max(1) as u32,
        4 => place.length = [0, 11, 12, 13, 14, u32::MAX, random.number(32) as u32][random.below(7)],
        5 => place.name[random.below(LETTERS)] = random.next() as u8,
        6 => place.name[place.length as usize..].fill(b'x'),
        7 => (place.length, place.name) = (0, [0; LETTERS]),
        8 => place.name = [0xff; LETTERS],
        _ => {}
    }
    place
}

fn set(random: &mut Random) -> Set {
    let all_used = random.one_in(3);
    let mut set = [free(); PLACES];
    for j in 0..PLACES {
        let twice = j > 0 && random.one_in(6);
        let before = random.below(j.max(1));
        set[j] =
            if twice { Place { record: inputs::noted(random, 1), ..set[before] } } else { place(random, all_used) };
        if all_used && set[j].used == 0 {
            set[j].used = 1;
        }
    }
    set
}

/// Each number that was met, and how often; those of the list must have been met often.
fn met(numbers: &[usize], wanted: &[usize]) -> String {
    for &number in wanted {
        assert!(numbers[number] >= 100, "only {} calls with number {number}", numbers[number]);
    }
    wanted.iter().skip(1).map(|&number| format!("{} with {number}", numbers[number])).collect::<Vec<_>>().join(", ")
}

/// Every length of a name, every single byte as a name, and a mark in each place of a set that is full but for it.
pub fn given(tables: &Tables) -> String {
    let record = Record { count: 7, ..fresh([2, 8, 16, 20, 80, 160]) };
    let whats = [What::Save, What::Return, What::Drop];
    let mut calls = 0;
    let mut one = |set: &Set, name: &[u8]| {
        for what in whats {
            same(tables, &One(what, *set, record, name.to_vec()));
            calls += 1;
        }
    };
    let full: Set = std::array::from_fn(|j| marked(format!("S{j}").as_bytes(), &Record { count: j as u64, ..record }));
    for length in 0..30 {
        one(&[free(); PLACES], &vec![b'A'; length]);
        one(&full, &vec![b'A'; length]);
    }
    for byte in 0..=255 {
        let mut held = full;
        held[3] = Place { length: 1, name: [byte; LETTERS], ..held[3] };
        one(&held, &[byte]);
        one(&[free(); PLACES], &[byte, b'a']);
    }
    for j in 0..PLACES {
        let mut room = full;
        room[j] = free();
        let mut twice = full;
        twice[j] = Place { record: Record { count: 99, ..record }, ..full[7] };
        for name in ["S0", "S7", "S15", "T1"] {
            one(&room, name.as_bytes());
            one(&twice, name.as_bytes());
        }
        room[j].length = 12;
        room[j].name = *b"LeftBehindXY";
        one(&room, b"LeftBehindXY");
        one(&full, full[j].name[..full[j].length as usize].to_vec().as_slice());
    }
    format!("{calls} calls on sets at the edges")
}

/// A call on a set from anywhere.
fn one(random: &mut Random) -> One {
    let what = *random.of(&[What::Save, What::Return, What::Drop]);
    let set = set(random);
    let held = random.of(&set);
    let name = match random.below(4) {
        0 => held.name[..(held.length as usize).min(LETTERS)].to_vec(),
        _ => name(random),
    };
    One(what, set, inputs::noted(random, 1), name)
}

/// One call, for other processors.
pub fn elsewhere(tables: &Tables, random: &mut Random) -> Written {
    let case = one(random);
    let One(what, set, record, word) = &case;
    let name = match what {
        What::Save => "marks_save_members",
        What::Return => "marks_return_members",
        What::Drop => "marks_drop_members",
    };
    let (before, (number, after)) = (Memory::of(set, record, word), case.other(tables));
    let written = Written::new(name, number, &[word.len() as u64])
        .lent(&before.used, &after.used)
        .lent(&before.lengths, &after.lengths);
    let written = written.lent(&before.names, &after.names).lent(&before.records, &after.records);
    written.lent(&before.record, &after.record).lent(&before.name, &after.name)
}

/// Calls on sets from anywhere.
pub fn calls(tables: &Tables, random: &mut Random) -> String {
    let (count, mut numbers) = (60_000, [0; 21]);
    for _ in 0..count {
        numbers[same(tables, &one(random)).0 as usize] += 1;
    }
    format!(
        "{count} saves, returns and drops on sets from anywhere; refused {}",
        met(&numbers, &[0, 11, 12, 14, 18, 19, 20])
    )
}

fn step(random: &mut Random) -> Step {
    match random.below(20) {
        0 => Step::On(Call::Pair),
        1 => Step::On(Call::Block(random.below(9))),
        2 => Step::On(Call::Skip(random.below(4) as u64)),
        3 => Step::On(Call::Skip(inputs::n(random) >> random.below(64))),
        4 => Step::On(Call::Ask(random.below(3) as u32)),
        5 => Step::On(Call::Take(2 * random.below(3))),
        6 => Step::On(Call::GiveUp),
        7 => Step::On(Call::Look(2 * random.below(3))),
        8..=13 => Step::Mark(What::Save, name(random)),
        14..=17 => Step::Mark(What::Return, name(random)),
        _ => Step::Mark(What::Drop, name(random)),
    }
}

/// Runs of mixed calls on a record and a set.
pub fn runs(tables: &Tables, random: &mut Random) -> String {
    let (count, mut numbers, mut marks) = (3_000, [0; 21], 0);
    for _ in 0..count {
        let seeds = inputs::seeds(random);
        let steps: Vec<Step> = (0..random.below(120)).map(|_| step(random)).collect();
        let run = Run(seeds, steps);
        for (step, (number, ..)) in run.1.iter().zip(same(tables, &run).0) {
            if let Step::Mark(..) = step {
                numbers[number as usize] += 1;
                marks += 1;
            }
        }
    }
    format!(
        "{count} runs from seeding with {marks} saves, returns and drops; refused {}",
        met(&numbers, &[0, 11, 14, 18, 19, 20])
    )
}
