//! Document 02, "drift over the latest readings". Windows from anywhere are compared push by push. Of a window that was made the other side keeps
//! no window at all: it has the samples that came, and works everything out afresh.
use crate::cases::{below, same, without_one, Case};
use crate::elsewhere::Written;
use crate::library::{Lent, Mark};
use crate::random::Random;
use crate::sample::Tables;
use std::fmt;

extern "C" {
    fn jabulghi_window_make_members(
        size: *mut u32,
        held: *mut u32,
        place: *mut u32,
        places: *mut i16,
        sum: *mut i64,
        squares: *mut i64,
        n: u32,
    ) -> u32;
    fn jabulghi_window_push_members(
        size: *mut u32,
        held: *mut u32,
        place: *mut u32,
        places: *mut i16,
        sum: *mut i64,
        squares: *mut i64,
        sample: i16,
    ) -> u32;
    fn jabulghi_window_push_all_members(
        size: *mut u32,
        held: *mut u32,
        place: *mut u32,
        places: *mut i16,
        sum: *mut i64,
        squares: *mut i64,
        samples: *const i16,
        length: usize,
    ) -> u32;
}

const PLACES: usize = 4096;
const LIMIT: u64 = 1 << 42;
const UNFIT: u32 = 17;

#[derive(Clone, PartialEq)]
struct Window {
    size: u32,
    held: u32,
    place: u32,
    places: Vec<i16>,
    sum: i64,
    squares: i64,
}

/// With the places up to the last that is not 0.
impl fmt::Debug for Window {
    fn fmt(&self, f: &mut fmt::Formatter) -> fmt::Result {
        let used = self.places.iter().rposition(|&x| x != 0).map_or(0, |last| last + 1);
        let Window { size, held, place, sum, squares, .. } = self;
        write!(
            f,
            "N {size}, held {held}, place {place}, sums {sum} {squares}, places {:?}, then 0",
            &self.places[..used]
        )
    }
}

impl Mark for i64 {
    fn mark(place: usize) -> i64 {
        (place as i64 + 1).wrapping_mul(0x5851F42D4C957F2D)
    }
}

/// One sample, or many at once.
#[derive(Clone, Debug)]
enum Push {
    One(i16),
    All(Vec<i16>),
}

impl Push {
    fn samples(&self) -> &[i16] {
        match self {
            Push::One(sample) => std::slice::from_ref(sample),
            Push::All(samples) => samples,
        }
    }

    fn smaller(&self) -> Vec<Push> {
        let less = |x: i16| below(x.unsigned_abs().into()).into_iter().map(move |n| n as i16 * x.signum());
        match self {
            Push::One(x) => less(*x).map(Push::One).collect(),
            Push::All(samples) => {
                let shorter = below(samples.len() as u64).into_iter().map(|n| samples[..n as usize].to_vec());
                let without = without_one(samples).take(50);
                shorter.chain(without).map(Push::All).collect()
            }
        }
    }
}

// ---- the other implementation

fn of_zeros() -> Window {
    Window { size: 0, held: 0, place: 0, places: vec![0; PLACES], sum: 0, squares: 0 }
}

/// "17: N outside 1 to 4096, .. one said to hold more than N or marking a place outside it, or a sum beyond 2^42 in size"
fn fit(w: &Window) -> bool {
    let beyond = |sum: i64| sum.unsigned_abs() > LIMIT;
    (1..=4096).contains(&w.size) && w.held <= w.size && w.place < w.size && !beyond(w.sum) && !beyond(w.squares)
}

fn push(mut w: Window, sample: i16) -> (u32, Window) {
    if !fit(&w) {
        return (UNFIT, of_zeros());
    }
    let mut add = |sample: i16, sign: i64| {
        w.sum += sign * i64::from(sample);
        w.squares += sign * i64::from(sample) * i64::from(sample);
    };
    let oldest = std::mem::replace(&mut w.places[w.place as usize], sample);
    add(sample, 1);
    if w.held == w.size {
        add(oldest, -1);
    } else {
        w.held += 1;
    }
    w.place = (w.place + 1) % w.size;
    (0, w)
}

/// One by one, each passed what the one before returned; none at all tests the window.
fn push_all(w: Window, samples: &[i16]) -> (u32, Window) {
    let first = if fit(&w) { (0, w) } else { (UNFIT, of_zeros()) };
    samples.iter().fold(first, |(_, w), &sample| push(w, sample))
}

/// The window made for n after these samples: the last n of them, or all where fewer came.
fn afresh(n: u32, came: &[i16]) -> (u32, Window) {
    if !(1..=4096).contains(&n) {
        return (UNFIT, of_zeros());
    }
    let size = n as usize;
    let first = came.len().saturating_sub(size);
    let (mut w, latest) = (Window { size: n, ..of_zeros() }, &came[first..]);
    for (j, &sample) in latest.iter().enumerate() {
        w.places[(first + j) % size] = sample;
    }
    w.held = latest.len() as u32;
    w.place = (came.len() % size) as u32;
    w.sum = latest.iter().map(|&x| i64::from(x)).sum();
    w.squares = latest.iter().map(|&x| i64::from(x).pow(2)).sum();
    (0, w)
}

// ---- the library, on marked memory

/// The members of a window as they are lent, and the samples.
#[derive(Clone, PartialEq, Debug)]
struct Members {
    size: Lent<u32>,
    held: Lent<u32>,
    place: Lent<u32>,
    places: Lent<i16>,
    sum: Lent<i64>,
    squares: Lent<i64>,
    samples: Lent<i16>,
}

fn lent(w: &Window, samples: &[i16]) -> Members {
    let one = |x: u32| Lent::holding(&[x]);
    let (size, held, place) = (one(w.size), one(w.held), one(w.place));
    let (sum, squares) = (Lent::holding(&[w.sum]), Lent::holding(&[w.squares]));
    Members { size, held, place, places: Lent::holding(&w.places), sum, squares, samples: Lent::holding(samples) }
}

fn marked() -> Members {
    let (size, held, place) = (Lent::marked(1), Lent::marked(1), Lent::marked(1));
    let (sum, squares) = (Lent::marked(1), Lent::marked(1));
    Members { size, held, place, places: Lent::marked(PLACES), sum, squares, samples: Lent::holding(&[]) }
}

impl Members {
    fn window(&self) -> Window {
        let [size, held, place] = [&self.size, &self.held, &self.place].map(|member| member.elements()[0]);
        let [sum, squares] = [&self.sum, &self.squares].map(|member| member.elements()[0]);
        Window { size, held, place, places: self.places.elements().to_vec(), sum, squares }
    }
}

/// A number and a window; where margins or samples were written too, the members as they lie.
#[derive(Clone, PartialEq, Debug)]
enum Answer {
    Clean(u32, Window),
    Stray(u32, Members),
}

impl Answer {
    fn number(&self) -> u32 {
        let (Answer::Clean(number, _) | Answer::Stray(number, _)) = self;
        *number
    }

    fn window(&self) -> Window {
        match self {
            Answer::Clean(_, window) => window.clone(),
            Answer::Stray(_, members) => members.window(),
        }
    }
}

fn answer(number: u32, after: Members, samples: &[i16]) -> Answer {
    let window = after.window();
    if after == lent(&window, samples) {
        Answer::Clean(number, window)
    } else {
        Answer::Stray(number, after)
    }
}

fn library_make(n: u32) -> Answer {
    let mut m = marked();
    let number = unsafe {
        let Members { size, held, place, places, sum, squares, .. } = &mut m;
        let (sum, squares) = (sum.pointer(), squares.pointer());
        jabulghi_window_make_members(size.pointer(), held.pointer(), place.pointer(), places.pointer(), sum, squares, n)
    };
    answer(number, m, &[])
}

fn library_push(w: &Window, given: &Push) -> Answer {
    let mut m = lent(w, given.samples());
    let Members { size, held, place, places, sum, squares, samples } = &mut m;
    let (size, held, place, places) = (size.pointer(), held.pointer(), place.pointer(), places.pointer());
    let (sum, squares, samples) = (sum.pointer(), squares.pointer(), samples.pointer());
    let number = match given {
        Push::One(sample) => unsafe { jabulghi_window_push_members(size, held, place, places, sum, squares, *sample) },
        Push::All(all) => unsafe {
            jabulghi_window_push_all_members(size, held, place, places, sum, squares, samples, all.len())
        },
    };
    answer(number, m, given.samples())
}

// ---- cases

/// One call on a window from anywhere.
#[derive(Clone, Debug)]
struct Pushed(Window, Push);

impl Case for Pushed {
    type Answer = Answer;
    fn library(&self) -> Answer {
        library_push(&self.0, &self.1)
    }
    fn other(&self, _: &Tables) -> Answer {
        let (number, window) = match &self.1 {
            Push::One(sample) => push(self.0.clone(), *sample),
            Push::All(samples) => push_all(self.0.clone(), samples),
        };
        Answer::Clean(number, window)
    }
    fn smaller(&self) -> Vec<Pushed> {
        let Pushed(w, given) = self;
        let mut out: Vec<Pushed> = given.smaller().into_iter().map(|less| Pushed(w.clone(), less)).collect();
        let of = |n: u32| below(n.into()).into_iter().map(|m| m as u32);
        let near = |sum: i64| below(sum.unsigned_abs()).into_iter().map(move |m| (m as i64).wrapping_mul(sum.signum()));
        let mut with = |change: &dyn Fn(&mut Window)| {
            let mut less = w.clone();
            change(&mut less);
            out.push(Pushed(less, given.clone()));
        };
        if w.places.iter().any(|&x| x != 0) {
            with(&|less| less.places = vec![0; PLACES]);
        }
        of(w.size).for_each(|n| with(&|less| less.size = n));
        of(w.held).for_each(|n| with(&|less| less.held = n));
        of(w.place).for_each(|n| with(&|less| less.place = n));
        near(w.sum).for_each(|n| with(&|less| less.sum = n));
        near(w.squares).for_each(|n| with(&|less| less.squares = n));
        out
    }
}

/// A window made for n, and calls that are each passed what the one before returned.
#[derive(Clone, Debug)]
struct Run(u32, Vec<Push>);

impl Case for Run {
    type Answer = Vec<Answer>;
    fn library(&self) -> Vec<Answer> {
        let mut answers = vec![library_make(self.0)];
        for given in &self.1 {
            let passed = answers[answers.len() - 1].window();
            answers.push(library_push(&passed, given));
        }
        answers
    }
    fn other(&self, _: &Tables) -> Vec<Answer> {
        let mut came = Vec::new();
        let clean = |(number, window)| Answer::Clean(number, window);
        let mut answers = vec![clean(afresh(self.0, &came))];
        for given in &self.1 {
            came.extend_from_slice(given.samples());
            answers.push(clean(afresh(self.0, &came)));
        }
        answers
    }
    fn smaller(&self) -> Vec<Run> {
        let Run(n, calls) = self;
        let shorter = below(calls.len() as u64).into_iter().map(|m| Run(*n, calls[..m as usize].to_vec()));
        let less = (0..calls.len()).flat_map(|j| {
            calls[j].smaller().into_iter().map(move |given| {
                let mut next = calls.clone();
                next[j] = given;
                Run(*n, next)
            })
        });
        shorter.chain(less).chain(below((*n).into()).into_iter().map(|m| Run(m as u32, calls.clone()))).collect()
    }
}

// ---- what is compared

const SIZES: [u32; 9] = [0, 1, 2, 3, 4095, 4096, 4097, 1 << 31, u32::MAX];

fn sample(random: &mut Random) -> i16 {
    match random.below(6) {
        0 => *random.of(&[i16::MIN, i16::MAX, 0, 1, -1]),
        1 => (random.below(9000) as i16) - 4500,
        _ => random.next() as i16,
    }
}

fn samples(random: &mut Random, count: usize) -> Vec<i16> {
    (0..count).map(|_| sample(random)).collect()
}

fn window(random: &mut Random, size: u32, held: u32, place: u32, sum: i64, squares: i64) -> Window {
    Window { size, held, place, places: samples(random, PLACES), sum, squares }
}

/// A sum at an edge: 0, as large as is taken, one less, one beyond, or as large as 64 bits hold.
fn edge_sums() -> Vec<i64> {
    let limit = LIMIT as i64;
    vec![0, 1, -1, limit - 1, limit, limit + 1, 1 - limit, -limit, -limit - 1, i64::MAX, i64::MIN, i64::MIN + 1]
}

/// Making at every edge of N; and calls on windows from nowhere, each number of them at its edges.
pub fn given(tables: &Tables) -> String {
    let mut random = Random(9);
    let (mut run, mut refused) = (0, 0);
    for n in SIZES {
        same(tables, &Run(n, vec![Push::All(vec![]), Push::One(5), Push::All(vec![-7, 9])]));
    }
    for size in SIZES {
        let around = |n: u32| [0, n.saturating_sub(1), n, n.saturating_add(1), 4095, 4096, u32::MAX];
        let numbers = around(size).into_iter().flat_map(|held| around(size).map(|place| (held, place)));
        for (held, place) in numbers {
            for sum in edge_sums() {
                for squares in [0, *random.of(&edge_sums()), *random.of(&edge_sums())] {
                    let few = random.below(4);
                    let given = [Push::One(sample(&mut random)), Push::All(samples(&mut random, few))];
                    let w = window(&mut random, size, held, place, sum, squares);
                    for push in given {
                        refused += u32::from(same(tables, &Pushed(w.clone(), push)).number() == UNFIT);
                        run += 1;
                    }
                }
            }
        }
    }
    assert!(refused > 1000 && run - refused > 1000, "{refused} of {run} refused");
    format!("windows of {} N made and {run} calls on windows from nowhere, {refused} refused", SIZES.len())
}

/// A window from nowhere that is nearly always fit, its sums often so near an edge that one of many pushes is refused in mid-run; and samples.
fn nearly_fit(random: &mut Random) -> (Window, Vec<i16>) {
    let size = 1 + if random.one_in(2) { random.below(8) } else { random.below(PLACES) } as u32;
    let held = if random.one_in(2) { size } else { random.below(size as usize + 1) as u32 };
    let outside = random.one_in(50);
    let place = if outside { size } else { random.below(size as usize) as u32 };
    let near = |random: &mut Random, step: usize| {
        let off = random.below(3 * step) as i64 - step as i64;
        match random.below(4) {
            0 => 0,
            1 => LIMIT as i64 - off,
            2 => off - LIMIT as i64,
            _ => random.next() as i64 >> 22,
        }
    };
    let (sum, squares) = (near(random, 1 << 17), near(random, 1 << 31));
    let w = window(random, size, held, place, sum, squares);
    let most = *random.of(&[1, 2, 3, 40, 3 * size.min(30) as usize]);
    let length = random.below(most);
    (w, samples(random, length))
}

/// One call, for other processors.
pub fn elsewhere(_: &Tables, random: &mut Random) -> Written {
    let (w, all) = nearly_fit(random);
    let (name, n, before, (number, after), all) = match random.below(8) {
        0 => {
            let n = *random.of(&SIZES);
            ("window_make_members", n.into(), marked(), afresh(n, &[]), vec![])
        }
        1..=3 => {
            let one = sample(random);
            ("window_push_members", one as u64, lent(&w, &[]), push(w, one), vec![])
        }
        _ => ("window_push_all_members", all.len() as u64, lent(&w, &all), push_all(w, &all), all),
    };
    let after = lent(&after, &all);
    let written = Written::new(name, number, &[n]).lent(&before.size, &after.size).lent(&before.held, &after.held);
    let written = written.lent(&before.place, &after.place).lent(&before.places, &after.places);
    written.lent(&before.sum, &after.sum).lent(&before.squares, &after.squares).lent(&before.samples, &after.samples)
}

/// Such windows, pushed at once and one by one.
pub fn pushes(tables: &Tables, random: &mut Random) -> String {
    let (count, mut refused, mut midway) = (20_000, 0, 0);
    for _ in 0..count {
        let (w, all) = nearly_fit(random);
        let whole = same(tables, &Pushed(w.clone(), Push::All(all.clone())));
        // the same pushes one by one: what the last of them returns is what all at once return
        let mut last = (0, w.clone());
        for &sample in &all {
            let one = same(tables, &Pushed(last.1, Push::One(sample)));
            last = (one.number(), one.window());
        }
        if !all.is_empty() && whole != Answer::Clean(last.0, last.1) {
            println!("DIFFERENT: one by one and at once, {all:?} on {w:?}");
            std::process::exit(1);
        }
        refused += u32::from(whole.number() == UNFIT);
        midway += u32::from(whole.number() == UNFIT && fit(&w));
    }
    assert!(midway > 100, "only {midway} refused in mid-run");
    format!(
        "{count} windows from nowhere, pushed at once and one by one, {refused} refused, {midway} of them in mid-run"
    )
}

/// Runs from making. Every sum is that of the last N that came, worked out afresh; of extreme samples too, so that sums come near 2^42.
pub fn runs(tables: &Tables, random: &mut Random) -> String {
    let (count, mut calls, mut came) = (400, 0, 0);
    for j in 0..count {
        let n = match random.below(4) {
            _ if j % 50 == 0 => *random.of(&SIZES),
            0 => *random.of(&[1, 2, 3, 4095, 4096]),
            1 => 1 + random.below(20) as u32,
            _ => 1 + random.below(PLACES) as u32,
        };
        let extreme = random.one_in(4);
        let mut run = Vec::new();
        for _ in 0..random.below(30) {
            let most = *random.of(&[1, 2, 3, 100, 2 * (n as usize % 5000) + 1, 9000]);
            let length = random.below(most);
            let mut all = samples(random, length);
            if extreme {
                all.fill(i16::MIN);
            }
            run.push(if random.one_in(3) { Push::One(sample(random)) } else { Push::All(all) });
        }
        calls += run.len();
        came += run.iter().map(|given| given.samples().len()).sum::<usize>();
        let answers = same(tables, &Run(n, run));
        let fit = (1..=4096).contains(&n);
        assert!(answers.iter().all(|answer| (answer.number() == 0) == fit), "a call of a run was refused");
    }
    format!("{count} windows made, {calls} calls on them with {came} samples, sums worked out afresh after each")
}
