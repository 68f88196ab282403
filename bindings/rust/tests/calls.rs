//! Random calls through the crate and straight through the C interface, in marked memory; and what the types promise.
use jabulghi::{Generator, Marks, Refusal, Window};

const SEEDS: [u32; 6] = [3770694558, 3532774216, 2901327257, 4093209576, 2137023497, 2889436789];

mod c {
    extern "C" {
        pub fn jabulghi_pair(record: *mut u64, samples: *mut i16) -> u32;
        pub fn jabulghi_pair18(record: *mut u64, samples: *mut i32) -> u32;
        pub fn jabulghi_block(record: *mut u64, block: *mut i16, length: usize) -> u32;
        pub fn jabulghi_block18(record: *mut u64, block: *mut i32, length: usize) -> u32;
        pub fn jabulghi_look(record: *const u64, block: *mut i16, length: usize) -> u32;
        pub fn jabulghi_look18(record: *const u64, block: *mut i32, length: usize) -> u32;
        pub fn jabulghi_take(record: *mut u64, block: *mut i16, length: usize) -> u32;
        pub fn jabulghi_take18(record: *mut u64, block: *mut i32, length: usize) -> u32;
        pub fn jabulghi_skip(record: *mut u64, n: u64) -> u32;
        pub fn jabulghi_ask(record: *mut u64, n: u32) -> u32;
        pub fn jabulghi_give_up(record: *mut u64) -> u32;
    }
}

/// splitmix64
fn random(state: &mut u64) -> u64 {
    *state = state.wrapping_add(0x9E3779B97F4A7C15);
    let z = (*state ^ (*state >> 30)).wrapping_mul(0xBF58476D1CE4E5B9);
    let z = (z ^ (z >> 27)).wrapping_mul(0x94D049BB133111EB);
    z ^ (z >> 31)
}

/// The record's words, two by two.
fn words(g: &Generator) -> [u64; 5] {
    let two = |low: u32, high: u32| u64::from(low) | u64::from(high) << 32;
    [two(g.a[0], g.a[1]), two(g.a[2], g.b[0]), two(g.b[1], g.b[2]), g.count, two(g.open, g.asked)]
}

/// A record of any kind: one in eight unfit, one in three near the end of its count, one in two with a request.
fn any(state: &mut u64) -> Generator {
    let mut registers: [u32; 6] = std::array::from_fn(|_| random(state) as u32 | 16);
    if let Some(register) = registers.get_mut((random(state) % 48) as usize) {
        *register = 1;
    }
    let [a0, a1, a2, b0, b1, b2] = registers;
    let count = [0, 7, u64::MAX - random(state) % 40][(random(state) % 3) as usize];
    let open = (random(state) % 2) as u32;
    Generator { a: [a0, a1, a2], b: [b0, b1, b2], count, open, asked: 3 * open }
}

fn number<T>(answer: Result<T, Refusal>) -> u32 {
    answer.err().map_or(0, Refusal::number)
}

/// Both sides' samples stand in the middle of marked memory.
const ROOM: usize = 48;

/// One call on both sides; the numbers that they return.
fn both(
    kind: u64,
    n: usize,
    ours: &mut Generator,
    raw: &mut [u64; 5],
    short: &mut [[i16; ROOM]; 2],
    wide: &mut [[i32; ROOM]; 2],
) -> [u32; 2] {
    let ([x, y], [p, q], r) = (short, wide, raw.as_mut_ptr());
    let (x, y, p, q) = (&mut x[8..8 + n], y[8..].as_mut_ptr(), &mut p[8..8 + n], q[8..].as_mut_ptr());
    let mut samples = [0; 2];
    let mut samples18 = [0; 2];
    unsafe {
        match kind {
            0 => {
                let theirs = c::jabulghi_pair(r, samples.as_mut_ptr());
                let answer = ours.pair();
                assert_eq!(answer.unwrap_or([0; 2]), samples);
                [number(answer), theirs]
            }
            1 => {
                let theirs = c::jabulghi_pair18(r, samples18.as_mut_ptr());
                let answer = ours.pair18();
                assert_eq!(answer.unwrap_or([0; 2]), samples18);
                [number(answer), theirs]
            }
            2 => [number(ours.fill(x)), c::jabulghi_block(r, y, n)],
            3 => [number(ours.fill18(p)), c::jabulghi_block18(r, q, n)],
            4 => [number(ours.look(x)), c::jabulghi_look(r, y, n)],
            5 => [number(ours.look18(p)), c::jabulghi_look18(r, q, n)],
            6 => [number(ours.take(x)), c::jabulghi_take(r, y, n)],
            7 => [number(ours.take18(p)), c::jabulghi_take18(r, q, n)],
            8 => [number(ours.skip(n as u64)), c::jabulghi_skip(r, n as u64)],
            9 => [number(ours.ask(n as u32)), c::jabulghi_ask(r, n as u32)],
            _ => [number(ours.give_up()), c::jabulghi_give_up(r)],
        }
    }
}

#[test]
fn random_calls_beside_the_c_interface() {
    let (mut state, mut seen) = (1996, std::collections::BTreeSet::new());
    let mut ours = Generator::seed(SEEDS).unwrap();
    for done in 0..500_000 {
        if done % 100 == 0 {
            ours = any(&mut state);
        }
        let (kind, n) = (random(&mut state) % 11, (random(&mut state) % 32) as usize);
        let n = match kind {
            6 | 7 if n > 8 => 2 * (ours.asked as usize).min(16),
            2..=7 if n % 8 != 1 => n & !1,
            _ => n,
        };
        let (mut raw, before) = (words(&ours), words(&ours));
        let (mut short, mut wide) = ([[0x5A5A; ROOM]; 2], [[0x5A5A5A5A; ROOM]; 2]);
        let [number, theirs] = both(kind, n, &mut ours, &mut raw, &mut short, &mut wide);
        assert_eq!((number, words(&ours)), (theirs, raw), "call {done}, kind {kind}, {n}");
        assert!(short[0] == short[1] && wide[0] == wide[1], "call {done}, kind {kind}, {n}");
        assert!(
            short[0][..8].iter().chain(&short[0][8 + n..]).all(|&s| s == 0x5A5A)
                && wide[0][..8].iter().chain(&wide[0][8 + n..]).all(|&s| s == 0x5A5A5A5A)
        );
        assert!(number == 0 || raw == before && short[0] == [0x5A5A; ROOM] && wide[0] == [0x5A5A5A5A; ROOM]);
        seen.insert((kind, number));
    }
    assert!((0..11).all(|kind| seen.contains(&(kind, 0))));
    assert!([4, 11, 12, 13, 14, 15, 16].iter().all(|&number| seen.iter().any(|&(_, n)| n == number)), "{seen:?}");
}

#[test]
fn refusals_are_errors_with_words() {
    fn is_error(_: &dyn std::error::Error) {}
    for refusal in Refusal::ALL {
        is_error(refusal);
        assert_eq!(refusal.to_string(), format!("{} ({})", refusal.words(), *refusal as u32));
    }
    let refused = jabulghi::list(b"x", &mut []).unwrap_err();
    is_error(&refused);
    assert!(refused.to_string().starts_with("line 1: ") && refused.to_string().ends_with("(6)"));
    assert_eq!(Window::new(4097), Err(Refusal::UnfitWindow));
    assert_eq!(jabulghi::play(b"", 0, &mut []).unwrap_err().refusal, Refusal::WrongPlace);
}

#[test]
fn marks_lead_back() {
    let (mut rig, mut marks, mut first, mut again) =
        (Generator::seed(SEEDS).unwrap(), Marks::default(), [0; 10], [0; 10]);
    marks.save(&rig, b"D7").unwrap();
    rig.fill(&mut first).unwrap();
    marks.return_to(&mut rig, b"D7").unwrap();
    rig.fill(&mut again).unwrap();
    assert_eq!(first, again);
    marks.drop_mark(b"D7").unwrap();
    assert_eq!((marks.drop_mark(b"D7"), marks), (Err(Refusal::NameNotHeld), Marks::default()));
}

#[test]
fn length_0_moves_nothing() {
    let rig = Generator::seed(SEEDS).unwrap();
    let mut same = rig.clone();
    same.fill(&mut []).unwrap();
    same.fill18(&mut []).unwrap();
    assert_eq!(same, rig);
}
