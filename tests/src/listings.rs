//! Whole jobs: the library's listing beside the other implementation's.
use crate::cases::{below, lines, same, without_one, Case};
use crate::elsewhere::{self, Written};
use crate::given;
use crate::job;
use crate::library::{Lent, Mark};
use crate::random::Random;
use crate::sample::Tables;
use crate::texts;
use std::fmt;

extern "C" {
    fn jabulghi_list(
        text: *const u8,
        text_length: usize,
        listing: *mut u8,
        listing_length: usize,
        line: *mut u32,
        length: *mut usize,
    ) -> u32;
}

impl Mark for u8 {
    fn show(elements: &[u8]) -> String {
        format!("\"{}\"", elements.escape_ascii())
    }
    fn mark(place: usize) -> u8 {
        (place * 89 + 0xA5) as u8
    }
}
impl Mark for usize {
    fn mark(place: usize) -> usize {
        (place + 1).wrapping_mul(0x9E3779B97F4A7C15)
    }
}

/// Number, text, listing, line, length.
type Listed = (u32, Lent<u8>, Lent<u8>, Lent<u32>, Lent<usize>);

fn list(text: &[u8], room: usize) -> Listed {
    let (mut lent, mut listing) = (Lent::holding(text), Lent::marked(room));
    let (mut line, mut length) = (Lent::marked(1), Lent::marked(1));
    let number =
        unsafe { jabulghi_list(lent.pointer(), text.len(), listing.pointer(), room, line.pointer(), length.pointer()) };
    (number, lent, listing, line, length)
}

/// A text and the length of the buffer lent for its listing.
#[derive(Clone)]
struct Job(Vec<u8>, usize);

impl fmt::Debug for Job {
    fn fmt(&self, f: &mut fmt::Formatter) -> fmt::Result {
        write!(f, "a job of {} bytes, room {}: \"{}\"", self.0.len(), self.1, self.0.escape_ascii())
    }
}

impl Case for Job {
    type Answer = Listed;
    fn library(&self) -> Listed {
        list(&self.0, self.1)
    }
    fn other(&self, tables: &Tables) -> Listed {
        let (number, line, bytes) = job::list(tables, &self.0, self.1);
        (
            number,
            Lent::holding(&self.0),
            Lent::starting(&bytes, self.1),
            Lent::holding(&[line]),
            Lent::holding(&[bytes.len()]),
        )
    }
    fn smaller(&self) -> Vec<Job> {
        let Job(text, room) = self;
        let lines = lines(text);
        let mut texts = Vec::new();
        // without runs of lines, long ones first; with plain shots; without single bytes
        let mut run = lines.len();
        while run > 0 {
            let starts = (0..lines.len()).step_by(run);
            texts.extend(starts.map(|at| [&lines[..at], &lines[(at + run).min(lines.len())..]].concat().concat()));
            run /= 2;
        }
        let plain =
            |line: &&[u8]| if line.starts_with(b"(shot ") { b"(shot A B 0 0)\n".to_vec() } else { line.to_vec() };
        texts.push(lines.iter().map(plain).collect::<Vec<_>>().concat());
        if text.len() < 2000 {
            texts.extend(without_one(text));
        }
        texts.retain(|shorter| shorter.len() < text.len());
        // each with the room there is, and with just the room that its listing takes
        let just = |t: &[u8]| list(t, job::ROOM).4.elements()[0];
        let mut out: Vec<Job> =
            texts.into_iter().flat_map(|t| [Job(t.clone(), *room), Job(t.clone(), just(&t))]).collect();
        out.extend(below(*room as u64).into_iter().map(|r| Job(text.clone(), r as usize)));
        out
    }
}

/// The jobs written out, with room enough; an accepted one also with just its listing's room, a byte more, a byte less and none.
pub fn given(tables: &Tables) -> String {
    let texts = given::texts();
    let mut numbers = [0; 13];
    for text in &texts {
        let length = job::list(tables, text, usize::MAX).2.len();
        for room in [job::ROOM, length, length + 1, length.saturating_sub(1), 0] {
            numbers[same(tables, &Job(text.clone(), room)).0 as usize] += 1;
        }
    }
    format!("{} jobs written out, each with five buffers, by number {numbers:?}", texts.len())
}

/// One call, for other processors: a job of few lines, with room for its listing or not quite.
pub fn elsewhere(tables: &Tables, random: &mut Random) -> Written {
    let text = elsewhere::short(|| texts::text(random), Vec::len);
    let length = job::list(tables, &text, usize::MAX).2.len();
    let room = [length, length.saturating_sub(1), length + 40, length + 40][random.below(4)];
    let (number, same_text, listing, line, length) = Job(text.clone(), room).other(tables);
    let written =
        Written::new("list", number, &[text.len() as u64, room as u64]).lent(&Lent::holding(&text), &same_text);
    written.lent(&Lent::marked(room), &listing).lent(&Lent::marked(1), &line).lent(&Lent::marked(1), &length)
}

pub fn jobs(tables: &Tables, random: &mut Random) -> String {
    let count = 40_000;
    let mut numbers = [0; 13];
    for _ in 0..count {
        let text = texts::text(random);
        let length = job::list(tables, &text, usize::MAX).2.len();
        let room = match random.below(10) {
            0 => length,
            1 => length.saturating_sub(1),
            2 => random.below(length + 50),
            3 => random.below(60),
            _ => job::ROOM,
        };
        numbers[same(tables, &Job(text, room)).0 as usize] += 1;
    }
    for number in [0, 5, 6, 7, 8, 9, 10, 11, 12] {
        assert!(numbers[number] >= 20, "only {} jobs with number {number}", numbers[number]);
    }
    format!("{count} jobs, by number {numbers:?}")
}
