//! The calls of jabulghi.h through the crate, under other names, so that a test in C runs them. What the crate does not hand back after a refusal is written as
//! the header says: zeros.
use jabulghi::{Generator, Marks, Miss, Refusal, TextRefusal, Window};
use std::slice::{from_raw_parts, from_raw_parts_mut};

fn number<T>(answer: &Result<T, Refusal>) -> u32 {
    answer.as_ref().err().map_or(0, |refusal| refusal.number())
}

fn text_number<T>(answer: &Result<T, TextRefusal>) -> (u32, usize) {
    answer.as_ref().err().map_or((0, 0), |refused| (refused.refusal.number(), refused.line))
}

/// A value, or its zeros, into the caller's memory.
unsafe fn put<T: Default>(answer: Result<T, Refusal>, place: *mut T) -> u32 {
    let is = number(&answer);
    *place = answer.unwrap_or_default();
    is
}

macro_rules! calls {
    ($($name:ident($record:ident: $kind:ty $(, $value:ident: $of:ty)*) $body:block)*) => {
        $(#[no_mangle] pub unsafe extern "C" fn $name($record: $kind $(, $value: $of)*) -> u32 { $body })*
    };
}

calls! {
    through_pair(g: &mut Generator, samples: *mut [i16; 2]) { put(g.pair(), samples) }
    through_pair18(g: &mut Generator, samples: *mut [i32; 2]) { put(g.pair18(), samples) }
    through_block(g: &mut Generator, block: *mut i16, length: usize) { number(&g.fill(from_raw_parts_mut(block, length))) }
    through_block18(g: &mut Generator, block: *mut i32, length: usize) { number(&g.fill18(from_raw_parts_mut(block, length))) }
    through_look(g: &Generator, block: *mut i16, length: usize) { number(&g.look(from_raw_parts_mut(block, length))) }
    through_look18(g: &Generator, block: *mut i32, length: usize) { number(&g.look18(from_raw_parts_mut(block, length))) }
    through_take(g: &mut Generator, block: *mut i16, length: usize) { number(&g.take(from_raw_parts_mut(block, length))) }
    through_take18(g: &mut Generator, block: *mut i32, length: usize) { number(&g.take18(from_raw_parts_mut(block, length))) }
    through_skip(g: &mut Generator, n: u64) { number(&g.skip(n)) }
    through_ask(g: &mut Generator, n: u32) { number(&g.ask(n)) }
    through_give_up(g: &mut Generator) { number(&g.give_up()) }
    through_sample(k: u64, v: u32, samples: *mut [i16; 2]) { put(jabulghi::sample(k, v), samples) }
    through_sample18(k: u64, v: u32, samples: *mut [i32; 2]) { put(jabulghi::sample18(k, v), samples) }
    through_seed(a0: u32, a1: u32, a2: u32, b0: u32, b1: u32, b2: u32, record: *mut Generator) {
        put(Generator::seed([a0, a1, a2, b0, b1, b2]), record)
    }
    through_list(text: *const u8, text_length: usize, listing: *mut u8, room: usize, line: &mut u32, length: &mut usize) {
        let answer = jabulghi::list(from_raw_parts(text, text_length), from_raw_parts_mut(listing, room));
        let (number, bad) = text_number(&answer);
        (*line, *length) = (bad as u32, answer.map_or(0, <[u8]>::len));
        number
    }
    through_legs(text: *const u8, text_length: usize, shots: *mut u8, room: usize, line: &mut usize, length: &mut usize) {
        let answer = jabulghi::legs(from_raw_parts(text, text_length), from_raw_parts_mut(shots, room));
        let (number, bad) = text_number(&answer);
        (*line, *length) = (bad, answer.map_or(0, <[u8]>::len));
        number
    }
    through_misclosure(text: *const u8, length: usize, sums: &mut [i64; 2], millimetres: &mut [i64; 2], line: &mut u32) {
        miss(jabulghi::misclosure(from_raw_parts(text, length)), sums, millimetres, line)
    }
    through_intervals(text: *const u8, length: usize, sums: &mut [i64; 4], millimetres: &mut [i64; 4], line: &mut u32) {
        miss(jabulghi::intervals(from_raw_parts(text, length)), sums, millimetres, line)
    }
    through_play(text: *const u8, length: usize, first: u64, misses: *mut [i64; 2], runs: usize, line: &mut u32) {
        let (number, bad) = text_number(&jabulghi::play(from_raw_parts(text, length), first, from_raw_parts_mut(misses, runs)));
        *line = bad as u32;
        number
    }
    through_window_make_members(size: &mut u32, held: &mut u32, place: &mut u32, places: &mut [i16; 4096], sum: &mut i64, squares: &mut i64, n: u32) {
        on_window((size, held, place, places, sum, squares), |window| window.make(n))
    }
    through_window_push_members(size: &mut u32, held: &mut u32, place: &mut u32, places: &mut [i16; 4096], sum: &mut i64, squares: &mut i64, sample: i16) {
        on_window((size, held, place, places, sum, squares), |window| window.push(sample))
    }
    through_window_push_all_members(
        size: &mut u32, held: &mut u32, place: &mut u32, places: &mut [i16; 4096], sum: &mut i64, squares: &mut i64, samples: *const i16, length: usize
    ) {
        on_window((size, held, place, places, sum, squares), |window| window.push_all(from_raw_parts(samples, length)))
    }
    through_marks_save_members(
        used: &mut [u32; 16], lengths: &mut [u32; 16], names: &mut [[u8; 12]; 16], records: &mut [Generator; 16], record: &Generator, name: *const u8, length: usize
    ) {
        on_marks((used, lengths, names, records), |marks| marks.save(record, from_raw_parts(name, length)))
    }
    through_marks_return_members(
        used: &[u32; 16], lengths: &[u32; 16], names: &[[u8; 12]; 16], records: &[Generator; 16], record: &mut Generator, name: *const u8, length: usize
    ) {
        let marks = Marks { used: *used, length: *lengths, names: *names, records: records.clone() };
        number(&marks.return_to(record, from_raw_parts(name, length)))
    }
    through_marks_drop_members(
        used: &mut [u32; 16], lengths: &mut [u32; 16], names: &mut [[u8; 12]; 16], records: &mut [Generator; 16], name: *const u8, length: usize
    ) {
        on_marks((used, lengths, names, records), |marks| marks.drop_mark(from_raw_parts(name, length)))
    }
}

fn miss<const N: usize>(
    answer: Result<Miss<N>, TextRefusal>,
    sums: &mut [i64; N],
    millimetres: &mut [i64; N],
    line: &mut u32,
) -> u32 {
    let (number, bad) = text_number(&answer);
    let found = answer.unwrap_or(Miss { sums: [0; N], millimetres: [0; N] });
    (*sums, *millimetres, *line) = (found.sums, found.millimetres, bad as u32);
    number
}

type Members<'a> = (&'a mut u32, &'a mut u32, &'a mut u32, &'a mut [i16; 4096], &'a mut i64, &'a mut i64);

fn on_window(
    (size, held, place, places, sum, squares): Members,
    call: impl FnOnce(&mut Window) -> Result<(), Refusal>,
) -> u32 {
    let mut window = Window { size: *size, held: *held, place: *place, places: *places, sum: *sum, squares: *squares };
    let is = number(&call(&mut window));
    (*size, *held, *place, *places, *sum, *squares) =
        (window.size, window.held, window.place, window.places, window.sum, window.squares);
    is
}

type Places<'a> = (&'a mut [u32; 16], &'a mut [u32; 16], &'a mut [[u8; 12]; 16], &'a mut [Generator; 16]);

fn on_marks((used, lengths, names, records): Places, call: impl FnOnce(&mut Marks) -> Result<(), Refusal>) -> u32 {
    let mut marks = Marks { used: *used, length: *lengths, names: *names, records: records.clone() };
    let is = number(&call(&mut marks));
    (*used, *lengths, *names, *records) = (marks.used, marks.length, marks.names, marks.records);
    is
}
