//! What the program crates/checks reads, and what it has to print, by the other implementation alone.
use crate::job::{self, ROOM, SHOTS};
use crate::readings::JOB;
use crate::sample::Tables;
use crate::stream::{block, seed};
use std::path::Path;

/// A job of one shot too many that begins with document 01's.
fn text() -> Vec<u8> {
    [JOB, "(shot A B 5 65530)\n".repeat(SHOTS - 1).as_bytes()].concat()
}

fn line(numbers: impl IntoIterator<Item = i64>) -> String {
    numbers.into_iter().map(|n| format!(" {n}")).collect::<String>() + "\n"
}

/// A job's number and line, and its listing.
fn job(tables: &Tables, text: &[u8]) -> String {
    let (number, at, listing) = job::list(tables, text, ROOM);
    line([number.into(), at.into()]) + std::str::from_utf8(&listing).unwrap()
}

fn samples(tables: &Tables, k: u64, v: u32) -> String {
    let (number, first, second) = tables.sample(k, v);
    line([number.into(), first.into(), second.into()])
}

/// The numbers of seeding and of a block of six samples, and the samples. All registers but the first are the same.
fn block_line(tables: &Tables, s0: u32, others: u32) -> String {
    let (seeded, record) = seed(&[s0, others, others, others, others, others]);
    let mut samples = [0; 6];
    let (filled, _) = block(tables, &record, &mut samples);
    line([seeded, filled].map(i64::from).into_iter().chain(samples.map(i64::from)))
}

/// Another register.
fn scattered(register: u32) -> u32 {
    register.wrapping_mul(1664525).wrapping_add(1013904223)
}

fn printed(tables: &Tables) -> String {
    let (text, shot) = (text(), "(shot A B 5 65530)\n".len());
    let mut out = [JOB, &text[..text.len() - shot], &text].map(|text| job(tables, text)).concat();
    out +=
        &[samples(tables, 1 << 48, 0), samples(tables, 0, 65536), block_line(tables, 1, 16), block_line(tables, 2, 16)]
            .concat();
    out.extend((0..36).map(scattered).map(|s0| block_line(tables, s0, scattered(s0))));
    out
}

/// Writes the program's two files into a folder.
pub fn write(tables: &Tables, folder: &Path) {
    std::fs::write(folder.join("stdin"), text()).unwrap();
    std::fs::write(folder.join("stdout"), printed(tables)).unwrap();
}
