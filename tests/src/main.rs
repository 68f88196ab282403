//! Runs the static library and the programs beside another implementation of documents 01 and 02, written from them alone.
//! JABULGHI_SEED gives the generated inputs another seed. Words name the groups that are run, all without one. With the
//! words `checks FOLDER` it writes what the program crates/checks reads and has to print; with `elsewhere FILE` calls and
//! their answers, for tests/elsewhere.c. It runs in the repository whose library it was linked with.
mod cases;
mod checks;
mod counts;
mod edges;
mod elsewhere;
mod fixed;
mod given;
mod inputs;
mod intervals;
mod job;
mod jump;
mod legs;
mod library;
mod linked;
mod listings;
mod marks;
mod misclosure;
mod misses;
mod plays;
mod program;
mod random;
mod readings;
mod roots;
mod sample;
mod skips;
mod stream;
mod sums;
mod survex;
mod texts;
mod wide;
mod windows;

use cases::{same, same_samples, Call, Called, History, Sample, Seed};
use library::record_of;
use random::Random;
use sample::Tables;
use std::time::Instant;

/// Cases written out, and generated ones; each says what was compared.
type Edges = fn(&Tables) -> String;
type Group = fn(&Tables, &mut Random) -> String;

fn main() {
    let seed = std::env::var("JABULGHI_SEED").map_or(1996, |s| s.parse().expect("JABULGHI_SEED is a number"));
    let tables = Tables::new();
    readings::check(&tables);
    let words: Vec<String> = std::env::args().skip(1).collect();
    match &words.iter().map(String::as_str).collect::<Vec<_>>()[..] {
        ["checks", folder] => return checks::write(&tables, folder.as_ref()),
        ["elsewhere", file] => return elsewhere::write(&tables, &mut Random(seed), file.as_ref()),
        _ => (),
    }
    let sum = linked::sum(linked::LIBRARY).to_string();
    assert_eq!(sum, env!("LIBRARY_SUM"), "this program was linked with another library than {}", linked::LIBRARY);
    println!("the other implementation gives document 01's readings and example; inputs from seed {seed}");
    let edges: [(&str, Edges); 11] = [
        ("cells", edges::cells),
        ("records", edges::records),
        ("lengths", edges::lengths),
        ("skips", skips::given),
        ("counts", counts::given),
        ("marks", marks::given),
        ("listings", listings::given),
        ("drift", windows::given),
        ("misses", misses::given),
        ("intervals", intervals::given),
        ("plays", plays::given),
    ];
    for (_, group) in edges.iter().filter(|(name, _)| wanted(&words, name)) {
        println!("{}, all equal", group(&tables));
    }
    let groups: [(&str, Group); 28] = [
        ("seeds", seeds),
        ("roots", roots::places),
        ("samples", samples),
        ("histories", histories),
        ("pairs", pairs),
        ("blocks", blocks),
        ("skips", skips::skips),
        ("skips", skips::drawn),
        ("skips", skips::two),
        ("skips", skips::blocks),
        ("counts", counts::runs),
        ("counts", counts::noted),
        ("marks", marks::calls),
        ("marks", marks::runs),
        ("listings", listings::jobs),
        ("listings", program::program),
        ("wide", wide::samples),
        ("wide", wide::runs),
        ("drift", windows::pushes),
        ("drift", windows::runs),
        ("legs", legs::calls),
        ("legs", legs::program),
        ("cavern", legs::peer),
        ("misses", misses::listings),
        ("misses", misses::program),
        ("intervals", intervals::listings),
        ("intervals", intervals::program),
        ("plays", plays::plays_of_jobs),
    ];
    for (j, (name, group)) in groups.iter().enumerate().filter(|(_, (name, _))| wanted(&words, name)) {
        if let (&"cavern", Some(missing)) = (name, legs::peer_lacks()) {
            println!(
                "NOT RUN: the converter of surveys beside Survex, which needs {missing} (Debian: survex survex-aven)"
            );
            continue;
        }
        let start = Instant::now();
        let said = group(&tables, &mut Random(seed ^ (j as u64) << 56));
        println!("{said}, all equal ({:.1} s)", start.elapsed().as_secs_f64());
    }
    let known =
        |word: &String| edges.iter().any(|(name, _)| name == word) || groups.iter().any(|(name, _)| name == word);
    if let Some(word) = words.iter().find(|word| !known(word)) {
        println!("FAILED: no part or group is named '{word}'; tests/run list names them");
        std::process::exit(1);
    }
}

/// Whether a group is among those that were named; without names all are.
fn wanted(words: &[String], name: &str) -> bool {
    words.is_empty() || words.iter().any(|word| word == name)
}

fn seeds(tables: &Tables, random: &mut Random) -> String {
    let count = 500_000;
    for _ in 0..count {
        same(tables, &Seed(inputs::seeds(random)));
    }
    format!("{count} records seeded")
}

fn histories(tables: &Tables, random: &mut Random) -> String {
    let (count, length) = (400, 2000);
    let mut run = 0;
    while run < count {
        let seeds = inputs::seeds(random);
        if stream::accepted(&seeds) {
            same(tables, &History(seeds, length));
            run += 1;
        }
    }
    format!("{count} accepted seeds, {length} pairs from each against the recurrence on single bits")
}

fn samples(tables: &Tables, random: &mut Random) -> String {
    let (calls, refused) = same_samples(tables, random, 6_000_000, Sample);
    format!("{calls} calls from k and v, {refused} refused, {} samples", 2 * (calls - refused))
}

fn pairs(tables: &Tables, random: &mut Random) -> String {
    let count = 1_000_000;
    for _ in 0..count {
        same(tables, &Called(inputs::record(random, 1), Call::Pair));
    }
    format!("{count} pairs")
}

/// Runs of blocks, each from the record that the one before left.
fn blocks(tables: &Tables, random: &mut Random) -> String {
    let (mut count, mut samples) = (0, 0);
    while samples < 10_000_000 {
        let pairs = random.below(4000) as u64;
        let mut record = inputs::record(random, pairs);
        for _ in 0..20 {
            let length = match random.below(20) {
                0 => random.below(20_000),
                1..=4 => 2 * random.below(2000),
                5..=8 => (2 << random.below(12)) + random.below(5) - 2,
                _ => random.below(70),
            };
            if random.below(4) == 0 {
                same(tables, &Called(record, Call::Look(length)));
            }
            let (number, next, _) = same(tables, &Called(record, Call::Block(length)));
            record = record_of(&next);
            count += 1;
            samples += if number == 0 { length } else { 0 };
        }
    }
    format!("{count} blocks, {samples} samples")
}
