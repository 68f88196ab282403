//! Document 01, "Twelve readings to check", with the half step of document 02, and the example job: the other implementation is held to
//! them first. The power of x is held to stepping.
use crate::job;
use crate::jump::register_after;
use crate::sample::Tables;
use crate::stream::{draw_of, recurrence, step, step_both, A, SHIFTS};

const READINGS: [(u64, u32, i16, i16); 10] = [
    (1, 0, 0, 16604),
    (1, 16384, 16604, 0),
    (1, 32768, 0, -16604),
    (1, 49152, -16604, 0),
    (0, 0, 0, 16879),
    (1 << 47, 0, 0, 2411),
    (1 << 47, 8192, 1705, 1705),
    (1 << 46, 0, 0, 3410),
    (1 << 40, 24576, 4823, -4823),
    ((1 << 48) - 1, 0, 0, 0),
];

pub const JOB: &[u8] =
    b"(seeds (a 2 8 16) (b 2 8 16))\n(sigma 4 10)\n(shot A1 A2 12345 4500)\n(shot A2 A3 9000 65530)\n";
pub const LISTING: &[u8] = b"FROM TO MM STEP\nA1 A2 12356 4527\nA2 A3 9011 8\nEND 2\n";

pub fn check(tables: &Tables) {
    assert_eq!(tables.ln_two(), 0xB17217F7D2);
    for (k, v, first, second) in READINGS {
        assert_eq!(tables.sample(k, v), (0, first, second), "k {k}, v {v}");
    }
    assert_eq!(tables.sample(1 << 48, 65536), (2, 0, 0));
    assert_eq!(tables.sample(0, 65536), (3, 0, 0));
    let mut record = [2, 8, 16, 2, 8, 16];
    assert_eq!([step(&mut record, A), step(&mut record, A)], [0x00202080, 0x02002C80]);
    assert_eq!(recurrence([2, 8, 16], 2).into_iter().map(draw_of).collect::<Vec<_>>(), [0x00202080, 0x02002C80]);
    assert_eq!(job::list(tables, JOB, job::ROOM), (0, 0, LISTING.to_vec()));
    jumps();
}

/// Few steps; and where there is one, as many whole periods of 2^k - 1 steps more as fit 64 bits.
fn jumps() {
    for record in [[2, 8, 16, 3, 15, 31], [u32::MAX; 6], [123456789, 987654321, 192837465, 1 << 31, 1 << 29, 1 << 28]] {
        let mut after = record;
        for n in 0..64 {
            for j in 0..6 {
                let shifts = SHIFTS[j % 3];
                let period = (1 << shifts.0) - 1;
                let rounds = if n == 0 { 0 } else { (u64::MAX - n) / period };
                for n in [n, n + rounds * period] {
                    assert_eq!(
                        register_after(record[j], n, shifts),
                        after[j],
                        "register {} after {n} steps",
                        record[j]
                    );
                }
            }
            step_both(&mut after);
        }
    }
}
