//! Document 02, Jobs 13 and 14: how far the loop of a listing misses, and how far at least and at most.
use crate::sample::Tables;

/// The most shots of a listing, and the most of a distance in mm.
pub const SHOTS: usize = 500;
pub const FARTHEST: u64 = 1_008_242;

/// The first line of each kind of listing.
pub const HEADER: &str = "FROM TO MM STEP\n";
pub const BETWEEN: &str = "FROM TO LOW HIGH STEP\n";

/// Number, line, sums at 2^30, and each in whole millimetres.
pub type Sums<const N: usize> = (u32, u32, [i64; N], [i64; N]);

/// East and north.
pub type Miss = Sums<2>;

/// East low, east high, north low and north high.
pub type Interval = Sums<4>;

/// A job's name.
fn name(field: &[u8]) -> bool {
    (1..=12).contains(&field.len()) && field.iter().all(u8::is_ascii_alphanumeric)
}

/// A job's number.
fn number(field: &[u8]) -> Option<u64> {
    let digits = (1..=10).contains(&field.len()) && field.iter().all(u8::is_ascii_digit);
    if !digits || field.len() > 1 && field[0] == b'0' {
        return None;
    }
    std::str::from_utf8(field).unwrap().parse().ok()
}

enum Line<'a> {
    Shot(&'a [u8], &'a [u8], [u64; 2], u64),
    End(u64),
}

/// What a line after the header says, None where it is unlike a listing's.
fn line<'a>(ended: &'a [u8], header: &str) -> Option<Line<'a>> {
    let fields: Vec<&[u8]> = ended.strip_suffix(b"\n")?.split(|&b| b == b' ').collect();
    match fields[..] {
        [b"END", count] => Some(Line::End(number(count)?)),
        [from, to, mm, step] if header == HEADER && name(from) && name(to) => {
            Some(Line::Shot(from, to, [number(mm)?; 2], number(step)?))
        }
        [from, to, low, high, step] if header == BETWEEN && name(from) && name(to) => {
            Some(Line::Shot(from, to, [number(low)?, number(high)?], number(step)?))
        }
        _ => None,
    }
}

/// The least and the greatest distance, and the step.
type Shot = ([u64; 2], u64);

/// The shots of a listing with that header, or the number and the line of a refusal.
fn read(text: &[u8], header: &str) -> Result<Vec<Shot>, (u32, u32)> {
    let refused = |number, at: usize| Err((number, at as u32));
    let lines: Vec<&[u8]> = text.split_inclusive(|&b| b == b'\n').collect();
    if lines.first() != Some(&header.as_bytes()) {
        return refused(6, 1);
    }
    let (mut shots, mut last) = (Vec::new(), None);
    for at in 2.. {
        match lines.get(at - 1).and_then(|ended| line(ended, header)) {
            None => return refused(6, at),
            Some(Line::End(count)) if count != shots.len() as u64 => return refused(6, at),
            Some(Line::End(_)) if lines.len() > at => return refused(6, at + 1),
            Some(Line::End(_)) => break,
            Some(Line::Shot(from, to, [low, high], step)) => {
                if shots.len() == SHOTS || low > FARTHEST || high > FARTHEST || step > 65535 {
                    return refused(24, at);
                }
                if low > high {
                    return refused(25, at);
                }
                if last.is_some_and(|station: &[u8]| station != from) {
                    return refused(23, at);
                }
                last = Some(to);
                shots.push(([low, high], step));
            }
        }
    }
    Ok(shots)
}

pub fn miss(tables: &Tables, text: &[u8]) -> Miss {
    match read(text, HEADER) {
        Err((number, at)) => (number, at, [0; 2], [0; 2]),
        Ok(shots) => {
            let mut sums = [0i128; 2];
            for ([mm, _], step) in shots {
                let (sine, cosine) = tables.rotation(step as u32);
                sums = [sums[0] + i128::from(mm) * sine, sums[1] + i128::from(mm) * cosine];
            }
            (0, 0, sums.map(|sum| sum as i64), sums.map(|sum| millimetres(sum) as i64))
        }
    }
}

/// Each shot adds the less of its two products to the low sums and the greater to the high ones.
pub fn interval(tables: &Tables, text: &[u8]) -> Interval {
    match read(text, BETWEEN) {
        Err((number, at)) => (number, at, [0; 4], [0; 4]),
        Ok(shots) => {
            let mut sums = [0i128; 4];
            for (ends, step) in shots {
                let (sine, cosine) = tables.rotation(step as u32);
                for (at, factor) in [(0, sine), (2, cosine)] {
                    let [a, b] = ends.map(|mm| i128::from(mm) * factor);
                    sums[at] += a.min(b);
                    sums[at + 1] += a.max(b);
                }
            }
            (0, 0, sums.map(|sum| sum as i64), sums.map(|sum| millimetres(sum) as i64))
        }
    }
}

/// The nearest whole number, halves away from zero.
fn millimetres(sum: i128) -> i128 {
    sum.signum() * ((2 * sum.abs() + (1 << 30)) / (1 << 31))
}
