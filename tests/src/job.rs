//! Document 01, "A job and its listing".
use crate::sample::Tables;
use crate::stream::{fresh, pair, seed, Registers};

/// The most shots of a job, and the room that its listing never exceeds.
pub const SHOTS: usize = 500;
pub const ROOM: usize = 20_480;

/// The three forms: `#` stands for a number, `@` for a name.
const SEEDS: &[u8] = b"(seeds (a # # #) (b # # #))";
const SIGMA: &[u8] = b"(sigma # #)";
const SHOT: &[u8] = b"(shot @ @ # #)";

/// What a line holds in a form's places: the names, and the numbers in order.
#[derive(Default)]
struct Fields<'a> {
    names: Vec<&'a [u8]>,
    numbers: Vec<u64>,
}

/// The fields of a line that has the form, byte for byte outside the places.
fn read<'a>(line: &'a [u8], form: &[u8]) -> Option<Fields<'a>> {
    let mut fields = Fields::default();
    let mut rest = line;
    for place in form {
        let length = match place {
            b'#' => rest.iter().take_while(|b| b.is_ascii_digit()).count(),
            b'@' => rest.iter().take_while(|b| b.is_ascii_alphanumeric()).count(),
            byte => usize::from(rest.first() == Some(byte)),
        };
        let (field, after) = rest.split_at(length);
        match place {
            b'#' if (1..=10).contains(&length) && (length == 1 || field[0] != b'0') => {
                fields.numbers.push(std::str::from_utf8(field).unwrap().parse().unwrap())
            }
            b'@' if (1..=12).contains(&length) => fields.names.push(field),
            b'#' | b'@' => return None,
            _ if length == 1 => {}
            _ => return None,
        }
        rest = after;
    }
    rest.is_empty().then_some(fields)
}

/// A line's form and fields, or None where it has none of the three.
fn form_of(line: &[u8]) -> Option<(&'static [u8], Fields<'_>)> {
    [SEEDS, SIGMA, SHOT].into_iter().find_map(|form| read(line, form).map(|fields| (form, fields)))
}

/// Number, line, and the listing's bytes, empty where refused. `room` is the length of the buffer lent.
pub fn list(tables: &Tables, text: &[u8], room: usize) -> (u32, u32, Vec<u8>) {
    let refused = |number, line| (number, line, Vec::new());
    if text.len() > 60_000 {
        return refused(5, 0);
    }
    let (mut record, mut sigma) = (fresh([0; 6]), (0, 0));
    let mut listing = b"FROM TO MM STEP\n".to_vec();
    let (mut line, mut shots) = (0, 0);
    for ended in text.split_inclusive(|&b| b == b'\n') {
        line += 1;
        let read = if ended.ends_with(b"\n") { form_of(&ended[..ended.len() - 1]) } else { None };
        let Some((form, Fields { names, numbers })) = read else {
            return refused(6, line);
        };
        let wanted = [SEEDS, SIGMA, SHOT][(line as usize - 1).min(2)];
        if form != wanted {
            return refused(8, line);
        }
        if line as usize > SHOTS + 2 {
            return refused(9, line);
        }
        let most: &[u64] = match line {
            1 => &[4_294_967_295; 6],
            2 => &[1000; 2],
            _ => &[1_000_000, 65_535],
        };
        if numbers.iter().zip(most).any(|(n, most)| n > most) {
            return refused(7, line);
        }
        match line {
            1 => {
                let seeds = Registers::try_from(numbers.iter().map(|&n| n as u32).collect::<Vec<_>>()).unwrap();
                let (number, seeded) = seed(&seeds);
                if number != 0 {
                    return refused(number, 1);
                }
                record = seeded;
            }
            2 => sigma = (numbers[0] as i64, numbers[1] as i64),
            _ => {
                let (_, [first, second], next) = pair(tables, &record);
                record = next;
                shots += 1;
                let mm = (numbers[0] as i64 + noise(sigma.0, first)).max(0);
                let step = (numbers[1] as i64 + noise(sigma.1, second)).rem_euclid(65536);
                for name in names {
                    listing.extend_from_slice(name);
                    listing.push(b' ');
                }
                listing.extend_from_slice(format!("{mm} {step}\n").as_bytes());
            }
        }
    }
    if line < 2 {
        return refused(8, line + 1);
    }
    listing.extend_from_slice(format!("END {shots}\n").as_bytes());
    if listing.len() > room {
        return refused(10, 0);
    }
    (0, 0, listing)
}

/// sigma times |sample| over 2048, nearest, halves away from zero, with the sample's sign.
fn noise(sigma: i64, sample: i16) -> i64 {
    let sample = i64::from(sample);
    sample.signum() * ((2 * sigma * sample.abs() + 2048) / 4096)
}
