//! Level legs from Survex, from document 02's Job 12 alone: 0 and the shot lines, or the refusal and its line.

const DATA: &[u8] = b"*data normal from to tape compass clino";
const STEPS: u64 = 65536;

fn is_blank(b: &u8) -> bool {
    matches!(b, b' ' | b'\t')
}

fn is_name(field: &[u8]) -> bool {
    (1..=12).contains(&field.len()) && field.iter().all(u8::is_ascii_alphanumeric)
}

/// A number of 1 to 4 digits and perhaps a point and at most so many decimals, in units of the last of them.
fn number(field: &[u8], decimals: usize) -> Option<u64> {
    let text = std::str::from_utf8(field).ok()?;
    let (whole, fraction) = text.split_once('.').unwrap_or((text, "0"));
    let digits = |s: &str, most| (1..=most).contains(&s.len()) && s.bytes().all(|b| b.is_ascii_digit());
    if !digits(whole, 4) || !digits(fraction, decimals) {
        return None;
    }
    format!("{whole}{fraction:0<decimals$}").parse().ok()
}

/// A leg's shot line, or the number of its refusal.
fn leg(line: &[u8]) -> Result<String, u32> {
    let fields: Vec<&[u8]> = line.split(is_blank).filter(|field| !field.is_empty()).collect();
    let [from, to, tape, compass, clino] = fields[..] else { return Err(21) };
    let (Some(mm), Some(hundredths)) = (number(tape, 3), number(compass, 2)) else { return Err(21) };
    if !is_name(from) || !is_name(to) {
        return Err(21);
    }
    if mm > 1_000_000 || hundredths > 36_000 || clino != b"0" {
        return Err(22);
    }
    // the step below, and the one above where it is as near or nearer
    let (below, rest) = (hundredths * STEPS / 36_000, hundredths * STEPS % 36_000);
    let step = (below + u64::from(rest >= 18_000)) % STEPS;
    Ok(format!("(shot {} {} {mm} {step})\n", from.escape_ascii(), to.escape_ascii()))
}

/// What is left of a line without its line feed.
fn left(line: &[u8]) -> &[u8] {
    let line = line.split(|&b| b == b';').next().unwrap();
    let start = line.iter().position(|b| !is_blank(b)).unwrap_or(line.len());
    let end = line.iter().rposition(|b| !is_blank(b)).map_or(start, |at| at + 1);
    &line[start..end]
}

pub fn legs(text: &[u8], room: usize) -> (u32, usize, Vec<u8>) {
    let (mut number, mut headed, mut shots) = (0, false, Vec::new());
    for line in text.split_inclusive(|&b| b == b'\n') {
        number += 1;
        let Some(line) = line.strip_suffix(b"\n") else { return (21, number, Vec::new()) };
        match left(line) {
            b"" => {}
            line if !headed => {
                if line != DATA {
                    return (21, number, Vec::new());
                }
                headed = true;
            }
            line => match leg(line) {
                Ok(shot) => shots.extend(shot.bytes()),
                Err(refusal) => return (refusal, number, Vec::new()),
            },
        }
    }
    match (headed, shots.len() > room) {
        (false, _) => (21, number + 1, Vec::new()),
        (true, true) => (10, 0, Vec::new()),
        (true, false) => (0, 0, shots),
    }
}
