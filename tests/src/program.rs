//! The listing program as it is built, fed through pipes, beside the other implementation.
use crate::given;
use crate::job::{self, ROOM, SHOTS};
use crate::random::Random;
use crate::sample::Tables;
use crate::texts;
use std::fs::File;
use std::io::Write;
use std::os::fd::AsRawFd;
use std::process::{Command, Output, Stdio};
use std::thread::sleep;
use std::time::Duration;

const PROGRAM: &str = "target/bin/listing";
const SEEDS: &str = "(seeds (a 2 8 16) (b 2 8 16))\n";
const SIGMA: &str = "(sigma 4 10)\n";
const SHOT: &str = "(shot A1 A2 12345 4500)\n";

extern "C" {
    fn fcntl(fd: i32, command: i32, flags: i32) -> i32;
}
const F_SETFL: i32 = 4;
const O_NONBLOCK: i32 = 0x800;

fn expected(tables: &Tables, text: &[u8]) -> Vec<u8> {
    match job::list(tables, text, ROOM) {
        (0, _, listing) => listing,
        (number, line, _) => format!("REFUSED {number} {line}\n").into_bytes(),
    }
}

/// Runs a program on a text that comes in pieces, with a pause after each.
pub fn run(program: &str, text: &[u8], piece: usize, pause: Duration) -> Output {
    let mut child = command(program).stdin(Stdio::piped()).spawn().expect("the program is built");
    let mut input = child.stdin.take().unwrap();
    for part in text.chunks(piece) {
        // a text that is longer than the program reads may find the pipe closed
        if input.write_all(part).is_err() {
            break;
        }
        sleep(pause);
    }
    drop(input);
    child.wait_with_output().unwrap()
}

fn command(program: &str) -> Command {
    let mut command = Command::new(program);
    command.stdout(Stdio::piped()).stderr(Stdio::piped());
    command
}

pub fn writes(output: &Output, stdout: &[u8], stderr: &str, what: &str) {
    let (out, err) = (output.stdout.escape_ascii(), output.stderr.escape_ascii());
    assert_eq!(out.to_string(), stdout.escape_ascii().to_string(), "standard output of {what}");
    assert_eq!(err.to_string(), stderr.as_bytes().escape_ascii().to_string(), "standard error of {what}");
}

/// An example and the rows for a job of docs/refusals.md, as they are printed there.
fn rows() -> Vec<(String, String)> {
    let head = format!("{SEEDS}{SIGMA}");
    let rows = [
        (format!("{head}{SHOT}(shot A2 A3 9000 65530)\n"), "FROM TO MM STEP\nA1 A2 12356 4527\nA2 A3 9011 8\nEND 2\n"),
        (head.clone(), "FROM TO MM STEP\nEND 0\n"),
        (head.replacen("a 2", "a 1", 1), "REFUSED 11 1\n"),
        (head.replacen("b 2", "b 1", 1), "REFUSED 12 1\n"),
        (head.replace(" 16)", " 15)"), "REFUSED 11 1\n"),
        (format!("{head}{}", "\n".repeat(60_001 - head.len())), "REFUSED 5 0\n"),
        (format!("{head}{}", "\n".repeat(60_000 - head.len())), "REFUSED 6 3\n"),
        (format!("{head}(shot A1  A2 1 2)\n"), "REFUSED 6 3\n"),
        (format!("{head}(shot A1 A2 01 2)\n"), "REFUSED 6 3\n"),
        (format!("{head}(shot A1 A2 1 2)"), "REFUSED 6 3\n"),
        (format!("{SEEDS}(sigma 4 1001)\n"), "REFUSED 7 2\n"),
        (format!("{SEEDS}{SHOT}"), "REFUSED 8 2\n"),
        (String::new(), "REFUSED 8 1\n"),
    ];
    let mut rows: Vec<_> = rows.into_iter().map(|(text, printed)| (text, printed.to_string())).collect();
    rows.push((format!("{head}{}", SHOT.repeat(SHOTS + 1)), format!("REFUSED 9 {}\n", SHOTS + 3)));
    rows
}

/// Reads and writes that fail: nothing on standard output but what is right, and one line on standard error.
pub fn failures(program: &str, name: &str, text: &str) -> u32 {
    let reading = format!("{name}: reading standard input: ");
    let writing = format!("{name}: writing standard output: ");

    let from_directory = command(program).stdin(File::open("/").unwrap()).output().unwrap();
    writes(&from_directory, b"", &format!("{reading}Is a directory\n"), "a directory as input");

    let closed = Command::new("sh").args(["-c", "exec \"$0\" <&-", program]).output().unwrap();
    writes(&closed, b"", &format!("{reading}Bad file descriptor\n"), "a closed input");

    // a pipe that does not wait, and pauses after the first shot
    let (reader, mut writer) = std::io::pipe().unwrap();
    assert_eq!(unsafe { fcntl(reader.as_raw_fd(), F_SETFL, O_NONBLOCK) }, 0);
    writer.write_all(text.as_bytes()).unwrap();
    let child = command(program).stdin(reader).spawn().unwrap();
    let paused = child.wait_with_output().unwrap();
    writes(&paused, b"", &format!("{reading}Resource temporarily unavailable\n"), "a pipe that does not wait");
    drop(writer);

    let full = ["-c", "printf %s \"$1\" | \"$0\" >/dev/full", program, text];
    writes(
        &Command::new("sh").args(full).output().unwrap(),
        b"",
        &format!("{writing}No space left on device\n"),
        "a full device",
    );

    // nobody reads the output, and the program is told so instead of being ended by a signal
    let broken = ["-c", "trap '' PIPE; sleep 0.2; exec \"$0\"", program];
    let mut child = Command::new("sh")
        .args(broken)
        .stdin(Stdio::piped())
        .stdout(Stdio::piped())
        .stderr(Stdio::piped())
        .spawn()
        .unwrap();
    drop(child.stdout.take());
    child.stdin.take().unwrap().write_all(text.as_bytes()).unwrap();
    writes(&child.wait_with_output().unwrap(), b"", &format!("{writing}Broken pipe\n"), "a broken pipe");
    5
}

pub fn program(tables: &Tables, random: &mut Random) -> String {
    let at_once = |text: &[u8]| run(PROGRAM, text, text.len().max(1), Duration::ZERO);
    let rows = rows();
    for (text, printed) in &rows {
        writes(&at_once(text.as_bytes()), printed.as_bytes(), "", "a row of docs/refusals.md");
        assert_eq!(expected(tables, text.as_bytes()), printed.as_bytes());
    }
    let mut texts = given::texts();
    texts.extend((0..400).map(|_| texts::text(random)));
    for text in &texts {
        writes(&at_once(text), &expected(tables, text), "", &format!("\"{}\"", text.escape_ascii()));
    }
    // the longest job that is read whole, and slow pipes of a few bytes at a time
    let longest = format!("{SEEDS}{SIGMA}{}", "(shot ABCDEFGHIJKL MNOPQRSTUVWX 1000000 65535)\n".repeat(SHOTS));
    for (text, piece, pause) in [(longest.as_str(), 4096, 1), (rows[0].0.as_str(), 1, 1), (rows[0].0.as_str(), 40, 50)]
    {
        let said = run(PROGRAM, text.as_bytes(), piece, Duration::from_millis(pause));
        writes(&said, &expected(tables, text.as_bytes()), "", "a slow pipe");
    }
    format!(
        "the listing program on {} texts and {} failed reads and writes",
        rows.len() + texts.len() + 3,
        failures(PROGRAM, "listing", &format!("{SEEDS}{SIGMA}{SHOT}"))
    )
}
