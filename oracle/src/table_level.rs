//! The printed table: the program `peaktable`, on seeded inputs that come to it in pieces, against a model of the text rules that was
//! written from document 01 and the Rust's row finder. Compared are all that it prints, and the input line that it says is refused.
use crate::inputs::Rng;
use crate::row_level::{most, Row, WORDS};
use crate::Tally;
use std::fs::File;
use std::io::{Read, Write};
use std::os::fd::FromRawFd;
use std::process::{Command, Stdio};

const PROGRAM: &str = "target/bin/peaktable";
const HEADING: &str = "tof_row,scan,left,right,width_scans,apex_raw,prominence,area_raw,subscan\r\n";
const REFUSAL: &str = "refused,10\r\n";

// ---- the model

/// What stands between CR LF and CR LF; behind the last one only what is not empty.
fn lines(input: &[u8]) -> Vec<&[u8]> {
    let mut lines = Vec::new();
    let mut rest = input;
    while let Some(k) = rest.windows(2).position(|w| w == b"\r\n") {
        lines.push(&rest[..k]);
        rest = &rest[k + 2..];
    }
    if !rest.is_empty() {
        lines.push(rest);
    }
    lines
}

/// The number of a field: 1 to 8 digits, to a limit.
fn number(field: &[u8], limit: u32) -> Option<u32> {
    let digits = (1..=8).contains(&field.len()) && field.iter().all(u8::is_ascii_digit);
    let value: u32 = digits.then(|| std::str::from_utf8(field).unwrap().parse().unwrap())?;
    (value <= limit).then_some(value)
}

fn params(line: &[u8]) -> Option<[u32; 3]> {
    let fields: Vec<&[u8]> = line.split(|b| *b == b',').collect();
    let [a, b, c] = fields[..] else { return None };
    Some([number(a, 16_777_215)?, number(b, 65_535)?, number(c, 65_535)?])
}

fn readings(line: &[u8]) -> Option<Vec<f32>> {
    let row: Option<Vec<f32>> = line.split(|b| *b == b',').map(|f| number(f, 16_777_215).map(|v| v as f32)).collect();
    row.filter(|r| r.len() <= 4096)
}

/// The lines of a row's peaks, found by the Rust.
fn peaks(params: [u32; 3], tof_row: usize, y: &[f32]) -> String {
    let row = Row {
        smoothed: y.to_vec(),
        raw: y.to_vec(),
        place: [tof_row as u32, 0, 0, 0],
        bounds: [0; 4],
        group: None,
        mobility: Vec::new(),
        min_prom: params[0] as f32,
        min_distance: params[1],
        min_width: params[2],
        axis: (0..y.len() as u32).collect(),
        first: 0,
        room: WORDS * most(y.len()),
    };
    let line = |w: &[u32]| {
        let [r, s, l, g, n] = [w[0], w[10], w[11], w[12], w[23]];
        format!("{r},{s},{l},{g},{n},{:08x},{:08x},{:08x},{:08x}\r\n", w[19], w[20], w[24], w[25])
    };
    row.peaks().chunks(WORDS).map(line).collect()
}

/// The table, and the input line that is refused, if one is.
fn model(input: &[u8]) -> (String, Option<usize>) {
    let lines = lines(input);
    let Some(p) = lines.first().and_then(|l| params(l)) else { return (REFUSAL.into(), Some(1)) };
    let mut text = String::from(HEADING);
    let mut count = None;
    for (k, line) in lines[1..].iter().enumerate() {
        match readings(line) {
            Some(y) if k < 4_194_304 && *count.get_or_insert(y.len()) == y.len() => text += &peaks(p, k, &y),
            _ => return (text + REFUSAL, Some(k + 2)),
        }
    }
    (text, None)
}

// ---- inputs

fn digits(r: &mut Rng, value: u64) -> String {
    match r.below(12) {
        0 => format!("{value:08}"),
        1 => format!("0{value}"),
        _ => value.to_string(),
    }
}

fn reading(r: &mut Rng, kind: u64) -> u64 {
    match kind {
        0 => r.below(4),
        1 => r.below(20),
        2 => r.below(1 << 24),
        3 => 8_388_607 + r.below(4),
        4 => 16_777_212 + r.below(4),
        _ => r.pick(&[0, 0, 0, 0, 5, 900]),
    }
}

/// Lines that are right, mostly, with a damage or two in every second input.
fn input(r: &mut Rng) -> Vec<u8> {
    let kind = r.pick(&[0, 1, 5]);
    let floor = reading(r, kind);
    let (distance, width) = (r.below(6), r.below(5));
    let first = [digits(r, floor), digits(r, distance), digits(r, width)];
    let mut text = first.join(",");
    let count = match r.below(40) {
        0 => r.pick(&[1, 2, 3, 63, 64, 65]),
        1 => r.pick(&[1023, 1024, 1025]),
        2 => r.pick(&[4095, 4096, 4097]),
        _ => 1 + r.below(30),
    };
    let kind = r.below(6);
    for _ in 0..r.below(if count > 100 { 4 } else { 40 }) {
        text += "\r\n";
        let row: Vec<String> = (0..count).map(|_| { let v = reading(r, kind); digits(r, v) }).collect();
        text += &row.join(",");
    }
    if !r.one_in(3) {
        text += "\r\n";
    }
    let mut bytes = text.into_bytes();
    if r.one_in(2) {
        for _ in 0..1 + r.below(2) {
            let at = r.below(bytes.len() as u64 + 1) as usize;
            let byte = r.pick(b"\r\n,,0159 +-.;\"\t\0\xef\xff");
            match r.below(4) {
                0 => bytes.insert(at, byte),
                1 if at < bytes.len() => bytes[at] = byte,
                2 if at < bytes.len() => { bytes.remove(at); }
                _ => bytes.truncate(at),
            }
        }
    }
    bytes
}

// ---- the program

extern "C" {
    fn socketpair(domain: i32, kind: i32, protocol: i32, pair: *mut i32) -> i32;
}

/// Two ends of a connection that keeps pieces apart: each read gives one of them.
fn connection() -> (File, File) {
    let mut pair = [0; 2];
    // AF_UNIX, SOCK_SEQPACKET with SOCK_CLOEXEC
    assert_eq!(unsafe { socketpair(1, 5 | 0o2000000, 0, pair.as_mut_ptr()) }, 0, "no socket pair");
    unsafe { (File::from_raw_fd(pair[0]), File::from_raw_fd(pair[1])) }
}

/// What the program prints and says, its input in pieces of at most `piece` bytes.
fn run(r: &mut Rng, input: &[u8], piece: u64) -> (String, String) {
    let (near, far) = connection();
    let mut program = Command::new(PROGRAM).stdin(Stdio::from(far)).stdout(Stdio::piped()).stderr(Stdio::piped()).spawn().expect(PROGRAM);
    let mut pieces = Vec::new();
    let mut rest = input;
    while !rest.is_empty() {
        let k = (1 + r.below(piece)).min(rest.len() as u64) as usize;
        pieces.push(rest[..k].to_vec());
        rest = &rest[k..];
    }
    // a program that ends early takes no more pieces
    let feed = std::thread::spawn(move || {
        let mut near = near;
        for p in pieces {
            if near.write(&p).is_err() {
                break;
            }
        }
    });
    let mut text = Vec::new();
    let mut said = String::new();
    program.stdout.take().unwrap().read_to_end(&mut text).unwrap();
    program.stderr.take().unwrap().read_to_string(&mut said).unwrap();
    program.wait().unwrap();
    feed.join().unwrap();
    (String::from_utf8_lossy(&text).into_owned(), said)
}

pub fn compare(tally: &mut Tally, count: u64) {
    let mut r = Rng::new(14);
    for k in 0..count {
        let bytes = input(&mut r);
        let piece = r.pick(&[1, 2, 3, 17, 300, 5000, 20_000]);
        let (text, refused) = model(&bytes);
        let (printed, said) = run(&mut r, &bytes, piece);
        let shown = format!("input {k}, pieces to {piece}: {:?}", String::from_utf8_lossy(&bytes[..bytes.len().min(300)]));
        tally.same("table", &shown, printed, text);
        let line = said.strip_prefix("peaktable: refused, input line ").and_then(|s| s.split(':').next()).map(str::to_owned);
        tally.same("refused line", &shown, line, refused.map(|n| n.to_string()));
    }
}
