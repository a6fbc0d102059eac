//! bench DIR MEGABYTES [ROW]: the Rust and ours, on the same bytes, in turn; prints a table. DIR has the files of `gen`,
//! of so many megabytes. ROW: that row alone, to look where its time goes.
mod clock;
mod inputs;
mod ours;
mod side;
mod theirs;

use clock::{median, now};
use inputs::{Input, Place};
use side::{Room, Tally};
use std::hint::black_box;

/// How often each side is measured; the median counts.
const RUNS: usize = 15;

/// So many bytes at least are gone through each time.
const LEAST: usize = 1_000_000;

type Run = fn(&Input, &mut Room) -> Tally;

struct Row {
    name: &'static str,
    /// The bytes of an input that count for the row, or as many others of it; none where the row does not apply.
    bytes: fn(&Input) -> &[u8],
    theirs: Option<Run>,
    ours: Run,
}

fn body(input: &Input) -> &[u8] {
    &input.body
}

fn info(input: &Input) -> &[u8] {
    input.info.as_bytes()
}

fn samples(input: &Input) -> &[u8] {
    &input.body[..total(&input.samples)]
}

fn total(places: &[Place]) -> usize {
    places.iter().map(|place| place.len).sum()
}

fn body_with_samples(input: &Input) -> &[u8] {
    if input.allele_ends.is_empty() { &[] } else { &input.body }
}

fn genotypes(input: &Input) -> &[u8] {
    let mut room = Room::new(input.body.len());
    &input.body[..theirs::write(input, &mut room).sum as usize]
}

fn text(input: &Input) -> &[u8] {
    &input.text
}

fn rows() -> [Row; 11] {
    let row = |name, bytes, theirs, ours| Row { name, bytes, theirs, ours };
    [
        row("read lines", body, Some(theirs::read as Run), ours::read as Run),
        row("read lines, plainly", body, Some(theirs::read), ours::read_plainly),
        row("read lines, POS", body, Some(theirs::read_pos), ours::read_pos),
        row("INFO steps", info, Some(theirs::info_steps), ours::info_steps),
        row("INFO count", info, Some(theirs::info_count), ours::info_count),
        row("samples, every GT", samples, Some(theirs::genotypes), ours::genotypes),
        row("samples, every GT checked", samples, Some(theirs::genotypes_checked), ours::genotypes_checked),
        row("read lines, samples, every GT", body_with_samples, Some(theirs::read_genotypes), ours::read_genotypes),
        row("write every genotype", genotypes, Some(theirs::write), ours::write),
        row("UTF-8", text, Some(theirs::utf8), ours::utf8),
        row("join", body, None, ours::join),
    ]
}

/// The limit: a plain read, as a sum of words of 64 bits.
fn plain_read(bytes: &[u8]) -> u64 {
    let word = |eight: &[u8]| u64::from_ne_bytes(eight.try_into().unwrap());
    bytes.chunks_exact(8).fold(0, |sum, eight| sum.wrapping_add(word(eight)))
}

/// The seconds of one pass over bytes that were read just before, whatever ran between.
fn seconds<T>(bytes: &[u8], mut pass: impl FnMut() -> T) -> f64 {
    let passes = 1 + LEAST / bytes.len();
    black_box(plain_read(black_box(bytes)));
    let start = now();
    for _ in 0..passes {
        black_box(pass());
    }
    (now() - start) / passes as f64
}

/// Both sides of a row once, their findings and what they wrote held to each other.
fn check(row: &Row, input: &Input, rooms: &mut [Room; 2]) {
    let [left, right] = rooms;
    (left.written, right.written) = (0, 0);
    let found = (row.ours)(input, right);
    let expected = match row.theirs {
        Some(theirs) => {
            assert_eq!(theirs(input, left), found, "{}, {}", row.name, input.name);
            &left.out[..left.written]
        }
        None => &input.body[..],
    };
    assert!(expected == &right.out[..right.written], "{}, {}: other bytes written", row.name, input.name);
}

/// Measures a row over an input, and prints a line of the table.
fn measure(row: &Row, input: &Input, rooms: &mut [Room; 2]) {
    let bytes = (row.bytes)(input);
    if bytes.is_empty() {
        return;
    }
    check(row, input, rooms);
    let [left, right] = rooms;
    let mut times = [vec![], vec![], vec![]];
    for _ in 0..RUNS {
        if let Some(theirs) = row.theirs {
            times[0].push(seconds(bytes, || theirs(black_box(input), left)));
        }
        times[1].push(seconds(bytes, || (row.ours)(black_box(input), right)));
        times[2].push(seconds(bytes, || plain_read(black_box(bytes))));
    }
    let [theirs, ours, limit] = times.map(|times| (!times.is_empty()).then(|| bytes.len() as f64 / median(times) / 1e6));
    let cell = |speed: Option<f64>| speed.map_or("none".to_string(), |speed| format!("{speed:.0}"));
    let ratio = theirs.zip(ours).map_or(String::new(), |(theirs, ours)| format!("{:.2}", ours / theirs));
    println!("| {} | {} | {} | {} | {ratio} | {} |", row.name, input.name, cell(theirs), cell(ours), cell(limit));
}

fn main() {
    let arguments: Vec<String> = std::env::args().collect();
    let [_, dir, megabytes, wanted @ ..] = &arguments[..] else { panic!("usage: bench DIR MEGABYTES [ROW]") };
    let bytes = megabytes.parse::<usize>().expect("MEGABYTES is a number") * 1_000_000;
    let inputs = inputs::all(dir, bytes);
    let largest = inputs.iter().map(|input| input.body.len().max(input.text.len())).max().unwrap();
    let mut rooms = [Room::new(largest), Room::new(largest)];
    println!("| row | input | the Rust, MB/s | ours, MB/s | ours / the Rust | limit, MB/s |");
    println!("|---|---|--:|--:|--:|--:|");
    for row in rows().iter().filter(|row| wanted.is_empty() || wanted[0] == row.name) {
        for input in &inputs {
            measure(row, input, &mut rooms);
        }
    }
}
