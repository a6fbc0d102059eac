//! Holds the wrapper to the stored cases of the program `cases`: crates/cases/stdin and crates/cases/stdout, whose form
//! docs/RULES.md, section 15, gives. The answers stored come from the Rust or a model of the rules, none from the library.
//!
//! Functions that no verb asks for (the judges of a genotype and of an entry, the iterators) are held to the answers of the verbs
//! beside them, and so are all steps over a genotype together. The line reader and the joiner are held to each other, and so are the
//! two line readers, the ways between the two forms of a line's record, the four functions on the numbers of genotypes, and the
//! reader and the writer of vectors.

use std::collections::BTreeMap;
use std::fmt::Write as _;
use std::fs;
use std::mem::size_of;
use std::path::Path;

use bruncadorza::text::Range;
use bruncadorza::{
    alleles, bcf, decimal, fields, forms, genotype, info, join, line, lists, numbering, samples,
    spelling, splitter, text,
};
use forms::{Narrowed, SmallRecord, Wide, Widened};
use genotype::Allele;
use line::Ending;
use numbering::{Filled, Numbered};

/// Every verb that a case can have.
const VERBS: [&str; 41] = [
    "utf8",
    "space",
    "decimal",
    "print",
    "line",
    "plain",
    "small",
    "widen",
    "narrow",
    "field",
    "place",
    "pos",
    "info",
    "find",
    "value",
    "scan",
    "count",
    "samples",
    "walk",
    "sample",
    "key",
    "subfield",
    "read",
    "readalt",
    "unequal",
    "gtstep",
    "alleles",
    "allelesalt",
    "write",
    "writeunequal",
    "writealleles",
    "number",
    "genotype",
    "genotypes",
    "genotypecount",
    "bcfread",
    "bcfwrite",
    "filters",
    "alts",
    "altcount",
    "join",
];

/// The names of the ten fields, as cases have them.
const FIELDS: [&str; 10] = [
    "chrom", "pos", "id", "ref", "alt", "qual", "filter", "info", "format", "samples",
];

/// The endings of a line, as cases have them, in the order of `Ending::ALL`.
const ENDINGS: [&str; 3] = ["none", "lf", "crlf"];

#[test]
fn the_wrapper_answers_every_stored_case() {
    let folder = Path::new(env!("CARGO_MANIFEST_DIR")).join("../../crates/cases");
    let file = |name: &str| {
        let path = folder.join(name);
        fs::read(&path).unwrap_or_else(|error| panic!("{}: {error}", path.display()))
    };
    let counts =
        hold(&file("stdin"), &file("stdout")).unwrap_or_else(|difference| panic!("{difference}"));
    for (verb, count) in &counts {
        println!("{count:>7} {verb}");
    }
    println!("{:>7} in all", counts.values().sum::<usize>());
    for verb in VERBS.into_iter().chain(["?"]) {
        assert!(counts.contains_key(verb), "no case of {verb} is stored");
    }
}

/// Cases of each verb with an answer that is wrong.
#[test]
fn a_wrong_answer_is_seen() {
    for (case, answer) in [
        ("utf8 ff", "0"),
        ("space 61", "0 1"),
        ("decimal 3432", "0 43"),
        ("decimal 3161", "12 2"),
        ("print 2 42", "0 2 3433"),
        ("line - 0", "1 1"),
        (
            "line 3109310931093109310931093109310d0a 0",
            "0 17 lf 0 1 2 1 4 1 6 1 8 1 10 1 12 1 14 1 15 0 15 0",
        ),
        (
            "line 310931093109310931093109310931 0",
            "0 15 0 1 2 1 4 1 6 1 8 1 10 1 12 1 14 1 15 0 15 0",
        ),
        ("plain - 0", "1 1"),
        (
            "plain 3109310931093109310931093109310d0a 0",
            "0 17 lf 0 1 2 1 4 1 6 1 8 1 10 1 12 1 14 1 15 0 15 0",
        ),
        (
            "plain 310931093109310931093109310931 0",
            "0 15 none 0 1 2 1 4 1 6 1 8 1 10 1 12 1 14 1 15 0 16 0",
        ),
        ("small - 0", "1 1"),
        (
            "small 3109310931093109310931093109310d0a 0",
            "0 17 lf 0 1 3 5 7 9 11 13 15 15 15",
        ),
        (
            "small 310931093109310931093109310931 0",
            "0 15 none 0 1 3 5 7 9 11 13 15 15 16",
        ),
        (
            "widen lf 0 1 3 5 7 9 11 13 15 15 15",
            "0 0 1 2 1 4 1 6 1 8 1 10 1 12 1 14 1 16 0 16 0",
        ),
        ("widen lf 0 1 3 5 7 9 11 13 15 15 15", "32"),
        (
            "widen lf 0 1 3 5 7 9 11 13 15 15 16",
            "0 0 1 2 1 4 1 6 1 8 1 10 1 12 1 14 1 15 0 15 1",
        ),
        (
            "narrow crlf 0 1 2 1 4 1 6 1 8 1 10 1 12 1 14 1 16 1 18 1",
            "0 0 1 3 5 7 9 11 13 15 17 17",
        ),
        (
            "narrow crlf 0 1 2 1 4 1 6 1 8 1 10 1 12 1 14 1 16 1 18 1",
            "32",
        ),
        (
            "narrow none 0 1 2 1 4 1 6 1 8 1 10 1 12 1 14 1 16 0 16 0",
            "0 0 1 3 5 7 9 11 13 15 16 16",
        ),
        ("field chrom - 0", "2"),
        ("place 61 0 1", "6"),
        ("pos 30", "0 0"),
        ("pos 3030", "21 1"),
        ("info 61 0", "0 1 0 1 1 0"),
        ("find 61 62", "10 0"),
        ("value 613d62 61", "-"),
        ("scan 61", "0 1 0 1 absent"),
        ("count 61", "0"),
        ("samples 61", "0"),
        ("walk 61", "0 0"),
        ("sample 61 1", "0 0 1"),
        ("key 61 61", "0 1"),
        ("subfield 61 1", "0 0 1"),
        ("read 1 31", "0 1 1:0:0"),
        ("read 1 302f2f31", "12 1 1 7:7:7"),
        ("readalt 1 32 41", "0 1 2:0:1"),
        ("readalt 1 31 2e", "0 1 1:0:1"),
        ("readalt 1 31 -", "0 1 1:0:1"),
        ("readalt 1 307c3161 41", "12 1 2 7:7:7"),
        ("unequal 1 2 1 31", "16 7 7 7"),
        ("unequal 1 1 1 307c", "12 1 1 7 7 7"),
        ("gtstep - 0", "10"),
        ("gtstep 307c3161 1", "12 2"),
        ("alleles 1 -", "11 7:7:7"),
        ("alleles 1 2e35", "12 0 1 7:1:1"),
        ("allelesalt 1 32 41", "20 1 7:1:1"),
        ("allelesalt 1 2f 41", "12 0 0 7:1:1"),
        ("write 4 4 1 0 1:0:1", "0 1 30"),
        ("write 4 4 1 0 1:1:1", "12 0 0 ee"),
        ("writeunequal 1 1 0 1", "16 ef"),
        ("writealleles 4 4 1 0 1:0:1", "17 ee"),
        ("number 2 0,1", "0 2"),
        ("number 2 1,0", "0 1"),
        ("number 2 -", "0 0"),
        ("genotype 1 2 2 3", "0 2 0,1"),
        ("genotype 1 2 2 3", "0 2 1,0,7"),
        ("genotype 3 2 2 1", "17 7"),
        ("genotype 2 2 2 1", "17 1"),
        ("genotypes 2 2 6", "0 3 0,0,1,0,1,1"),
        ("genotypes 2 2 7", "0 6 0,0,0,1,1,1,7"),
        ("genotypes 9 1 0", "17 -"),
        ("genotypecount 2 3", "0 5"),
        ("genotypecount 9 1", "0 1"),
        ("bcfread 1 2 0281", "0 2 0:0:0 7:7:7"),
        ("bcfread 1 2 0381", "0 1 0:0:0 7:7:7"),
        ("bcfread 1 2 0081", "0 1 0:0:0 7:7:7"),
        ("bcfread 1 1 81", "0 0 7:7:7"),
        ("bcfread 1 0 80", "17 -"),
        ("bcfread 1 1 0204", "17 0:0:0"),
        ("bcfread 2 1 0002", "0 1 0:0:0"),
        ("bcfread 2 2 02008181", "0 1 0:0:0 7:7:7"),
        ("bcfread 2 1 020001", "0 1 0:0:0"),
        ("bcfread 4 1 02000000", "26 7:7:7"),
        ("bcfread 3 1 020000", "26 7:7:7"),
        ("bcfwrite 2 2 0 1:0:0", "0 2 0481"),
        ("bcfwrite 2 2 0 1:0:0", "0 1 1 04ee"),
        ("bcfwrite 2 2 0 1:0:0", "0 1 2 0481ee"),
        ("bcfwrite 1 2 0 63:0:0", "0 1 1 80ee"),
        ("bcfwrite 1 2 0 63:0:0", "0 2 1 8000"),
        ("bcfwrite 1 2 0 63:0:0", "0 2 2 0080"),
        ("bcfwrite 1 2 0 63:0:0", "24 eeee"),
        ("bcfwrite 1 4 0 63:0:0", "0 4 4 80000000"),
        ("bcfwrite 9223372036854775808 1 1 63:0:0", "0 2 0 ee"),
        ("bcfwrite 0 1 0 -", "25 ee"),
        ("bcfwrite 1 1 0 1:1:0", "12 1 ee"),
        ("bcfwrite 1 4 0 1073741822:0:0", "24 eeeeeeee"),
        ("bcfwrite 0 1 0 1073741823:0:0", "25 ee"),
        ("bcfwrite 0 0 0 1:0:0", "17 -"),
        ("bcfwrite 18446744073709551615 1 1 1:0:0", "6 ee"),
        ("filters 1 0 - -", "0 1 2f"),
        ("alts 1 0 2c 1", "15 1 ee"),
        ("altcount -", "1"),
        ("altcount 2e", "1"),
        ("join 1 0 lf - -", "19 00"),
        (
            "join 17 0 crlf 3131313131313131 1,2,3,4,5,6,7,8",
            "0 16 3109310931093109310931093109310aee",
        ),
        (
            "join 15 0 none 313131313131310d 1,2,3,4,5,6,7,8",
            "18 7 eeeeeeeeeeeeeeeeeeeeeeeeeeeeee",
        ),
    ] {
        let difference = hold(case.as_bytes(), format!("{answer}\n").as_bytes());
        assert!(difference.is_err(), "{case}: {answer} was taken");
    }
    assert!(
        hold(b"utf8 -\n", b"0\n0\n").is_err(),
        "an answer too many was taken"
    );
}

/// What is read and joined again is the same bytes, wherever a line stands in its buffer and in the output.
#[test]
fn a_line_read_and_joined_is_the_same_bytes() {
    let other = b"2\t9\tx\tG\tT\t3\tq\tDP\r\n";
    let mut held = [0; 3];
    for line in [
        &b"1\t7\t.\tA\tC,G\t.\tPASS\tDP=9;DB"[..],
        b"1\t7\t.\tA\tC,G\t.\tPASS\tDP=9;DB\tGT\t0|2",
        b"1\t7\t.\tA\tC,G\t.\tPASS\tDP=9;DB\tGT:DP\t0|2:9\t./1:8\t.",
        b"1\r\t7\t.\tA\tC\t.\t.\tx\r",
        b"1\t7\t.\tA\tC\t.\t.\t\r\r",
        b"1\t7\t.\tA\tC\t.\t.\tx\tGT\t\r",
    ] {
        for (ending, bytes) in Ending::ALL.into_iter().zip([&b""[..], b"\n", b"\r\n"]) {
            if ending == Ending::Feed && line.ends_with(b"\r") {
                continue;
            }
            // alone, at the start, in the middle, at the end
            for (before, behind) in [(0, 0), (0, 1), (1, 1), (1, 0)] {
                if ending == Ending::Nothing && behind == 1 {
                    continue;
                }
                let start = other.repeat(before);
                let source = [&start[..], line, bytes, &other.repeat(behind)].concat();
                let read = read_both(&source, start.len());
                let line::Read::Line(record, next) = read else {
                    panic!("{source:?}: {}", read.number());
                };
                assert_eq!(record.ending(), ending);
                assert_eq!(next, start.len() + line.len() + bytes.len());
                held_by_joiner(record, start.len(), next);
                held[ending as usize] += 1;
            }
        }
    }
    assert_eq!(held, [12, 12, 24]);
}

/// Before an LF alone a CR at the end of the last column would be read as part of the ending.
#[test]
fn a_last_return_is_refused_before_a_feed_alone() {
    let ends = [1, 2, 3, 4, 5, 6, 7, 9];
    for (ending, expected, line) in [
        (
            Ending::Nothing,
            join::Joined::Done(16),
            &b"1\t7\t.\tA\tC\t.\t.\tx\r"[..],
        ),
        (Ending::Feed, join::Joined::Bad(7), b""),
        (
            Ending::ReturnFeed,
            join::Joined::Done(18),
            b"1\t7\t.\tA\tC\t.\t.\tx\r\r\n",
        ),
    ] {
        let mut out = [0xEE; 20];
        assert_eq!(
            join::join(b"17.AC..x\r", &ends, ending, &mut out, 0),
            expected
        );
        let (written, rest) = out.split_at(line.len());
        assert_eq!(written, line);
        assert!(rest.iter().all(|&b| b == 0xEE));
    }
}

/// It is for keeping: an ending and eleven numbers, and no text.
#[test]
fn a_small_record_takes_twelve_words() {
    assert_eq!(size_of::<SmallRecord>(), 12 * size_of::<usize>());
}

/// No verb lends slices whose lengths differ to the reader or the writer of vectors.
#[test]
fn unequal_slices_hold_no_vector() {
    for (n, m, p) in [(0, 1, 0), (1, 0, 0), (2, 2, 1), (2, 1, 2), (1, 2, 2)] {
        let given = (vec![7; n], vec![7; m], vec![7; p]);
        let mut row = given.clone();
        for width in [1, 2, 4] {
            let read = bcf::read_vector(b"\x80", width, &mut row.0, &mut row.1, &mut row.2);
            assert_eq!((read, read.number()), (bcf::Read::Lengths, 16));
        }
        for width in [0, 3, 5, 8, 1 << 32 | 1, usize::MAX] {
            let read = bcf::read_vector(b"\x80", width, &mut row.0, &mut row.1, &mut row.2);
            assert_eq!((read, read.number()), (bcf::Read::Unknown, 27));
        }
        assert_eq!(row, given);
        let mut out = [0xEE; 2];
        let written = bcf::write_vector(&row.0, &row.1, &row.2, 2, &mut out, 0);
        assert_eq!((written, written.number()), (bcf::Write::Lengths, 16));
        assert_eq!(out, [0xEE; 2]);
    }
}

/// How many cases of each verb were held, or the first difference. A line that is stored as no case is passed over, and counted
/// under `?`.
fn hold(cases: &[u8], answers: &[u8]) -> Result<BTreeMap<String, usize>, String> {
    let (cases, answers) = (lines(cases), lines(answers));
    if cases.len() != answers.len() {
        return Err(format!(
            "{} cases and {} answers",
            cases.len(),
            answers.len()
        ));
    }
    let mut counts = BTreeMap::new();
    for (i, (case, stored)) in cases.into_iter().zip(answers).enumerate() {
        let stored = String::from_utf8_lossy(stored);
        let mut verb = "?";
        if stored != "?" {
            let case =
                std::str::from_utf8(case).map_err(|_| format!("line {}: not UTF-8", i + 1))?;
            let words: Vec<&str> = case.split(' ').collect();
            let answer = answer(&words);
            if answer != stored {
                return Err(format!(
                    "line {}: {case}\n  stored {stored}\n  got    {answer}",
                    i + 1
                ));
            }
            verb = words[0];
        }
        *counts.entry(verb.to_string()).or_insert(0) += 1;
    }
    Ok(counts)
}

/// The lines, the last of which may lack its LF.
fn lines(text: &[u8]) -> Vec<&[u8]> {
    let text = text.strip_suffix(b"\n").unwrap_or(text);
    text.split(|&b| b == b'\n').collect()
}

fn answer(words: &[&str]) -> String {
    match *words {
        ["utf8", s] => text::check_utf8(&bytes(s)).number().to_string(),
        ["space", s] => space(&bytes(s)),
        ["decimal", s] => read_decimal(&bytes(s)),
        ["print", room, n] => print(size(room), number(n)),
        ["line" | "plain", s, at] => read_line(&bytes(s), size(at)),
        ["small", s, at] => small(&bytes(s), size(at)),
        ["widen", ending, ref numbers @ ..] => widen(ending_of(ending), &sizes(numbers)),
        ["narrow", ending, ref places @ ..] => narrow(ending_of(ending), &sizes(places)),
        ["field", name, s, at] => field(name, &bytes(s), size(at)),
        ["place", s, start, len] => place(&bytes(s), size(start), size(len)),
        ["pos", s] => pos(&bytes(s)),
        ["info", s, at] => info_step(info::step_at(&bytes(s), size(at))),
        ["find", s, key] => info_step(info::find(&bytes(s), &bytes(key))),
        ["value", s, key] => hex(info::value(&bytes(s), &bytes(key))),
        ["scan", s] => scan(&bytes(s)),
        ["count", s] => info::count(&bytes(s)).to_string(),
        ["samples", s] => samples::count(&bytes(s)).to_string(),
        ["walk", s] => walk(&bytes(s)),
        ["sample", s, n] => nth(samples::sample(&bytes(s), size(n))),
        ["key", s, key] => key_index(&bytes(s), &bytes(key)),
        ["subfield", s, n] => nth(samples::subfield(&bytes(s), size(n))),
        ["read", row, s] => read(size(row), &bytes(s), None),
        ["readalt", row, s, alt] => read(size(row), &bytes(s), Some(&bytes(alt))),
        ["unequal", n, m, p, s] => unequal(size(n), size(m), size(p), &bytes(s)),
        ["gtstep", s, at] => genotype_step(&bytes(s), size(at)),
        ["alleles", row, s] => read_alleles(size(row), &bytes(s), None),
        ["allelesalt", row, s, alt] => read_alleles(size(row), &bytes(s), Some(&bytes(alt))),
        ["write", major, minor, room, at, ref list @ ..] => {
            write((half(major), half(minor)), size(room), size(at), list)
        }
        ["writeunequal", n, m, p, room] => write_unequal(size(n), size(m), size(p), size(room)),
        ["writealleles", major, minor, room, at, ref list @ ..] => {
            write_alleles((half(major), half(minor)), size(room), size(at), list)
        }
        ["number", alleles, genotype] => number_of(number(alleles), &joined(genotype, number)),
        ["genotype", n, ploidy, alleles, row] => {
            genotype_of(number(n), number(ploidy), number(alleles), size(row))
        }
        ["genotypes", ploidy, alleles, row] => list_all(number(ploidy), number(alleles), size(row)),
        ["genotypecount", ploidy, alleles] => {
            said_numbered(numbering::count_of(number(ploidy), number(alleles)))
        }
        ["bcfread", width, row, s] => read_vector(size(width), size(row), &bytes(s)),
        ["bcfwrite", entries, room, at, ref list @ ..] => {
            write_vector(size(entries), size(room), size(at), list)
        }
        ["filters", room, at, s, e] => filters(size(room), size(at), &bytes(s), &ends(e)),
        ["alts", room, at, s, e] => alts(size(room), size(at), &bytes(s), &ends(e)),
        ["altcount", s] => lists::alt_count(&bytes(s)).to_string(),
        ["join", room, at, ending, s, e] => {
            join_columns(size(room), size(at), ending_of(ending), &bytes(s), &ends(e))
        }
        _ => panic!("no such case: {words:?}"),
    }
}

// Arguments

/// Bytes from hex, `-` for none.
fn bytes(word: &str) -> Vec<u8> {
    if word == "-" {
        return Vec::new();
    }
    let pairs = word.as_bytes().chunks(2);
    let digits = pairs.map(|pair| std::str::from_utf8(pair).expect("hex"));
    digits
        .map(|pair| u8::from_str_radix(pair, 16).expect("hex"))
        .collect()
}

fn number(word: &str) -> u64 {
    word.parse().expect("a number")
}

fn size(word: &str) -> usize {
    word.parse().expect("a number")
}

fn half(word: &str) -> u32 {
    word.parse().expect("a number of 32 bits")
}

/// Which of the names the word is.
fn index_of(names: &[&str], word: &str) -> usize {
    let found = names.iter().position(|name| *name == word);
    found.expect("one of the names")
}

fn ending_of(word: &str) -> Ending {
    Ending::ALL[index_of(&ENDINGS, word)]
}

/// A number each.
fn sizes(words: &[&str]) -> Vec<usize> {
    words.iter().map(|word| size(word)).collect()
}

/// Numbers joined by commas, `-` for none.
fn joined<T>(word: &str, of: fn(&str) -> T) -> Vec<T> {
    match word {
        "-" => Vec::new(),
        _ => word.split(',').map(of).collect(),
    }
}

fn ends(word: &str) -> Vec<usize> {
    joined(word, size)
}

/// `number:missing:phased` each, or `-` for none.
fn list_of(words: &[&str]) -> Vec<[u64; 3]> {
    if words == ["-"] {
        return Vec::new();
    }
    let record = |word: &&str| {
        let parts: Vec<u64> = word.split(':').map(number).collect();
        parts.try_into().expect("three numbers")
    };
    words.iter().map(record).collect()
}

/// The same as three slices.
fn slices_of(words: &[&str]) -> (Vec<u64>, Vec<u8>, Vec<u8>) {
    let list = list_of(words);
    let mark = |i: usize| {
        list.iter()
            .map(move |record| u8::try_from(record[i]).expect("a mark"))
    };
    let numbers = list.iter().map(|record| record[0]).collect();
    (numbers, mark(1).collect(), mark(2).collect())
}

// What is printed

/// Bytes as hex, `-` for none.
fn hex(bytes: &[u8]) -> String {
    if bytes.is_empty() {
        return "-".to_string();
    }
    bytes.iter().fold(String::new(), |mut out, b| {
        write!(out, "{b:02x}").expect("a string takes all");
        out
    })
}

/// A number, and the value that came with it.
fn said(number: u64, value: Option<usize>) -> String {
    match value {
        Some(value) => format!("{number} {value}"),
        None => number.to_string(),
    }
}

fn at_place(range: Range) -> String {
    format!("{} {}", range.start, range.len)
}

/// The small form's numbers, with spaces between.
fn numbers_of(small: SmallRecord) -> String {
    small.numbers.map(|number| number.to_string()).join(" ")
}

/// Numbers joined by commas, `-` for none.
fn row_of<T: ToString>(row: &[T]) -> String {
    let words: Vec<String> = row.iter().map(T::to_string).collect();
    match words.as_slice() {
        [] => "-".to_string(),
        words => words.join(","),
    }
}

/// `number:missing:phased` each, `-` for none.
fn rows_of<M: Copy + Into<u64>>(rows: impl Iterator<Item = (u64, M, M)>) -> String {
    let word = |(n, m, p): (u64, M, M)| format!("{n}:{}:{}", m.into(), p.into());
    let words: Vec<String> = rows.map(word).collect();
    match words.as_slice() {
        [] => "-".to_string(),
        words => words.join(" "),
    }
}

// Characters and decimals

fn space(s: &[u8]) -> String {
    let found = text::find_space(s);
    match found {
        text::Space::Broken => said(found.number(), None),
        text::Space::Held => said(found.number(), Some(1)),
        text::Space::Free => said(found.number(), Some(0)),
    }
}

fn read_decimal(s: &[u8]) -> String {
    let read = decimal::read_decimal(s);
    match read {
        decimal::Number::Value(n) => format!("{} {n}", read.number()),
        decimal::Number::Bad { offset } => said(read.number(), Some(offset)),
    }
}

fn print(room: usize, n: u64) -> String {
    let mut out = vec![0xEE; room];
    let written = decimal::print_decimal(n, &mut out);
    let count = match written {
        decimal::Written::Done(count) => Some(count),
        decimal::Written::Short => None,
    };
    format!("{} {}", said(written.number(), count), hex(&out))
}

// Lines

/// What both line readers find: the same.
fn read_both(s: &[u8], at: usize) -> line::Read<'_> {
    let read = line::read_line(s, at);
    assert_eq!(splitter::split_line(s, at), read);
    read
}

fn read_line(s: &[u8], at: usize) -> String {
    let read = read_both(s, at);
    let mut out = said(read.number(), Some(read.next()));
    if let line::Read::Line(record, next) = read {
        held_by_joiner(record, at, next);
        out = format!("{out} {}", ENDINGS[record.ending() as usize]);
        for name in line::Name::ALL {
            out = format!("{out} {}", at_place(record.place(name)));
        }
    }
    out
}

fn small(s: &[u8], at: usize) -> String {
    let read = read_both(s, at);
    let out = said(read.number(), Some(read.next()));
    let line::Read::Line(record, _) = read else {
        return out;
    };
    let Narrowed::To(small) = forms::narrow(record.wide()) else {
        panic!("a line that was read is refused");
    };
    assert_eq!(small, record.small());
    assert_eq!(forms::widen(small), Widened::To(record.wide()));
    let ending = ENDINGS[small.ending as usize];
    format!("{out} {ending} {}", numbers_of(small))
}

fn widen(ending: Ending, numbers: &[usize]) -> String {
    let numbers = numbers.try_into().expect("eleven numbers");
    let small = SmallRecord { ending, numbers };
    let widened = forms::widen(small);
    let Widened::To(wide) = widened else {
        return said(widened.number(), None);
    };
    assert_eq!(forms::narrow(wide), Narrowed::To(small));
    let mut out = said(widened.number(), None);
    for (place, name) in wide.places.into_iter().zip(line::Name::ALL) {
        assert_eq!(wide.place(name), place);
        out = format!("{out} {}", at_place(place));
    }
    out
}

fn narrow(ending: Ending, places: &[usize]) -> String {
    let places: [usize; 20] = places.try_into().expect("twenty numbers");
    let place = |i: usize| Range {
        start: places[2 * i],
        len: places[2 * i + 1],
    };
    let wide = Wide {
        ending,
        places: std::array::from_fn(place),
    };
    let narrowed = forms::narrow(wide);
    let Narrowed::To(small) = narrowed else {
        return said(narrowed.number(), None);
    };
    assert_eq!(forms::widen(small), Widened::To(wide));
    format!("{} {}", narrowed.number(), numbers_of(small))
}

/// The columns of a line as one text, and the end of each.
fn columns(record: line::Record) -> (Vec<u8>, Vec<usize>) {
    let column = |name| record.place(name).of(record.source()).expect("a part");
    let mut list: Vec<&[u8]> = line::Name::ALL[..8]
        .iter()
        .map(|&name| column(name))
        .collect();
    let format = column(line::Name::Format);
    if !format.is_empty() {
        list.push(format);
        list.extend(samples::all(column(line::Name::Samples)));
    }
    let mut end = 0;
    let past = |column: &&[u8]| {
        end += column.len();
        end
    };
    let ends = list.iter().map(past).collect();
    (list.concat(), ends)
}

/// Joins a line's columns by its ending, at the start, in the middle and at the end of an output: the bytes that were read.
fn held_by_joiner(record: line::Record, at: usize, next: usize) {
    let read = &record.source()[at..next];
    let (text, ends) = columns(record);
    for (before, behind) in [(0, 0), (0, 3), (2, 3), (2, 0)] {
        let mut out = vec![0xEE; before + read.len() + behind];
        let joined = join::join(&text, &ends, record.ending(), &mut out, before);
        assert_eq!(joined, join::Joined::Done(read.len()));
        assert_eq!(
            out,
            [&vec![0xEE; before][..], read, &vec![0xEE; behind]].concat()
        );
    }
}

fn field(name: &str, s: &[u8], at: usize) -> String {
    let read = read_both(s, at);
    let line::Read::Line(record, _) = read else {
        return said(read.number(), None);
    };
    let name = line::Name::ALL[index_of(&FIELDS, name)];
    let place = record.text_place(name);
    assert_eq!(
        record.text(name),
        place.map(|place| place.of(s).expect("a part"))
    );
    match place {
        Some(place) => format!("0 {}", at_place(place)),
        None => "0 absent".to_string(),
    }
}

fn place(s: &[u8], start: usize, len: usize) -> String {
    let range = Range { start, len };
    let found = fields::place_in(s, range);
    assert_eq!(found, fields::text_in(s, line::Name::Chrom, range));
    match found {
        fields::Text::At(place) => {
            assert_eq!(range.of(s).map(<[u8]>::len), Some(len));
            format!("{} {}", found.number(), at_place(place))
        }
        fields::Text::Absent => "0 absent".to_string(),
        fields::Text::Beyond => {
            assert_eq!(range.of(s), None);
            said(found.number(), None)
        }
    }
}

fn pos(s: &[u8]) -> String {
    let read = fields::read_pos(s);
    match read {
        fields::Position::At(n) => format!("{} {n}", read.number()),
        fields::Position::Nowhere => format!("{} none", read.number()),
        fields::Position::Bad { offset } => said(read.number(), Some(offset)),
    }
}

// INFO

fn info_step(step: info::Step) -> String {
    let out = said(step.number(), Some(step.next()));
    let info::Step::Found(entry, _) = step else {
        return out;
    };
    let key = at_place(entry.key);
    match entry.value {
        info::Value::Absent => format!("{out} {key} absent"),
        info::Value::At(place) => format!("{out} {key} {}", at_place(place)),
    }
}

fn scan(column: &[u8]) -> String {
    let mut reader = info::open(column);
    let mut steps = Vec::new();
    loop {
        let step = reader.step();
        steps.push(step);
        if let info::Step::Nothing(_) = step {
            break;
        }
        reader = reader.moved(step.next());
    }
    assert!(info::open(column).eq(steps[..steps.len() - 1].iter().copied()));
    let words: Vec<String> = steps.into_iter().map(info_step).collect();
    words.join(", ")
}

// Samples

fn walk(column: &[u8]) -> String {
    let mut places = Vec::new();
    let mut at = 0;
    loop {
        let step = samples::sample_at(column, at);
        match step {
            samples::Step::More(place, next) => {
                places.push(place);
                at = next;
            }
            samples::Step::Last(place) => {
                places.push(place);
                break;
            }
            samples::Step::Nothing | samples::Step::Beyond => return said(step.number(), None),
        }
    }
    assert!(samples::all(column).eq(places.iter().map(|place| place.of(column).expect("a part"))));
    let words: Vec<String> = places.into_iter().map(at_place).collect();
    words.join(", ")
}

fn nth(nth: samples::Nth) -> String {
    match nth {
        samples::Nth::At(place) => format!("{} {}", nth.number(), at_place(place)),
        samples::Nth::Nothing => said(nth.number(), None),
    }
}

fn key_index(format: &[u8], key: &[u8]) -> String {
    let found = samples::key_index(format, key);
    let index = match found {
        samples::Key::Index(index) => Some(index),
        samples::Key::Nothing => None,
    };
    said(found.number(), index)
}

// Genotypes read

fn said_read(read: genotype::Read) -> String {
    let number = read.number();
    match read {
        genotype::Read::Done(n) | genotype::Read::Above(n) => said(number, Some(n)),
        genotype::Read::Bad { index, offset } => format!("{number} {index} {offset}"),
        genotype::Read::Empty | genotype::Read::Lengths | genotype::Read::Short => {
            said(number, None)
        }
    }
}

fn read(room: usize, s: &[u8], alt: Option<&[u8]>) -> String {
    let (mut numbers, mut missing, mut phased) = (vec![7; room], vec![7; room], vec![7; room]);
    let (read, judged) = match alt {
        None => (
            genotype::read_genotype(s, &mut numbers, &mut missing, &mut phased),
            genotype::judge(s, room),
        ),
        Some(alt) => (
            genotype::read_checked(s, alt, &mut numbers, &mut missing, &mut phased),
            genotype::judge_checked(s, alt, room),
        ),
    };
    assert_eq!(read, judged);
    let rows = (0..room).map(|i| (numbers[i], missing[i], phased[i]));
    held_by_steps(s, alt, read, room, rows.clone());
    format!("{} {}", said_read(read), rows_of(rows))
}

/// Holds the alleles one at a time, and the ALT count, to what a reader answered.
fn held_by_steps(
    s: &[u8],
    alt: Option<&[u8]>,
    read: genotype::Read,
    room: usize,
    rows: impl Iterator<Item = (u64, u8, u8)>,
) {
    let most = alt.map_or(u64::MAX, |alt| lists::alt_count(alt) as u64);
    let mut steps = Vec::new();
    let mut at = 0;
    let last = loop {
        match genotype::step_at(s, at) {
            genotype::Step::Found(allele, next) => {
                steps.push(allele);
                at = next;
            }
            last => break last,
        }
    };
    let above = steps.iter().position(|allele| allele.number > most);
    let ended = last == genotype::Step::Nothing;
    assert!(match read {
        genotype::Read::Done(n) => {
            let of = |a: &Allele| (a.number, u8::from(a.missing), u8::from(a.phased));
            ended && above.is_none() && steps.len() == n && rows.take(n).eq(steps.iter().map(of))
        }
        genotype::Read::Empty => last == genotype::Step::Empty && steps.is_empty(),
        genotype::Read::Bad { index, offset } => {
            last == genotype::Step::Bad { offset } && steps.len() == index
        }
        genotype::Read::Lengths => false,
        genotype::Read::Short => ended && above.is_none() && steps.len() > room,
        genotype::Read::Above(k) => ended && above == Some(k),
    });
}

fn genotype_step(s: &[u8], at: usize) -> String {
    let step = genotype::step_at(s, at);
    match step {
        genotype::Step::Found(a, next) => {
            let row = rows_of([(a.number, a.missing, a.phased)].into_iter());
            format!("{} {row}", said(step.number(), Some(next)))
        }
        genotype::Step::Bad { offset } => said(step.number(), Some(offset)),
        _ => said(step.number(), None),
    }
}

fn unequal(n: usize, m: usize, p: usize, s: &[u8]) -> String {
    let (mut numbers, mut missing, mut phased) = (vec![7; n], vec![7; m], vec![7; p]);
    let read = genotype::read_genotype(s, &mut numbers, &mut missing, &mut phased);
    let said = said_read(read);
    format!(
        "{said} {} {} {}",
        row_of(&numbers),
        row_of(&missing),
        row_of(&phased)
    )
}

fn read_alleles(room: usize, s: &[u8], alt: Option<&[u8]>) -> String {
    let start = Allele {
        number: 7,
        missing: true,
        phased: true,
    };
    let mut row = vec![start; room];
    let read = match alt {
        None => alleles::read_alleles(s, &mut row),
        Some(alt) => alleles::read_alleles_checked(s, alt, &mut row),
    };
    let rows = row
        .iter()
        .map(|allele| (allele.number, allele.missing, allele.phased));
    format!("{} {}", said_read(read), rows_of(rows))
}

// Genotypes written

fn said_write(write: spelling::Write, out: &[u8]) -> String {
    let value = match write {
        spelling::Write::Done(n) | spelling::Write::Bad(n) => Some(n),
        spelling::Write::Beyond
        | spelling::Write::Empty
        | spelling::Write::Phasing
        | spelling::Write::Lengths
        | spelling::Write::Short => None,
    };
    format!("{} {}", said(write.number(), value), hex(out))
}

fn write(file_format: (u32, u32), room: usize, at: usize, words: &[&str]) -> String {
    let (numbers, missing, phased) = slices_of(words);
    let mut out = vec![0xEE; room];
    let written = spelling::write_genotype(&numbers, &missing, &phased, file_format, &mut out, at);
    said_write(written, &out)
}

fn write_unequal(n: usize, m: usize, p: usize, room: usize) -> String {
    let (numbers, missing, phased) = (vec![0; n], vec![0; m], vec![0; p]);
    let mut out = vec![0xEE; room];
    let written = spelling::write_genotype(&numbers, &missing, &phased, (4, 4), &mut out, 0);
    said_write(written, &out)
}

fn write_alleles(file_format: (u32, u32), room: usize, at: usize, words: &[&str]) -> String {
    let record = |record: [u64; 3]| Allele {
        number: record[0],
        missing: record[1] != 0,
        phased: record[2] != 0,
    };
    let list: Vec<Allele> = list_of(words).into_iter().map(record).collect();
    let mut out = vec![0xEE; room];
    let written = alleles::write_alleles(&list, file_format, &mut out, at);
    said_write(written, &out)
}

// Genotypes by number

fn said_numbered(numbered: Numbered) -> String {
    match numbered {
        Numbered::Is(n) => format!("{} {n}", numbered.number()),
        Numbered::Wrong => said(numbered.number(), None),
    }
}

fn said_filled(filled: Filled, row: &[u64]) -> String {
    let said = match filled {
        Filled::Done(n) => format!("{} {n}", filled.number()),
        Filled::Wrong | Filled::Short => said(filled.number(), None),
    };
    format!("{said} {}", row_of(row))
}

fn number_of(alleles: u64, genotype: &[u64]) -> String {
    let numbered = numbering::number_of(genotype, alleles);
    if let Numbered::Is(n) = numbered {
        let mut row = vec![7; genotype.len()];
        let ploidy = row.len() as u64;
        let filled = numbering::genotype_of(n, ploidy, alleles, &mut row);
        assert_eq!((filled, &row[..]), (Filled::Done(ploidy), genotype));
    }
    said_numbered(numbered)
}

fn genotype_of(n: u64, ploidy: u64, alleles: u64, room: usize) -> String {
    let mut row = vec![7; room];
    let filled = numbering::genotype_of(n, ploidy, alleles, &mut row);
    if let Filled::Done(count) = filled {
        let genotype = &row[..count as usize];
        assert_eq!(numbering::number_of(genotype, alleles), Numbered::Is(n));
    }
    said_filled(filled, &row)
}

fn list_all(ploidy: u64, alleles: u64, room: usize) -> String {
    let mut row = vec![7; room];
    let filled = numbering::list_all(ploidy, alleles, &mut row);
    let count = numbering::count_of(ploidy, alleles);
    match filled {
        Filled::Done(n) => {
            assert_eq!(count, Numbered::Is(n));
            for (i, genotype) in (0..n).zip(row.chunks(ploidy as usize)) {
                assert_eq!(numbering::number_of(genotype, alleles), Numbered::Is(i));
            }
        }
        Filled::Wrong => assert_eq!(count, Numbered::Wrong),
        Filled::Short => assert!(matches!(count, Numbered::Is(n) if n * ploidy > room as u64)),
    }
    said_filled(filled, &row)
}

// Vectors

fn read_vector(width: usize, room: usize, s: &[u8]) -> String {
    let (mut numbers, mut missing, mut phased) = (vec![7; room], vec![7; room], vec![7; room]);
    let read = bcf::read_vector(s, width, &mut numbers, &mut missing, &mut phased);
    let count = match read {
        bcf::Read::Done(n) => {
            held_by_vector_writer(width, s, &numbers[..n], &missing[..n], &phased[..n]);
            Some(n)
        }
        bcf::Read::Lengths | bcf::Read::Short | bcf::Read::Bad | bcf::Read::Unknown => None,
    };
    let rows = (0..room).map(|i| (numbers[i], missing[i], phased[i]));
    format!("{} {}", said(read.number(), count), rows_of(rows))
}

/// Writes a list that was read: the same bytes, or a smaller width, and then the same list is read again.
fn held_by_vector_writer(width: usize, s: &[u8], numbers: &[u64], missing: &[u8], phased: &[u8]) {
    let mut out = vec![0xEE; s.len()];
    let written = bcf::write_vector(numbers, missing, phased, s.len() / width, &mut out, 0);
    let smallest = smallest_width(numbers);
    let bytes = s.len() / width * smallest;
    let expected = bcf::Write::Done {
        width: smallest,
        bytes,
    };
    assert_eq!(written, expected);
    assert!(smallest <= width);
    if smallest == width {
        assert_eq!(out, s);
    }
    held_by_vector_reader(smallest, &out[..bytes], numbers, missing, phased);
}

/// The smallest width whose entries hold every number.
fn smallest_width(numbers: &[u64]) -> usize {
    match numbers.iter().max() {
        Some(16383..) => 4,
        Some(63..) => 2,
        _ => 1,
    }
}

fn write_vector(entries: usize, room: usize, at: usize, words: &[&str]) -> String {
    let (numbers, missing, phased) = slices_of(words);
    let mut out = vec![0xEE; room];
    let written = bcf::write_vector(&numbers, &missing, &phased, entries, &mut out, at);
    let number = written.number();
    let answer = match written {
        bcf::Write::Done { width, bytes } => {
            assert_eq!(width, smallest_width(&numbers));
            held_by_vector_reader(width, &out[at..at + bytes], &numbers, &missing, &phased);
            format!("{number} {width} {bytes}")
        }
        bcf::Write::Bad(n) => said(number, Some(n)),
        bcf::Write::Beyond
        | bcf::Write::Empty
        | bcf::Write::Lengths
        | bcf::Write::Short
        | bcf::Write::Large
        | bcf::Write::Long => said(number, None),
    };
    format!("{answer} {}", hex(&out))
}

/// Reads a vector that was written: its alleles are those that were given.
fn held_by_vector_reader(
    width: usize,
    vector: &[u8],
    numbers: &[u64],
    missing: &[u8],
    phased: &[u8],
) {
    let n = numbers.len();
    let mut row = (vec![7; n], vec![7; n], vec![7; n]);
    let read = bcf::read_vector(vector, width, &mut row.0, &mut row.1, &mut row.2);
    let marks = |given: &[u8]| given.iter().map(|&mark| u8::from(mark != 0)).collect();
    assert_eq!(read, bcf::Read::Done(n));
    assert_eq!(row, (numbers.to_vec(), marks(missing), marks(phased)));
}

// Lists and columns

fn said_list(write: lists::Write, out: &[u8]) -> String {
    let value = match write {
        lists::Write::Done(n) | lists::Write::NotUtf8(n) | lists::Write::Invalid(_, n) => Some(n),
        lists::Write::Beyond | lists::Write::Wrong | lists::Write::Short => None,
    };
    format!("{} {}", said(write.number(), value), hex(out))
}

fn filters(room: usize, at: usize, s: &[u8], ends: &[usize]) -> String {
    let mut out = vec![0xEE; room];
    let written = lists::write_filters(s, ends, &mut out, at);
    held_by_judge(s, ends, written, lists::judge_filter);
    said_list(written, &out)
}

fn alts(room: usize, at: usize, s: &[u8], ends: &[usize]) -> String {
    let mut out = vec![0xEE; room];
    let written = lists::write_alts(s, ends, &mut out, at);
    held_by_judge(s, ends, written, lists::judge_alt);
    said_list(written, &out)
}

/// Holds the judge of one entry to what the writer of a list answered.
fn held_by_judge(
    s: &[u8],
    ends: &[usize],
    write: lists::Write,
    judge: fn(&[u8]) -> lists::Verdict,
) {
    let fine = match write {
        lists::Write::Done(_) | lists::Write::Short => ends.len(),
        lists::Write::NotUtf8(i) | lists::Write::Invalid(_, i) => i,
        lists::Write::Beyond | lists::Write::Wrong => return,
    };
    let entry = |i: usize| &s[if i == 0 { 0 } else { ends[i - 1] }..ends[i]];
    for i in 0..fine {
        assert_eq!(judge(entry(i)), lists::Verdict::Fine);
    }
    if fine < ends.len() {
        assert_eq!(judge(entry(fine)).number(), write.number());
    }
}

fn join_columns(room: usize, at: usize, ending: Ending, s: &[u8], ends: &[usize]) -> String {
    let mut out = vec![0xEE; room];
    let joined = join::join(s, ends, ending, &mut out, at);
    if let join::Joined::Done(n) = joined {
        held_by_reader(&out[..at + n], at, ending, s, ends);
    }
    let value = match joined {
        join::Joined::Done(n) | join::Joined::NotUtf8(n) | join::Joined::Bad(n) => Some(n),
        join::Joined::Beyond | join::Joined::Wrong | join::Joined::Short | join::Joined::Few => {
            None
        }
    };
    format!("{} {}", said(joined.number(), value), hex(&out))
}

/// Reads a line that was joined: its columns and its ending are those that were given.
fn held_by_reader(out: &[u8], at: usize, ending: Ending, s: &[u8], ends: &[usize]) {
    let line::Read::Line(record, next) = read_both(out, at) else {
        panic!("a line that was joined is refused");
    };
    assert_eq!((record.ending(), next), (ending, out.len()));
    let text = &s[..ends[ends.len() - 1]];
    assert_eq!(columns(record), (text.to_vec(), ends.to_vec()));
}
