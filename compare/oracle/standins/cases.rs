//! The cases, answered by the originals: `n/a` where they have no such question, or take only a `str` and the bytes are
//! none. Room, rows and bytes left as they were are not the Rust's: they are laid out here, as answers have them.
use std::{cell::Cell, io};

use crate::calls::{self, Alleles, Genotype, Got, Phasing};
use crate::header::FileFormat;
use crate::variant::record::{AlternateBases, Filters};
use crate::{Header, Record};

/// An answer, or what is wrong with the case.
type Answer = Result<String, String>;
type Place = (usize, usize);
type Allele = (Option<usize>, Phasing);

const NO_QUESTION: &str = "n/a";

fn no_question() -> Answer {
    Ok(NO_QUESTION.into())
}

// ---- bytes and texts

fn hex(bytes: &[u8]) -> String {
    if bytes.is_empty() {
        return "-".into();
    }
    bytes.iter().map(|b| format!("{b:02x}")).collect()
}

fn unhex(s: &str) -> Result<Vec<u8>, String> {
    if s == "-" {
        return Ok(vec![]);
    }
    if s.len() % 2 != 0 || !s.is_ascii() {
        return Err(format!("hex {s}"));
    }
    (0..s.len()).step_by(2).map(|i| u8::from_str_radix(&s[i..i + 2], 16).map_err(|e| e.to_string())).collect()
}

fn text(bytes: &[u8]) -> Option<&str> {
    std::str::from_utf8(bytes).ok()
}

/// Where a part of a text lies in it.
fn place(whole: &str, part: &str) -> Place {
    (part.as_ptr() as usize - whole.as_ptr() as usize, part.len())
}

fn shown(place: Place) -> String {
    format!("{} {}", place.0, place.1)
}

/// Numbers joined by commas; `-` for none.
fn numbers(s: &str) -> Result<Vec<usize>, String> {
    if s == "-" {
        return Ok(vec![]);
    }
    s.split(',').map(|x| x.parse().map_err(|_| format!("number {x}"))).collect()
}

// ---- lines

fn line_number(e: &io::Error) -> u32 {
    match (e.kind(), e.to_string().as_str()) {
        (io::ErrorKind::InvalidData, "missing field") => 2,
        (io::ErrorKind::InvalidData, "unexpected EOL") => 3,
        (io::ErrorKind::UnexpectedEof, _) => 4,
        (io::ErrorKind::InvalidData, _) if e.get_ref().is_some_and(|x| x.is::<std::str::Utf8Error>()) => 5,
        _ => 99,
    }
}

/// One read from a place: the number, the next place, the ten places where it is 0, and the record.
fn read(src: &[u8], at: usize) -> (u32, usize, Vec<Place>, Record) {
    let mut record = Record::default();
    let mut rest = &src[at..];
    let answer = calls::read_record(&mut rest, &mut record);
    let next = src.len() - rest.len();
    match answer {
        Ok(0) => (1, next, vec![], record),
        Err(e) => (line_number(&e), next, vec![], record),
        Ok(length) => {
            assert_eq!(length, next - at);
            (0, next, places(src, at, &mut record), record)
        }
    }
}

/// The ten places. The record's text has none of the first nine tabs: they are counted back in.
fn places(src: &[u8], at: usize, record: &mut Record) -> Vec<Place> {
    let fields = record.fields_mut();
    let b = &fields.bounds;
    let ranges = [
        b.reference_sequence_name_range(),
        b.variant_start_range(),
        b.ids_range(),
        b.reference_bases_range(),
        b.alternate_bases_range(),
        b.quality_score_range(),
        b.filters_range(),
        b.info_range(),
        b.samples_keys_range(),
        b.samples_values_range().start..fields.buf.len(),
    ];
    let samples = !ranges[9].is_empty();
    let tabs = |i| if i < 8 || samples { i } else { 7 };
    let places: Vec<_> = ranges.iter().enumerate().map(|(i, r)| (at + r.start + tabs(i), r.len())).collect();
    let bytes: Vec<u8> = places.iter().flat_map(|&(s, l)| src[s..s + l].to_vec()).collect();
    assert_eq!(bytes, fields.buf.as_bytes());
    places
}

fn line(src: &[u8], at: usize, told: fn(Vec<Place>) -> Vec<String>) -> Answer {
    if at > src.len() {
        return no_question();
    }
    let (number, next, places, _) = read(src, at);
    if number != 0 {
        return Ok(format!("{number} {next}"));
    }
    Ok(format!("0 {next} {}", told(places).join(" ")))
}

/// Each field's start and length.
fn starts_and_lengths(places: Vec<Place>) -> Vec<String> {
    places.into_iter().map(shown).collect()
}

/// Where the line's text starts, and where each field ends.
fn start_and_ends(places: Vec<Place>) -> Vec<String> {
    let start = places[0].0;
    let ends = places.into_iter().map(|(start, length)| start + length);
    std::iter::once(start).chain(ends).map(|n| n.to_string()).collect()
}

fn field(name: &str, src: &[u8], at: usize) -> Answer {
    const NAMES: [&str; 10] = ["chrom", "pos", "id", "ref", "alt", "qual", "filter", "info", "format", "samples"];
    let index = NAMES.iter().position(|n| *n == name).ok_or("name of a field")?;
    if at > src.len() {
        return no_question();
    }
    let (number, _, places, r) = read(src, at);
    if number != 0 {
        return Ok(number.to_string());
    }
    // the Rust takes the first nine tabs out before it checks: a field may begin within a character, and it would panic
    if !places.iter().all(|&(s, l)| text(&src[s..s + l]).is_some()) {
        return no_question();
    }
    let (start, len) = places[index];
    let got = match name {
        "id" => r.ids().as_ref().len(),
        "alt" => r.alternate_bases().as_ref().len(),
        "filter" => r.filters().as_ref().len(),
        "info" => r.info().as_ref().len(),
        "qual" if r.quality_score().is_none() => return Ok("0 absent".into()),
        _ => len,
    };
    // where the Rust has an empty text for a dot, that it stands at the column's end is the form of the answer
    Ok(if got == len { format!("0 {start} {len}") } else { format!("0 {} 0", start + len) })
}

/// A record of three texts: CHROM, POS, and what follows FORMAT; all others are empty.
fn record(chrom: &str, pos: &str, samples: &str) -> Record {
    let mut record = Record::default();
    let fields = record.fields_mut();
    fields.buf = format!("{chrom}{pos}{samples}");
    let end = chrom.len() + pos.len();
    let b = &mut fields.bounds;
    b.reference_sequence_name_end = chrom.len();
    b.variant_start_end = end;
    b.ids_end = end;
    b.reference_bases_end = end;
    b.alternate_bases_end = end;
    b.quality_score_end = end;
    b.filters_end = end;
    b.info_end = end;
    b.samples_keys_end = end;
    record
}

fn pos(src: &[u8]) -> Answer {
    let Some(s) = text(src) else { return no_question() };
    Ok(match record("c", s, "").variant_start() {
        None => "0 none".into(),
        Some(Ok(p)) => format!("0 {}", usize::from(p)),
        Some(Err(_)) => "21".into(),
    })
}

// ---- INFO

fn info_number(e: &io::Error) -> u32 {
    match e.to_string().as_str() {
        "unexpected field delimiter after key" => 7,
        "missing key" => 8,
        "unexpected field delimiter after value" => 9,
        _ => 99,
    }
}

enum Step<'a> {
    Refused(u32),
    Entry(&'a str, Option<&'a str>),
}

/// A step from a place, and the next place.
fn step(whole: &str, at: usize) -> (Step<'_>, usize) {
    let mut rest = &whole[at..];
    let step = match calls::info_step(&mut rest) {
        None => Step::Refused(10),
        Some(Err(e)) => Step::Refused(info_number(&e)),
        Some(Ok((key, value))) => Step::Entry(key, value),
    };
    (step, whole.len() - rest.len())
}

fn step_shown(whole: &str, step: &Step, next: usize) -> String {
    match step {
        Step::Refused(number) => format!("{number} {next}"),
        Step::Entry(key, value) => {
            let value = value.map(|v| shown(place(whole, v))).unwrap_or("absent".into());
            format!("0 {next} {} {value}", shown(place(whole, key)))
        }
    }
}

fn info(src: &[u8], at: usize) -> Answer {
    match text(src) {
        Some(s) if s.is_char_boundary(at) => {
            let (step, next) = step(s, at);
            Ok(step_shown(s, &step, next))
        }
        _ => no_question(),
    }
}

/// The step that ends a search, and its next place. `Info::get` is asked the same: what it says must agree.
fn find<'a>(column: &'a str, key: &str) -> (Step<'a>, usize) {
    let mut at = 0;
    loop {
        let (step, next) = step(column, at);
        match step {
            Step::Entry(k, _) if k != key => at = next,
            _ => {
                assert!(agrees(&step, &calls::info_get(column, key)));
                return (step, next);
            }
        }
    }
}

fn agrees(step: &Step, got: &Got) -> bool {
    match (step, got) {
        (Step::Refused(number), Got::Nothing) => *number == 10,
        (Step::Refused(number), Got::Refused(e)) => *number == info_number(e),
        (Step::Entry(_, value), Got::Absent) => value.is_none(),
        (Step::Entry(_, value), Got::Empty) => *value == Some(""),
        (Step::Entry(_, value), Got::Dot) => *value == Some("."),
        (Step::Entry(_, value), Got::Text(at, len)) => value.is_some_and(|v| v.as_ptr() == *at && v.len() == *len),
        _ => false,
    }
}

fn find_shown(src: &[u8], key: &[u8]) -> Answer {
    let (Some(s), Some(key)) = (text(src), text(key)) else { return no_question() };
    let (step, next) = find(s, key);
    Ok(step_shown(s, &step, next))
}

fn value(src: &[u8], key: &[u8]) -> Answer {
    let (Some(s), Some(key)) = (text(src), text(key)) else { return no_question() };
    Ok(match find(s, key).0 {
        Step::Entry(_, Some(value)) => hex(value.as_bytes()),
        _ => hex(&[]),
    })
}

fn scan(src: &[u8]) -> Answer {
    let Some(s) = text(src) else { return no_question() };
    let (mut at, mut answers) = (0, vec![]);
    loop {
        let (step, next) = step(s, at);
        answers.push(step_shown(s, &step, next));
        if let Step::Refused(10) = step {
            return Ok(answers.join(", "));
        }
        at = next;
    }
}

fn count(src: &[u8]) -> Answer {
    Ok(text(src).map(|s| calls::info_count(s).to_string()).unwrap_or(NO_QUESTION.into()))
}

// ---- samples

fn samples(src: &[u8]) -> Answer {
    let Some(s) = text(src) else { return no_question() };
    Ok(record("", "", s).samples().len().to_string())
}

fn walk(src: &[u8]) -> Answer {
    let Some(s) = text(src) else { return no_question() };
    let record = record("", "", s);
    let mut at = 0;
    let mut places = vec![];
    for sample in record.samples().iter() {
        let part = sample.text();
        assert_eq!(&s[at..at + part.len()], part);
        places.push(shown((at, part.len())));
        at += part.len() + 1;
    }
    Ok(if places.is_empty() { "10".into() } else { places.join(", ") })
}

fn sample(src: &[u8], index: usize) -> Answer {
    let Some(s) = text(src) else { return no_question() };
    let record = record("", "", s);
    let samples = record.samples();
    // the samples are parts of one text, which begins with the first
    let first = samples.get_index(0).map(|x| x.text().as_ptr() as usize);
    Ok(match samples.get_index(index) {
        Some(x) => format!("0 {} {}", x.text().as_ptr() as usize - first.unwrap(), x.text().len()),
        None => "10".into(),
    })
}

// ---- genotypes

fn allele_shown((number, phasing): &Allele) -> String {
    format!("{}:{}:{}", number.unwrap_or(0), number.is_none() as u8, (*phasing == Phasing::Phased) as u8)
}

fn row(fill: &str, room: usize, list: &[Allele]) -> String {
    let mut row: Vec<_> = list.iter().map(allele_shown).collect();
    while row.len() < room {
        row.push(fill.into());
    }
    if row.is_empty() { "-".into() } else { row.join(" ") }
}

fn genotype(fill: &str, room: usize, src: &[u8]) -> Answer {
    let Some(s) = text(src) else { return no_question() };
    let mut list = vec![];
    for (i, allele) in Genotype::new(s).alleles().enumerate() {
        match allele {
            Ok(allele) => list.push(allele),
            Err(e) if e.kind() == io::ErrorKind::UnexpectedEof => return Ok(format!("11 {}", row(fill, room, &[]))),
            Err(_) => return Ok(format!("12 {i} {}", row(fill, room, &[]))),
        }
    }
    if list.len() > room {
        return Ok(format!("17 {}", row(fill, room, &[])));
    }
    Ok(format!("0 {} {}", list.len(), row(fill, room, &list)))
}

/// The place past so many alleles, good or bad, which no item tells: the longest front of the text that gives no more.
fn past(s: &str, count: usize) -> usize {
    let fronts: Vec<_> = (1..=s.len()).filter(|&n| s.is_char_boundary(n)).collect();
    let fitting = fronts.partition_point(|&n| Genotype::new(&s[..n]).alleles().count() <= count);
    fronts[..fitting].last().copied().unwrap_or(0)
}

/// One step. A place that the iterator over the whole text comes to is answered by its item there, any other by the
/// first item of an iterator over the text from there on.
fn gtstep(src: &[u8], at: usize) -> Answer {
    let Some(s) = text(src).filter(|s| s.is_char_boundary(at)) else { return no_question() };
    let steps = if at == 0 { 0 } else { Genotype::new(&s[..at]).alleles().count() };
    let (start, steps) = if past(s, steps) == at { (0, steps) } else { (at, 0) };
    let rest = &s[start..];
    Ok(match Genotype::new(rest).alleles().nth(steps) {
        Some(Ok(allele)) => format!("0 {} {}", start + past(rest, steps + 1), allele_shown(&allele)),
        Some(Err(e)) if e.kind() == io::ErrorKind::UnexpectedEof => "11".into(),
        Some(Err(_)) => "12".into(),
        None => "10".into(),
    })
}

#[derive(Debug)]
struct List(Vec<Allele>);
impl Alleles for List {
    fn iter(&self) -> Box<dyn Iterator<Item = io::Result<Allele>> + '_> {
        Box::new(self.0.iter().map(|&a| Ok(a)))
    }
}

/// An allele of a case; none where it is missing and has a number, which the Rust's list can't hold.
fn allele(s: &str) -> Result<Option<Allele>, String> {
    let bad = || format!("allele {s}");
    let parts: Vec<usize> = s.split(':').map(|x| x.parse().map_err(|_| bad())).collect::<Result<_, _>>()?;
    let [number, missing, phased] = parts[..] else { return Err(bad()) };
    let phasing = if phased != 0 { Phasing::Phased } else { Phasing::Unphased };
    Ok(match (number, missing) {
        (_, 0) => Some((Some(number), phasing)),
        (0, _) => Some((None, phasing)),
        _ => None,
    })
}

/// An output of `room` bytes with what was written from `at`, or with nothing of it where it was refused.
fn output(room: usize, at: usize, written: Result<Vec<u8>, String>) -> String {
    let mut out = vec![0xee; room];
    let head = match written {
        Err(refusal) => refusal,
        Ok(bytes) if bytes.len() > room - at => "17".into(),
        Ok(bytes) => {
            out[at..at + bytes.len()].copy_from_slice(&bytes);
            format!("0 {}", bytes.len())
        }
    };
    format!("{head} {}", hex(&out))
}

fn write(file_format: FileFormat, room: usize, at: usize, alleles: &[&str]) -> Answer {
    if at > room {
        return no_question();
    }
    let given = alleles.iter().filter(|s| **s != "-").map(|s| allele(s)).collect::<Result<Vec<_>, _>>()?;
    let Some(list) = given.into_iter().collect::<Option<Vec<_>>>() else { return no_question() };
    let mut out = vec![];
    let written = match calls::write_genotype(&mut out, &Header::of(file_format), &List(list)) {
        Ok(()) => Ok(out),
        Err(e) if e.to_string() == "empty input" => Err("11".into()),
        Err(e) if e.to_string() == "invalid phasing" => Err("13".into()),
        Err(_) => Err("99".into()),
    };
    Ok(output(room, at, written))
}

// ---- filters and ALT

/// The entries of a list, and how many of them a writer has taken.
struct Entries<'a>(Vec<&'a str>, Cell<usize>);
impl Entries<'_> {
    fn walk(&self) -> Box<dyn Iterator<Item = io::Result<&str>> + '_> {
        Box::new(self.0.iter().map(|s| {
            self.1.set(self.1.get() + 1);
            Ok(*s)
        }))
    }
}
impl Filters for &Entries<'_> {
    fn is_empty(&self) -> bool {
        self.0.is_empty()
    }
    fn len(&self) -> usize {
        self.0.len()
    }
    fn iter<'a, 'h: 'a>(&'a self, _: &'h Header) -> Box<dyn Iterator<Item = io::Result<&'a str>> + 'a> {
        self.walk()
    }
}
impl AlternateBases for &Entries<'_> {
    fn is_empty(&self) -> bool {
        self.0.is_empty()
    }
    fn len(&self) -> usize {
        self.0.len()
    }
    fn iter(&self) -> Box<dyn Iterator<Item = io::Result<&str>> + '_> {
        self.walk()
    }
}

/// The entries between the ends, where each is a text.
fn entries<'a>(src: &'a [u8], ends: &[usize]) -> Option<Vec<&'a str>> {
    let starts = [0].iter().chain(ends);
    starts.zip(ends).map(|(&start, &end)| src.get(start..end).and_then(text)).collect()
}

fn list(alts: bool, room: usize, at: usize, src: &[u8], ends: &[usize]) -> Answer {
    if at > room {
        return no_question();
    }
    let Some(entries) = entries(src, ends) else { return no_question() };
    let entries = Entries(entries, Cell::new(0));
    let mut out = vec![];
    let (done, bad) = if alts {
        (calls::write_alts(&mut out, &entries), 15)
    } else {
        (calls::write_filters(&mut out, &entries), 14)
    };
    let written = if done { Ok(out) } else { Err(format!("{bad} {}", entries.1.get() - 1)) };
    Ok(output(room, at, written))
}

// ---- all verbs

pub fn answer(case: &str) -> Answer {
    let words: Vec<&str> = case.split(' ').collect();
    let word = |i: usize| words.get(i).copied().ok_or(format!("argument {i}"));
    let bytes = |i: usize| word(i).and_then(unhex);
    let number = |i: usize| word(i).and_then(|x| x.parse::<usize>().map_err(|_| format!("number {x}")));
    match word(0)? {
        "utf8" => Ok(if text(&bytes(1)?).is_some() { "0" } else { "5" }.into()),
        "space" => Ok(match text(&bytes(1)?) {
            None => "5".into(),
            Some(s) => format!("0 {}", s.chars().any(char::is_whitespace) as u8),
        }),
        "decimal" => match text(&bytes(1)?) {
            None => no_question(),
            Some(s) => Ok(s.parse::<usize>().map(|v| format!("0 {v}")).unwrap_or("12".into())),
        },
        "print" => Ok(output(number(1)?, 0, Ok(number(2)?.to_string().into_bytes()))),
        "line" | "plain" => line(&bytes(1)?, number(2)?, starts_and_lengths),
        "small" => line(&bytes(1)?, number(2)?, start_and_ends),
        "field" => field(word(1)?, &bytes(2)?, number(3)?),
        "pos" => pos(&bytes(1)?),
        "info" => info(&bytes(1)?, number(2)?),
        "find" => find_shown(&bytes(1)?, &bytes(2)?),
        "value" => value(&bytes(1)?, &bytes(2)?),
        "scan" => scan(&bytes(1)?),
        "count" => count(&bytes(1)?),
        "samples" => samples(&bytes(1)?),
        "walk" => walk(&bytes(1)?),
        "sample" => sample(&bytes(1)?, number(2)?),
        "read" => genotype("7:7:7", number(1)?, &bytes(2)?),
        "gtstep" => gtstep(&bytes(1)?, number(2)?),
        "alleles" => genotype("7:1:1", number(1)?, &bytes(2)?),
        "write" | "writealleles" => {
            let file_format = FileFormat::new(number(1)? as u32, number(2)? as u32);
            write(file_format, number(3)?, number(4)?, &words[5..])
        }
        "filters" => list(false, number(1)?, number(2)?, &bytes(3)?, &numbers(word(4)?)?),
        "alts" => list(true, number(1)?, number(2)?, &bytes(3)?, &numbers(word(4)?)?),
        _ => no_question(),
    }
}
