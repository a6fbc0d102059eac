//! The Rust's side, by the calls that its users make.
use crate::inputs::{Allele, Input};
use crate::side::{Room, Tally};
use std::hint::black_box;
use std::io;
use vcf_oracle::calls::{self, Alleles, Genotype, Phasing};
use vcf_oracle::header::FileFormat;
use vcf_oracle::{Header, Record};

/// Every line of the body, read into one record.
#[inline]
fn each_line(input: &Input, record: &mut Record, mut visit: impl FnMut(usize, &Record, &mut Tally)) -> Tally {
    let mut tally = Tally::default();
    let mut rest = &input.body[..];
    loop {
        let len = calls::read_record(&mut rest, record).expect("a line in order");
        if len == 0 {
            return tally;
        }
        visit(len, black_box(record), &mut tally);
    }
}

pub fn read(input: &Input, room: &mut Room) -> Tally {
    each_line(input, &mut room.record, |len, _, tally| tally.add(len))
}

pub fn read_pos(input: &Input, room: &mut Room) -> Tally {
    each_line(input, &mut room.record, |_, record, tally| {
        let position = record.variant_start().expect("POS is not 0").expect("POS is a number");
        tally.add(position.into());
    })
}

#[inline]
fn each_info<'a>(input: &'a Input, mut visit: impl FnMut(&'a str, &mut Tally)) -> Tally {
    let mut tally = Tally::default();
    let mut start = 0;
    for &end in &input.info_ends {
        visit(&input.info[start..end], &mut tally);
        start = end;
    }
    tally
}

pub fn info_steps(input: &Input, _: &mut Room) -> Tally {
    each_info(input, |mut rest, tally| {
        while let Some(entry) = calls::info_step(&mut rest) {
            let (key, value) = entry.expect("an entry");
            tally.add(key.len() + value.map_or(0, str::len));
        }
    })
}

pub fn info_count(input: &Input, _: &mut Room) -> Tally {
    each_info(input, |column, tally| tally.add(calls::info_count(column)))
}

#[inline]
fn each_allele(record: &Record, mut visit: impl FnMut(Allele)) {
    for sample in record.samples().iter() {
        let text = sample.text();
        let end = text.bytes().position(|b| b == b':').unwrap_or(text.len());
        for allele in Genotype::new(&text[..end]).alleles() {
            visit(allele.expect("an allele"));
        }
    }
}

#[inline]
fn add((number, phasing): Allele, tally: &mut Tally) {
    tally.add_allele(number.map(|n| n as u64), phasing == Phasing::Phased);
}

pub fn genotypes(input: &Input, _: &mut Room) -> Tally {
    let mut tally = Tally::default();
    for record in &input.records {
        each_allele(record, |allele| add(allele, &mut tally));
    }
    tally
}

/// A column that is `.` is empty here.
fn alt_count(alts: &str) -> usize {
    if alts.is_empty() { 0 } else { alts.bytes().filter(|&b| b == b',').count() + 1 }
}

/// The Rust has no checked reader: each number is held to the count of ALT entries, which is taken once a line.
pub fn genotypes_checked(input: &Input, _: &mut Room) -> Tally {
    let mut tally = Tally::default();
    for record in &input.records {
        let alts = record.alternate_bases();
        let count = alt_count(alts.as_ref());
        each_allele(record, |allele| {
            assert!(allele.0.is_none_or(|n| n <= count), "an allele that ALT has");
            add(allele, &mut tally);
        });
    }
    tally
}

pub fn read_genotypes(input: &Input, room: &mut Room) -> Tally {
    each_line(input, &mut room.record, |_, record, tally| each_allele(record, |allele| add(allele, tally)))
}

/// A list of alleles, as the Rust's writer takes it.
#[derive(Debug)]
struct List<'a>(&'a [Allele]);

impl Alleles for List<'_> {
    fn iter(&self) -> Box<dyn Iterator<Item = io::Result<Allele>> + '_> {
        Box::new(self.0.iter().map(|&allele| Ok(allele)))
    }
}

pub fn write(input: &Input, room: &mut Room) -> Tally {
    let header = Header::of(FileFormat::new(4, 4));
    let mut tally = Tally::default();
    let mut start = 0;
    room.out.clear();
    for &end in &input.allele_ends {
        let before = room.out.len();
        calls::write_genotype(&mut room.out, &header, &List(&input.alleles[start..end])).expect("a list in order");
        tally.add(room.out.len() - before);
        start = end;
    }
    room.written = room.out.len();
    tally
}

pub fn utf8(input: &Input, _: &mut Room) -> Tally {
    let mut tally = Tally::default();
    tally.add(std::str::from_utf8(&input.text).is_ok().into());
    tally
}
