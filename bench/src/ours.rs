//! Our side, by the functions of the static library as a caller in C has them: a slice is a pointer and a count, and `values` a pointer.
use crate::inputs::{Input, Place};
use crate::side::{Room, Tally, Values};

type Bytes = *const u8;

unsafe extern "C" {
    fn bruncadorza_read_line(s: Bytes, s_n: usize, at: usize, values: &mut [u64; 24]) -> u64;
    fn bruncadorza_split_line(s: Bytes, s_n: usize, at: usize, values: &mut [u64; 24]) -> u64;
    fn bruncadorza_read_pos(text: Bytes, text_n: usize, values: &mut Values) -> u64;
    fn bruncadorza_info_step(column: Bytes, column_n: usize, at: usize, values: &mut Values) -> u64;
    fn bruncadorza_info_count(column: Bytes, column_n: usize) -> u64;
    fn bruncadorza_sample_at(samples: Bytes, samples_n: usize, at: usize, values: &mut Values) -> u64;
    fn bruncadorza_subfield(sample: Bytes, sample_n: usize, n: usize, values: &mut Values) -> u64;
    fn bruncadorza_read_genotype(
        text: Bytes, text_n: usize, numbers: *mut u64, numbers_n: usize, missing: *mut u8, missing_n: usize,
        phased: *mut u8, phased_n: usize, values: &mut Values,
    ) -> u64;
    fn bruncadorza_read_genotype_checked(
        text: Bytes, text_n: usize, alt: Bytes, alt_n: usize, numbers: *mut u64, numbers_n: usize, missing: *mut u8,
        missing_n: usize, phased: *mut u8, phased_n: usize, values: &mut Values,
    ) -> u64;
    fn bruncadorza_write_genotype(
        numbers: *const u64, numbers_n: usize, missing: Bytes, missing_n: usize, phased: Bytes, phased_n: usize,
        major: u32, minor: u32, out: *mut u8, out_n: usize, at: usize, values: &mut Values,
    ) -> u64;
    fn bruncadorza_check_utf8(text: Bytes, text_n: usize) -> u64;
    fn bruncadorza_join(
        text: Bytes, text_n: usize, ends: *const usize, ends_n: usize, ending: u64, out: *mut u8, out_n: usize,
        at: usize, values: &mut Values,
    ) -> u64;
}

/// The ending LF, as the joiner takes it.
const FEED: u64 = 1;

/// Every line of the body, by one of the two readers. A visitor gets its length and the values that follow the next place and
/// the ending: the start and the length of each field.
#[inline]
fn each_line_by(
    reader: impl Fn(&[u8], usize, &mut [u64; 24]) -> u64, input: &Input,
    mut visit: impl FnMut(usize, &[u64], &mut Tally),
) -> Tally {
    let body = &input.body[..];
    let mut tally = Tally::default();
    let mut values = [0; 24];
    let mut at = 0;
    loop {
        let number = reader(body, at, &mut values);
        if number == 1 {
            return tally;
        }
        assert_eq!(number, 0, "a line in order");
        let next = values[1] as usize;
        visit(next - at, &values[3..], &mut tally);
        at = next;
    }
}

#[inline]
fn each_line(input: &Input, visit: impl FnMut(usize, &[u64], &mut Tally)) -> Tally {
    each_line_by(|s, at, values| unsafe { bruncadorza_read_line(s.as_ptr(), s.len(), at, values) }, input, visit)
}

#[inline]
fn place(fields: &[u64], number: usize) -> Place {
    Place { start: fields[2 * number] as usize, len: fields[2 * number + 1] as usize }
}

pub fn read(input: &Input, _: &mut Room) -> Tally {
    each_line(input, |len, _, tally| tally.add(len))
}

pub fn read_plainly(input: &Input, _: &mut Room) -> Tally {
    let split = |s: &[u8], at, values: &mut _| unsafe { bruncadorza_split_line(s.as_ptr(), s.len(), at, values) };
    each_line_by(split, input, |len, _, tally| tally.add(len))
}

pub fn read_pos(input: &Input, _: &mut Room) -> Tally {
    let mut values = Values::default();
    each_line(input, |_, fields, tally| {
        let text = place(fields, 1).of(&input.body);
        let number = unsafe { bruncadorza_read_pos(text.as_ptr(), text.len(), &mut values) };
        assert_eq!((number, values[0]), (0, 1), "POS is a position");
        tally.add(values[1] as usize);
    })
}

#[inline]
fn each_info<'a>(input: &'a Input, mut visit: impl FnMut(&'a [u8], &mut Tally)) -> Tally {
    let mut tally = Tally::default();
    let mut start = 0;
    for &end in &input.info_ends {
        visit(&input.info.as_bytes()[start..end], &mut tally);
        start = end;
    }
    tally
}

pub fn info_steps(input: &Input, _: &mut Room) -> Tally {
    let mut values = Values::default();
    each_info(input, |column, tally| {
        let mut at = 0;
        loop {
            let number = unsafe { bruncadorza_info_step(column.as_ptr(), column.len(), at, &mut values) };
            if number == 10 {
                return;
            }
            assert_eq!(number, 0, "an entry");
            let value = if values[0] == 5 { values[5] } else { 0 };
            tally.add((values[3] + value) as usize);
            at = values[1] as usize;
        }
    })
}

pub fn info_count(input: &Input, _: &mut Room) -> Tally {
    each_info(input, |column, tally| {
        tally.add(unsafe { bruncadorza_info_count(column.as_ptr(), column.len()) } as usize);
    })
}

/// The first subfield of every sample.
#[inline]
fn each_genotype<'a>(samples: &'a [u8], mut visit: impl FnMut(&'a [u8])) {
    let mut values = Values::default();
    let mut first = Values::default();
    let mut at = 0;
    loop {
        let number = unsafe { bruncadorza_sample_at(samples.as_ptr(), samples.len(), at, &mut values) };
        assert_eq!(number, 0, "a sample");
        let sample = Place { start: values[1] as usize, len: values[2] as usize }.of(samples);
        let number = unsafe { bruncadorza_subfield(sample.as_ptr(), sample.len(), 0, &mut first) };
        assert_eq!(number, 0, "a subfield");
        visit(Place { start: first[1] as usize, len: first[2] as usize }.of(sample));
        if values[0] < 3 {
            return;
        }
        at = values[3] as usize;
    }
}

#[inline]
fn add(count: usize, room: &Room, tally: &mut Tally) {
    for k in 0..count {
        tally.add_allele((room.missing[k] == 0).then_some(room.numbers[k]), room.phased[k] == 1);
    }
}

#[inline]
fn read_genotype(text: &[u8], room: &mut Room, tally: &mut Tally) {
    let number = unsafe {
        bruncadorza_read_genotype(
            text.as_ptr(), text.len(), room.numbers.as_mut_ptr(), room.numbers.len(), room.missing.as_mut_ptr(),
            room.missing.len(), room.phased.as_mut_ptr(), room.phased.len(), &mut room.values,
        )
    };
    assert_eq!(number, 0, "a genotype");
    add(room.values[1] as usize, room, tally);
}

#[inline]
fn read_checked(text: &[u8], alt: &[u8], room: &mut Room, tally: &mut Tally) {
    let number = unsafe {
        bruncadorza_read_genotype_checked(
            text.as_ptr(), text.len(), alt.as_ptr(), alt.len(), room.numbers.as_mut_ptr(), room.numbers.len(),
            room.missing.as_mut_ptr(), room.missing.len(), room.phased.as_mut_ptr(), room.phased.len(),
            &mut room.values,
        )
    };
    assert_eq!(number, 0, "a genotype that ALT has");
    add(room.values[1] as usize, room, tally);
}

pub fn genotypes(input: &Input, room: &mut Room) -> Tally {
    let mut tally = Tally::default();
    for samples in input.samples.iter().filter(|place| place.len > 0) {
        each_genotype(samples.of(&input.body), |text| read_genotype(text, room, &mut tally));
    }
    tally
}

pub fn genotypes_checked(input: &Input, room: &mut Room) -> Tally {
    let mut tally = Tally::default();
    for (samples, alt) in input.samples.iter().zip(&input.alts).filter(|(place, _)| place.len > 0) {
        let alt = alt.of(&input.body);
        each_genotype(samples.of(&input.body), |text| read_checked(text, alt, room, &mut tally));
    }
    tally
}

pub fn read_genotypes(input: &Input, room: &mut Room) -> Tally {
    each_line(input, |_, fields, tally| {
        let samples = place(fields, 9).of(&input.body);
        if !samples.is_empty() {
            each_genotype(samples, |text| read_genotype(text, room, tally));
        }
    })
}

pub fn write(input: &Input, room: &mut Room) -> Tally {
    let mut tally = Tally::default();
    let mut start = 0;
    room.written = 0;
    for &end in &input.allele_ends {
        let (numbers, missing, phased) =
            (&input.numbers[start..end], &input.missing[start..end], &input.phased[start..end]);
        let number = unsafe {
            bruncadorza_write_genotype(
                numbers.as_ptr(), numbers.len(), missing.as_ptr(), missing.len(), phased.as_ptr(), phased.len(), 4, 4,
                room.out.as_mut_ptr(), room.out.len(), room.written, &mut room.values,
            )
        };
        assert_eq!(number, 0, "a list in order");
        tally.add(room.values[1] as usize);
        room.written += room.values[1] as usize;
        start = end;
    }
    tally
}

pub fn utf8(input: &Input, _: &mut Room) -> Tally {
    let mut tally = Tally::default();
    let number = unsafe { bruncadorza_check_utf8(input.text.as_ptr(), input.text.len()) };
    tally.add((number == 0).into());
    tally
}

pub fn join(input: &Input, room: &mut Room) -> Tally {
    let mut tally = Tally::default();
    let (mut text, mut first) = (&input.columns[..], 0);
    room.written = 0;
    for &count in &input.column_counts {
        let ends = &input.column_ends[first..first + count];
        let (columns, rest) = text.split_at(ends[count - 1]);
        let number = unsafe {
            bruncadorza_join(
                columns.as_ptr(), columns.len(), ends.as_ptr(), ends.len(), FEED, room.out.as_mut_ptr(),
                room.out.len(), room.written, &mut room.values,
            )
        };
        assert_eq!(number, 0, "columns in order");
        tally.add(room.values[1] as usize);
        room.written += room.values[1] as usize;
        (text, first) = (rest, first + count);
    }
    tally
}
