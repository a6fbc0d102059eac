//! The calls into the static library: the only unsafe code of this crate. include/bruncadorza.h says what crosses.
//!
//! Why each call is sound. A slice crosses as its pointer and its count of elements, both taken from one Rust slice, so that the
//! pointer is aligned and so many elements are there. What is written comes from `&mut` slices, which overlap nothing else of the
//! call. `values` crosses as one pointer, to an array of this module whose type has the length that the entry asks for; and so do
//! the numbers of a line's record, which are only read. The library keeps no pointer, and writes only within the slices and the
//! array lent, which is proved of it.

#[cfg(not(all(target_pointer_width = "64", target_endian = "little")))]
compile_error!("the library is for processors with 64-bit little-endian numbers");

use crate::text::Range;

/// How long `values` is: for the two line readers and the two forms of their record, and for every other entry.
pub(crate) const LINE_VALUES: usize = 24;
const VALUES: usize = 8;

/// How many numbers the two forms of a line's record have beside the ending.
pub(crate) const PLACES: usize = 20;
pub(crate) const NUMBERS: usize = 11;

#[rustfmt::skip]
extern "C" {
    fn bruncadorza_check_utf8(text: *const u8, text_n: usize) -> u64;
    fn bruncadorza_find_space(text: *const u8, text_n: usize, values: &mut [u64; VALUES]) -> u64;
    fn bruncadorza_read_decimal(text: *const u8, text_n: usize, values: &mut [u64; VALUES]) -> u64;
    fn bruncadorza_print_decimal(n: u64, out: *mut u8, out_n: usize, values: &mut [u64; VALUES]) -> u64;

    fn bruncadorza_read_line(s: *const u8, s_n: usize, at: usize, values: &mut [u64; LINE_VALUES]) -> u64;
    fn bruncadorza_split_line(s: *const u8, s_n: usize, at: usize, values: &mut [u64; LINE_VALUES]) -> u64;
    fn bruncadorza_field_text(
        s: *const u8, s_n: usize, name: u64, start: usize, len: usize,
        values: &mut [u64; VALUES],
    ) -> u64;
    fn bruncadorza_place_in(s: *const u8, s_n: usize, start: usize, len: usize, values: &mut [u64; VALUES]) -> u64;
    fn bruncadorza_read_pos(text: *const u8, text_n: usize, values: &mut [u64; VALUES]) -> u64;

    fn bruncadorza_narrow(ending: u64, places: &[usize; PLACES], values: &mut [u64; LINE_VALUES]) -> u64;
    fn bruncadorza_widen(ending: u64, numbers: &[usize; NUMBERS], values: &mut [u64; LINE_VALUES]) -> u64;

    fn bruncadorza_info_step(column: *const u8, column_n: usize, at: usize, values: &mut [u64; VALUES]) -> u64;
    fn bruncadorza_info_find(
        column: *const u8, column_n: usize, key: *const u8, key_n: usize,
        values: &mut [u64; VALUES],
    ) -> u64;
    fn bruncadorza_info_value(
        column: *const u8, column_n: usize, key: *const u8, key_n: usize,
        values: &mut [u64; VALUES],
    ) -> u64;
    fn bruncadorza_info_count(column: *const u8, column_n: usize) -> u64;

    fn bruncadorza_samples_count(samples: *const u8, samples_n: usize) -> u64;
    fn bruncadorza_sample_at(samples: *const u8, samples_n: usize, at: usize, values: &mut [u64; VALUES]) -> u64;
    fn bruncadorza_sample(samples: *const u8, samples_n: usize, n: usize, values: &mut [u64; VALUES]) -> u64;
    fn bruncadorza_subfield(sample: *const u8, sample_n: usize, n: usize, values: &mut [u64; VALUES]) -> u64;
    fn bruncadorza_key_index(
        format: *const u8, format_n: usize, key: *const u8, key_n: usize,
        values: &mut [u64; VALUES],
    ) -> u64;

    fn bruncadorza_genotype_step(text: *const u8, text_n: usize, at: usize, values: &mut [u64; VALUES]) -> u64;
    fn bruncadorza_genotype_judge(text: *const u8, text_n: usize, room: usize, values: &mut [u64; VALUES]) -> u64;
    fn bruncadorza_genotype_judge_checked(
        text: *const u8, text_n: usize, alt: *const u8, alt_n: usize, room: usize,
        values: &mut [u64; VALUES],
    ) -> u64;
    fn bruncadorza_read_genotype(
        text: *const u8, text_n: usize,
        numbers: *mut u64, numbers_n: usize, missing: *mut u8, missing_n: usize, phased: *mut u8, phased_n: usize,
        values: &mut [u64; VALUES],
    ) -> u64;
    fn bruncadorza_read_genotype_checked(
        text: *const u8, text_n: usize, alt: *const u8, alt_n: usize,
        numbers: *mut u64, numbers_n: usize, missing: *mut u8, missing_n: usize, phased: *mut u8, phased_n: usize,
        values: &mut [u64; VALUES],
    ) -> u64;
    fn bruncadorza_write_genotype(
        numbers: *const u64, numbers_n: usize, missing: *const u8, missing_n: usize, phased: *const u8, phased_n: usize,
        major: u32, minor: u32, out: *mut u8, out_n: usize, at: usize,
        values: &mut [u64; VALUES],
    ) -> u64;

    fn bruncadorza_count_genotypes(ploidy: u64, alleles: u64, values: &mut [u64; VALUES]) -> u64;
    fn bruncadorza_genotype_number(
        genotype: *const u64, genotype_n: usize, alleles: u64,
        values: &mut [u64; VALUES],
    ) -> u64;
    fn bruncadorza_genotype_at(
        number: u64, ploidy: u64, alleles: u64, row: *mut u64, row_n: usize,
        values: &mut [u64; VALUES],
    ) -> u64;
    fn bruncadorza_list_genotypes(
        ploidy: u64, alleles: u64, row: *mut u64, row_n: usize,
        values: &mut [u64; VALUES],
    ) -> u64;

    fn bruncadorza_read_vector(
        bytes: *const u8, bytes_n: usize, width: usize,
        numbers: *mut u64, numbers_n: usize, missing: *mut u8, missing_n: usize, phased: *mut u8, phased_n: usize,
        values: &mut [u64; VALUES],
    ) -> u64;
    fn bruncadorza_write_vector(
        numbers: *const u64, numbers_n: usize, missing: *const u8, missing_n: usize, phased: *const u8, phased_n: usize,
        entries: usize, out: *mut u8, out_n: usize, at: usize,
        values: &mut [u64; VALUES],
    ) -> u64;

    fn bruncadorza_judge_filter(filter: *const u8, filter_n: usize) -> u64;
    fn bruncadorza_judge_alt(alt: *const u8, alt_n: usize) -> u64;
    fn bruncadorza_alt_count(column: *const u8, column_n: usize) -> u64;
    fn bruncadorza_write_filters(
        text: *const u8, text_n: usize, ends: *const usize, ends_n: usize, out: *mut u8, out_n: usize, at: usize,
        values: &mut [u64; VALUES],
    ) -> u64;
    fn bruncadorza_write_alts(
        text: *const u8, text_n: usize, ends: *const usize, ends_n: usize, out: *mut u8, out_n: usize, at: usize,
        values: &mut [u64; VALUES],
    ) -> u64;
    fn bruncadorza_join(
        text: *const u8, text_n: usize, ends: *const usize, ends_n: usize, ending: u64, out: *mut u8, out_n: usize, at: usize,
        values: &mut [u64; VALUES],
    ) -> u64;
}

/// What an entry told: its number, and `values` as it left them.
pub(crate) struct Told<const N: usize = VALUES> {
    pub(crate) number: u64,
    values: [u64; N],
}

impl<const N: usize> Told<N> {
    /// Lends `values` to a call.
    fn by(call: impl FnOnce(&mut [u64; N]) -> u64) -> Self {
        let mut values = [0; N];
        let number = call(&mut values);
        Told { number, values }
    }

    /// The values that came with the number.
    pub(crate) fn values(&self) -> &[u64] {
        &self.values[1..=size(self.values[0])]
    }

    /// For an answer that the entry's contract excludes. `contract` is what it says.
    pub(crate) fn excluded(&self, contract: &str) -> ! {
        unreachable!(
            "{} with the values {:?}: the contract says {contract}",
            self.number,
            self.values()
        )
    }
}

/// The same for an entry that has no values.
pub(crate) fn excluded(number: u64, contract: &str) -> ! {
    unreachable!("{number}: the contract says {contract}")
}

/// A `usize` has 64 bits.
pub(crate) fn size(n: u64) -> usize {
    n as usize
}

/// The place that two values are.
pub(crate) fn range(start: u64, len: u64) -> Range {
    Range {
        start: size(start),
        len: size(len),
    }
}

/// The ten places that twenty values are.
pub(crate) fn ranges(values: &[u64]) -> [Range; 10] {
    std::array::from_fn(|i| range(values[2 * i], values[2 * i + 1]))
}

pub(crate) fn check_utf8(text: &[u8]) -> u64 {
    unsafe { bruncadorza_check_utf8(text.as_ptr(), text.len()) }
}

pub(crate) fn find_space(text: &[u8]) -> Told {
    Told::by(|values| unsafe { bruncadorza_find_space(text.as_ptr(), text.len(), values) })
}

pub(crate) fn read_decimal(text: &[u8]) -> Told {
    Told::by(|values| unsafe { bruncadorza_read_decimal(text.as_ptr(), text.len(), values) })
}

pub(crate) fn print_decimal(number: u64, out: &mut [u8]) -> Told {
    Told::by(|values| unsafe {
        bruncadorza_print_decimal(number, out.as_mut_ptr(), out.len(), values)
    })
}

pub(crate) fn read_line(s: &[u8], at: usize) -> Told<LINE_VALUES> {
    Told::by(|values| unsafe { bruncadorza_read_line(s.as_ptr(), s.len(), at, values) })
}

pub(crate) fn split_line(s: &[u8], at: usize) -> Told<LINE_VALUES> {
    Told::by(|values| unsafe { bruncadorza_split_line(s.as_ptr(), s.len(), at, values) })
}

pub(crate) fn field_text(s: &[u8], name: u64, place: Range) -> Told {
    Told::by(|values| unsafe {
        bruncadorza_field_text(s.as_ptr(), s.len(), name, place.start, place.len, values)
    })
}

pub(crate) fn place_in(s: &[u8], place: Range) -> Told {
    Told::by(|values| unsafe {
        bruncadorza_place_in(s.as_ptr(), s.len(), place.start, place.len, values)
    })
}

pub(crate) fn read_pos(text: &[u8]) -> Told {
    Told::by(|values| unsafe { bruncadorza_read_pos(text.as_ptr(), text.len(), values) })
}

pub(crate) fn narrow(ending: u64, places: &[usize; PLACES]) -> Told<LINE_VALUES> {
    Told::by(|values| unsafe { bruncadorza_narrow(ending, places, values) })
}

pub(crate) fn widen(ending: u64, numbers: &[usize; NUMBERS]) -> Told<LINE_VALUES> {
    Told::by(|values| unsafe { bruncadorza_widen(ending, numbers, values) })
}

pub(crate) fn info_step(column: &[u8], at: usize) -> Told {
    Told::by(|values| unsafe { bruncadorza_info_step(column.as_ptr(), column.len(), at, values) })
}

pub(crate) fn info_find(column: &[u8], key: &[u8]) -> Told {
    Told::by(|values| unsafe {
        bruncadorza_info_find(
            column.as_ptr(),
            column.len(),
            key.as_ptr(),
            key.len(),
            values,
        )
    })
}

pub(crate) fn info_value(column: &[u8], key: &[u8]) -> Told {
    Told::by(|values| unsafe {
        bruncadorza_info_value(
            column.as_ptr(),
            column.len(),
            key.as_ptr(),
            key.len(),
            values,
        )
    })
}

pub(crate) fn info_count(column: &[u8]) -> usize {
    size(unsafe { bruncadorza_info_count(column.as_ptr(), column.len()) })
}

pub(crate) fn samples_count(samples: &[u8]) -> usize {
    size(unsafe { bruncadorza_samples_count(samples.as_ptr(), samples.len()) })
}

pub(crate) fn sample_at(samples: &[u8], at: usize) -> Told {
    Told::by(|values| unsafe { bruncadorza_sample_at(samples.as_ptr(), samples.len(), at, values) })
}

pub(crate) fn sample(samples: &[u8], index: usize) -> Told {
    Told::by(|values| unsafe { bruncadorza_sample(samples.as_ptr(), samples.len(), index, values) })
}

pub(crate) fn subfield(sample: &[u8], index: usize) -> Told {
    Told::by(|values| unsafe { bruncadorza_subfield(sample.as_ptr(), sample.len(), index, values) })
}

pub(crate) fn key_index(format: &[u8], key: &[u8]) -> Told {
    Told::by(|values| unsafe {
        bruncadorza_key_index(
            format.as_ptr(),
            format.len(),
            key.as_ptr(),
            key.len(),
            values,
        )
    })
}

pub(crate) fn genotype_step(text: &[u8], at: usize) -> Told {
    Told::by(|values| unsafe { bruncadorza_genotype_step(text.as_ptr(), text.len(), at, values) })
}

pub(crate) fn genotype_judge(text: &[u8], room: usize) -> Told {
    Told::by(|values| unsafe {
        bruncadorza_genotype_judge(text.as_ptr(), text.len(), room, values)
    })
}

pub(crate) fn genotype_judge_checked(text: &[u8], alt: &[u8], room: usize) -> Told {
    Told::by(|values| unsafe {
        bruncadorza_genotype_judge_checked(
            text.as_ptr(),
            text.len(),
            alt.as_ptr(),
            alt.len(),
            room,
            values,
        )
    })
}

pub(crate) fn read_genotype(
    text: &[u8],
    numbers: &mut [u64],
    missing: &mut [u8],
    phased: &mut [u8],
) -> Told {
    Told::by(|values| unsafe {
        bruncadorza_read_genotype(
            text.as_ptr(),
            text.len(),
            numbers.as_mut_ptr(),
            numbers.len(),
            missing.as_mut_ptr(),
            missing.len(),
            phased.as_mut_ptr(),
            phased.len(),
            values,
        )
    })
}

pub(crate) fn read_genotype_checked(
    text: &[u8],
    alt: &[u8],
    numbers: &mut [u64],
    missing: &mut [u8],
    phased: &mut [u8],
) -> Told {
    Told::by(|values| unsafe {
        bruncadorza_read_genotype_checked(
            text.as_ptr(),
            text.len(),
            alt.as_ptr(),
            alt.len(),
            numbers.as_mut_ptr(),
            numbers.len(),
            missing.as_mut_ptr(),
            missing.len(),
            phased.as_mut_ptr(),
            phased.len(),
            values,
        )
    })
}

pub(crate) fn write_genotype(
    numbers: &[u64],
    missing: &[u8],
    phased: &[u8],
    (major, minor): (u32, u32),
    out: &mut [u8],
    at: usize,
) -> Told {
    Told::by(|values| unsafe {
        bruncadorza_write_genotype(
            numbers.as_ptr(),
            numbers.len(),
            missing.as_ptr(),
            missing.len(),
            phased.as_ptr(),
            phased.len(),
            major,
            minor,
            out.as_mut_ptr(),
            out.len(),
            at,
            values,
        )
    })
}

pub(crate) fn count_genotypes(ploidy: u64, alleles: u64) -> Told {
    Told::by(|values| unsafe { bruncadorza_count_genotypes(ploidy, alleles, values) })
}

pub(crate) fn genotype_number(genotype: &[u64], alleles: u64) -> Told {
    Told::by(|values| unsafe {
        bruncadorza_genotype_number(genotype.as_ptr(), genotype.len(), alleles, values)
    })
}

pub(crate) fn genotype_at(number: u64, ploidy: u64, alleles: u64, row: &mut [u64]) -> Told {
    Told::by(|values| unsafe {
        bruncadorza_genotype_at(number, ploidy, alleles, row.as_mut_ptr(), row.len(), values)
    })
}

pub(crate) fn list_genotypes(ploidy: u64, alleles: u64, row: &mut [u64]) -> Told {
    Told::by(|values| unsafe {
        bruncadorza_list_genotypes(ploidy, alleles, row.as_mut_ptr(), row.len(), values)
    })
}

pub(crate) fn read_vector(
    bytes: &[u8],
    width: usize,
    numbers: &mut [u64],
    missing: &mut [u8],
    phased: &mut [u8],
) -> Told {
    Told::by(|values| unsafe {
        bruncadorza_read_vector(
            bytes.as_ptr(),
            bytes.len(),
            width,
            numbers.as_mut_ptr(),
            numbers.len(),
            missing.as_mut_ptr(),
            missing.len(),
            phased.as_mut_ptr(),
            phased.len(),
            values,
        )
    })
}

pub(crate) fn write_vector(
    numbers: &[u64],
    missing: &[u8],
    phased: &[u8],
    entries: usize,
    out: &mut [u8],
    at: usize,
) -> Told {
    Told::by(|values| unsafe {
        bruncadorza_write_vector(
            numbers.as_ptr(),
            numbers.len(),
            missing.as_ptr(),
            missing.len(),
            phased.as_ptr(),
            phased.len(),
            entries,
            out.as_mut_ptr(),
            out.len(),
            at,
            values,
        )
    })
}

pub(crate) fn judge_filter(filter: &[u8]) -> u64 {
    unsafe { bruncadorza_judge_filter(filter.as_ptr(), filter.len()) }
}

pub(crate) fn judge_alt(alt: &[u8]) -> u64 {
    unsafe { bruncadorza_judge_alt(alt.as_ptr(), alt.len()) }
}

pub(crate) fn alt_count(column: &[u8]) -> usize {
    size(unsafe { bruncadorza_alt_count(column.as_ptr(), column.len()) })
}

pub(crate) fn write_filters(text: &[u8], ends: &[usize], out: &mut [u8], at: usize) -> Told {
    Told::by(|values| unsafe {
        bruncadorza_write_filters(
            text.as_ptr(),
            text.len(),
            ends.as_ptr(),
            ends.len(),
            out.as_mut_ptr(),
            out.len(),
            at,
            values,
        )
    })
}

pub(crate) fn write_alts(text: &[u8], ends: &[usize], out: &mut [u8], at: usize) -> Told {
    Told::by(|values| unsafe {
        bruncadorza_write_alts(
            text.as_ptr(),
            text.len(),
            ends.as_ptr(),
            ends.len(),
            out.as_mut_ptr(),
            out.len(),
            at,
            values,
        )
    })
}

pub(crate) fn join(text: &[u8], ends: &[usize], ending: u64, out: &mut [u8], at: usize) -> Told {
    Told::by(|values| unsafe {
        bruncadorza_join(
            text.as_ptr(),
            text.len(),
            ends.as_ptr(),
            ends.len(),
            ending,
            out.as_mut_ptr(),
            out.len(),
            at,
            values,
        )
    })
}

#[cfg(test)]
mod tests {
    use super::*;

    type Reader = unsafe extern "C" fn(*const u8, usize, usize, &mut [u64; LINE_VALUES]) -> u64;

    /// From each place of a text with every refusal in it both line readers leave the same array, and what was behind the values.
    #[test]
    fn both_line_readers_leave_the_same_values() {
        let text = b"1\t7\t.\tA\tC\t.\t.\tx\n\t\n1\n\xFF\t7\t.\tA\tC\t.\t.\tx\tGT\t0|1\r\n#";
        let mut seen = [false; 7];
        for at in 0..=text.len() + 1 {
            let by = |reader: Reader| {
                let mut values = [77; LINE_VALUES];
                let number = unsafe { reader(text.as_ptr(), text.len(), at, &mut values) };
                (number, values)
            };
            let (number, values) = by(bruncadorza_read_line);
            assert_eq!(by(bruncadorza_split_line), (number, values));
            assert!(values[size(values[0]) + 1..].iter().all(|&n| n == 77));
            seen[size(number)] = true;
        }
        assert_eq!(seen, [true; 7]);
    }
}
