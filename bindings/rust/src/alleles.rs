//! Genotypes as slices of [`Allele`]. Records do not cross to the library, so these copy them to or from three vectors: they
//! allocate, which nothing else here does. The answers are those of the functions over three slices.

use crate::genotype::{self, Allele, Read};
use crate::spelling::{write_genotype, Write};

/// Reads a genotype into the first entries of a row. A refusal changes nothing.
pub fn read_alleles(text: &[u8], row: &mut [Allele]) -> Read {
    let judged = genotype::judge(text, row.len());
    fill(judged, row, |numbers, missing, phased| {
        genotype::read_genotype(text, numbers, missing, phased)
    })
}

/// The same where no number may be above the count of the ALT column `alt` ([`alt_count`](crate::lists::alt_count)).
pub fn read_alleles_checked(text: &[u8], alt: &[u8], row: &mut [Allele]) -> Read {
    let judged = genotype::judge_checked(text, alt, row.len());
    fill(judged, row, |numbers, missing, phased| {
        genotype::read_checked(text, alt, numbers, missing, phased)
    })
}

/// Reads into vectors as long as the genotype that was judged, and copies them to the row.
fn fill(
    judged: Read,
    row: &mut [Allele],
    read: impl FnOnce(&mut [u64], &mut [u8], &mut [u8]) -> Read,
) -> Read {
    let Read::Done(count) = judged else {
        return judged;
    };
    let (mut numbers, mut missing, mut phased) = (vec![0; count], vec![0; count], vec![0; count]);
    let answer = read(&mut numbers, &mut missing, &mut phased);
    for (i, allele) in row[..count].iter_mut().enumerate() {
        *allele = Allele {
            number: numbers[i],
            missing: missing[i] != 0,
            phased: phased[i] != 0,
        };
    }
    answer
}

/// Writes the shortest spelling that the file format `(major, minor)` permits, from the place `at` of the output on. A refusal
/// changes nothing.
pub fn write_alleles(
    alleles: &[Allele],
    file_format: (u32, u32),
    out: &mut [u8],
    at: usize,
) -> Write {
    let numbers: Vec<u64> = alleles.iter().map(|allele| allele.number).collect();
    let missing: Vec<u8> = alleles.iter().map(|allele| allele.missing.into()).collect();
    let phased: Vec<u8> = alleles.iter().map(|allele| allele.phased.into()).collect();
    write_genotype(&numbers, &missing, &phased, file_format, out, at)
}
