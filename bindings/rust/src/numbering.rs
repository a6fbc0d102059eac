//! The numbers of genotypes: how many there are, the number of one, the genotype of a number, all of them in order.
//!
//! A genotype here is its alleles alone, as numbers in an order that never falls; how many there are is its ploidy, 1 to 8. The
//! alleles are those below an allele count of 1 to 64. The genotypes of one ploidy are numbered from 0 in the order in which VCF
//! 4.4 lists the likelihoods of a sample. What is out of range is told before a row that is too short.
//!
//! ```
//! use bruncadorza::numbering::{count_of, genotype_of, list_all, number_of, Filled, Numbered};
//!
//! // two alleles, ploidy 2: 0/0, 0/1, 1/1
//! assert_eq!(count_of(2, 2), Numbered::Is(3));
//! let mut row = [7; 7];
//! assert_eq!(list_all(2, 2, &mut row), Filled::Done(3));
//! assert_eq!(row, [0, 0, 0, 1, 1, 1, 7]);
//!
//! assert_eq!(number_of(&[0, 1], 2), Numbered::Is(1));
//! assert_eq!(number_of(&[1, 0], 2), Numbered::Wrong);
//! let mut genotype = [0; 2];
//! assert_eq!(genotype_of(2, 2, 2, &mut genotype), Filled::Done(2));
//! assert_eq!(genotype, [1, 1]);
//! ```

use crate::ffi;

/// A number, or that there is none.
#[derive(Clone, Copy, Debug, PartialEq, Eq)]
pub enum Numbered {
    /// 0: the number, or how many.
    Is(u64),
    /// 23: the ploidy, the allele count or an allele is out of range, or the alleles fall.
    Wrong,
}

impl Numbered {
    /// The answer's number.
    pub fn number(self) -> u64 {
        match self {
            Numbered::Is(_) => 0,
            Numbered::Wrong => 23,
        }
    }
}

fn numbered_of(told: ffi::Told) -> Numbered {
    match (told.number, told.values()) {
        (0, &[n]) => Numbered::Is(n),
        (23, []) => Numbered::Wrong,
        _ => told.excluded("0 with a number, or 23"),
    }
}

/// How many genotypes there are, which is how many likelihoods a sample has.
pub fn count_of(ploidy: u64, alleles: u64) -> Numbered {
    numbered_of(ffi::count_genotypes(ploidy, alleles))
}

/// The number of a genotype, whose ploidy is the slice's length.
pub fn number_of(genotype: &[u64], alleles: u64) -> Numbered {
    numbered_of(ffi::genotype_number(genotype, alleles))
}

/// What came of writing genotypes. A refusal changes nothing.
#[derive(Clone, Copy, Debug, PartialEq, Eq)]
pub enum Filled {
    /// 0: and the ploidy of the one genotype, or how many genotypes. A longer row keeps its rest.
    Done(u64),
    /// 23: the ploidy, the allele count or the genotype's number is out of range.
    Wrong,
    /// 17: the row is too short.
    Short,
}

impl Filled {
    /// The answer's number.
    pub fn number(self) -> u64 {
        match self {
            Filled::Done(_) => 0,
            Filled::Wrong => 23,
            Filled::Short => 17,
        }
    }
}

fn filled_of(told: ffi::Told) -> Filled {
    match (told.number, told.values()) {
        (0, &[n]) => Filled::Done(n),
        (23, []) => Filled::Wrong,
        (17, []) => Filled::Short,
        _ => told.excluded("0 with the ploidy or the count, or 17 or 23"),
    }
}

/// Writes the genotype with the number `number` at the start of `row`, and answers the ploidy, which is how many were written.
pub fn genotype_of(number: u64, ploidy: u64, alleles: u64, row: &mut [u64]) -> Filled {
    filled_of(ffi::genotype_at(number, ploidy, alleles, row))
}

/// Writes all genotypes at the start of `row`, one after the other in the order of their numbers, and answers how many there are.
/// The row must be as long as [`count_of`] times the ploidy: genotype i then starts at i times the ploidy.
pub fn list_all(ploidy: u64, alleles: u64, row: &mut [u64]) -> Filled {
    filled_of(ffi::list_genotypes(ploidy, alleles, row))
}
