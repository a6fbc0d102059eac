//! numbers: how fast genotypes are listed, numbered and found by their number, through the entries for C; prints a table. The Rust has
//! no such functions, so the limit stands beside: a plain loop that fills the same row with numbers.
mod calls;
mod clock;

use calls::{Values, nanoseconds};
use std::hint::black_box;

unsafe extern "C" {
    fn bruncadorza_count_genotypes(ploidy: u64, alleles: u64, values: &mut Values) -> u64;
    fn bruncadorza_genotype_number(genotype: *const u64, genotype_n: usize, alleles: u64, values: &mut Values) -> u64;
    fn bruncadorza_genotype_at(number: u64, ploidy: u64, alleles: u64, row: *mut u64, row_n: usize, values: &mut Values) -> u64;
    fn bruncadorza_list_genotypes(ploidy: u64, alleles: u64, row: *mut u64, row_n: usize, values: &mut Values) -> u64;
}

/// Ploidies and allele counts: the least and the most of each, and what lies between.
const SHAPES: [(u64, u64); 13] =
    [(1, 1), (1, 2), (1, 64), (2, 1), (2, 2), (2, 4), (2, 64), (3, 4), (3, 64), (4, 4), (8, 1), (8, 4), (8, 12)];

/// So many calls, or so many numbers, at least each time.
const LEAST: usize = 1_000_000;

fn main() {
    println!("| ploidy | alleles | genotypes | listing, million numbers/s | limit, million numbers/s | a number, ns | a genotype, ns |");
    println!("|--:|--:|--:|--:|--:|--:|--:|");
    for (ploidy, alleles) in SHAPES {
        let mut values = Values::default();
        assert_eq!(unsafe { bruncadorza_count_genotypes(ploidy, alleles, &mut values) }, 0);
        let count = values[1];
        let mut row = vec![0; (count * ploidy) as usize];
        let calls = 1 + LEAST / row.len();
        let list = nanoseconds(calls, || {
            let number = unsafe { bruncadorza_list_genotypes(black_box(ploidy), alleles, row.as_mut_ptr(), row.len(), &mut values) };
            assert_eq!(number, 0);
        });
        let genotypes = row.clone();
        let limit = nanoseconds(calls, || {
            let first = black_box(7);
            for (i, place) in row.iter_mut().enumerate() {
                *place = first + i as u64;
            }
            black_box(&mut row);
        });
        // every genotype in turn, and every number
        let mut at = 0;
        let number = nanoseconds(LEAST, || {
            let genotype = &genotypes[at * ploidy as usize..(at + 1) * ploidy as usize];
            unsafe { bruncadorza_genotype_number(genotype.as_ptr(), genotype.len(), alleles, &mut values) };
            assert_eq!(values[1], at as u64);
            at = if at + 1 == count as usize { 0 } else { at + 1 };
        });
        let mut next = 0;
        let mut found = [0; 8];
        let genotype = nanoseconds(LEAST, || {
            unsafe { bruncadorza_genotype_at(next, ploidy, alleles, found.as_mut_ptr(), found.len(), &mut values) };
            assert_eq!(found[0], genotypes[(next * ploidy) as usize]);
            next = if next + 1 == count { 0 } else { next + 1 };
        });
        let numbers = row.len() as f64 * 1e3;
        println!("| {ploidy} | {alleles} | {count} | {:.0} | {:.0} | {number:.0} | {genotype:.0} |", numbers / list, numbers / limit);
    }
}
