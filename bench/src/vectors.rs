//! vectors: how fast vectors of BCF are written and read, in each width, through the entries for C; prints a table. The Rust has no such
//! functions.
mod calls;
mod clock;

use calls::{Values, nanoseconds};

unsafe extern "C" {
    fn bruncadorza_read_vector(
        bytes: *const u8,
        bytes_n: usize,
        width: usize,
        numbers: *mut u64,
        numbers_n: usize,
        missing: *mut u8,
        missing_n: usize,
        phased: *mut u8,
        phased_n: usize,
        values: &mut Values,
    ) -> u64;
    fn bruncadorza_write_vector(
        numbers: *const u64,
        numbers_n: usize,
        missing: *const u8,
        missing_n: usize,
        phased: *const u8,
        phased_n: usize,
        entries: usize,
        out: *mut u8,
        out_n: usize,
        at: usize,
        values: &mut Values,
    ) -> u64;
}

/// Alleles and entries: what breeders have, one that is padded, and longer ones.
const SHAPES: [(usize, usize); 5] = [(1, 1), (2, 2), (2, 4), (4, 4), (16, 16)];

/// Each width in bytes, with the largest allele that it holds.
const WIDTHS: [(usize, u64); 3] = [(1, 62), (2, 16_382), (4, 1_073_741_822)];

/// So many vectors of each, behind one another.
const VECTORS: usize = 4_096;

/// So many calls each time.
const CALLS: usize = 100 * VECTORS;

/// Lists of so many alleles each, in three slices.
struct Lists {
    numbers: Vec<u64>,
    missing: Vec<u8>,
    phased: Vec<u8>,
}

/// The first allele of each list is the largest of the width; of the others some are missing, and any may be phased.
fn lists(alleles: usize, largest: u64) -> Lists {
    let mut seed = 1u64;
    let mut random = || {
        seed = seed.wrapping_mul(6364136223846793005).wrapping_add(1442695040888963407);
        seed >> 33
    };
    let mut lists = Lists { numbers: vec![], missing: vec![], phased: vec![] };
    for i in 0..alleles * VECTORS {
        let missing = i % alleles != 0 && random() % 8 == 0;
        let number = if i % alleles == 0 { largest } else { random() % (largest + 1) };
        lists.numbers.push(if missing { 0 } else { number });
        lists.missing.push(missing as u8);
        lists.phased.push((random() % 2) as u8);
    }
    lists
}

/// Writes the list with an index behind those before it.
fn write(lists: &Lists, alleles: usize, i: usize, entries: usize, width: usize, out: &mut [u8]) {
    let mut values = Values::default();
    let list = alleles * i;
    let number = unsafe {
        bruncadorza_write_vector(
            lists.numbers[list..].as_ptr(),
            alleles,
            lists.missing[list..].as_ptr(),
            alleles,
            lists.phased[list..].as_ptr(),
            alleles,
            entries,
            out.as_mut_ptr(),
            out.len(),
            i * entries * width,
            &mut values,
        )
    };
    assert_eq!((number, values[0], values[1], values[2]), (0, 2, width as u64, (entries * width) as u64));
}

/// Reads one vector into the start of three slices.
fn read(vector: &[u8], width: usize, alleles: usize, row: &mut Lists) {
    let mut values = Values::default();
    let n = row.numbers.len();
    let number = unsafe {
        bruncadorza_read_vector(
            vector.as_ptr(),
            vector.len(),
            width,
            row.numbers.as_mut_ptr(),
            n,
            row.missing.as_mut_ptr(),
            n,
            row.phased.as_mut_ptr(),
            n,
            &mut values,
        )
    };
    assert_eq!((number, values[0], values[1]), (0, 1, alleles as u64));
}

fn main() {
    println!("| alleles | entries | bytes of an entry | written, million alleles/s | read, million alleles/s | to write one, ns | to read one, ns |");
    println!("|--:|--:|--:|--:|--:|--:|--:|");
    for (alleles, entries) in SHAPES {
        for (width, largest) in WIDTHS {
            let given = lists(alleles, largest);
            let bytes = entries * width;
            let mut out = vec![0; VECTORS * bytes];
            let mut row = Lists { numbers: vec![0; 16], missing: vec![0; 16], phased: vec![0; 16] };
            let mut i = 0;
            let written = nanoseconds(CALLS, || {
                write(&given, alleles, i, entries, width, &mut out);
                i = (i + 1) % VECTORS;
            });
            let mut j = 0;
            let was_read = nanoseconds(CALLS, || {
                read(&out[j * bytes..(j + 1) * bytes], width, alleles, &mut row);
                assert_eq!(row.numbers[alleles - 1], given.numbers[(j + 1) * alleles - 1]);
                j = (j + 1) % VECTORS;
            });
            let rate = |ns: f64| alleles as f64 * 1e3 / ns;
            println!("| {alleles} | {entries} | {width} | {:.0} | {:.0} | {written:.1} | {was_read:.1} |", rate(written), rate(was_read));
        }
    }
}
