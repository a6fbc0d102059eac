//! Prints what vcflist prints, over the Rust's reader: for files whose lines are all in order.
use std::io::{self, BufRead, BufReader, BufWriter, Write};
use vcf_oracle::{Record, calls};

fn main() -> io::Result<()> {
    let mut input = BufReader::with_capacity(262_144, io::stdin().lock());
    let mut out = BufWriter::with_capacity(65_536, io::stdout().lock());
    let (mut record, mut read) = (Record::default(), 0);
    while input.fill_buf()?.first() == Some(&b'#') {
        input.skip_until(b'\n')?;
    }
    while calls::read_record(&mut input, &mut record)? > 0 {
        let (infos, samples) = (calls::info_count(record.info().as_ref()), record.samples().len());
        let columns = if samples == 0 { 8 } else { 9 + samples };
        writeln!(out, "ok {columns} {infos} {samples}")?;
        read += 1;
    }
    writeln!(out, "read {read} refused 0")
}
