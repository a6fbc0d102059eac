//! gen DIR MEGABYTES [NAME ..]: writes five VCF files of that size, or those named, the same at each run: s0 (eight columns), s1,
//! s10 and s1000 (so many samples of GT:DP:GQ), and mix (lines of all four by turns, with equal shares of the bytes).
use std::fs::File;
use std::io::{self, BufWriter, Write};

/// Random numbers by xorshift64*.
struct Dice(u64);
impl Dice {
    fn next(&mut self) -> u64 {
        self.0 ^= self.0 >> 12;
        self.0 ^= self.0 << 25;
        self.0 ^= self.0 >> 27;
        self.0.wrapping_mul(0x2545F4914F6CDD1D) >> 16
    }
    fn roll(&mut self, sides: u64) -> u64 {
        self.next() % sides
    }
}

const BASES: &[u8] = b"ACGT";
const FILTERS: [&str; 6] = ["PASS", "PASS", "PASS", "q10", "q10;s50", "."];

fn line(dice: &mut Dice, chrom: u64, pos: u64, samples: usize, out: &mut Vec<u8>) -> io::Result<()> {
    let kind = dice.roll(100);
    let (reference, step) = (dice.roll(4) as usize, dice.roll(3) as usize);
    write!(out, "chr{chrom}\t{pos}\t")?;
    if kind < 30 {
        write!(out, "rs{}", dice.roll(1 << 28))?;
    } else {
        out.push(b'.');
    }
    out.extend([b'\t', BASES[reference]]);
    if kind >= 90 {
        for _ in 0..1 + dice.roll(6) {
            out.push(BASES[dice.roll(4) as usize]);
        }
    }
    out.extend([b'\t', BASES[(reference + 1 + step) % 4]]);
    let alts = if kind % 10 == 0 { 2 } else { 1 };
    if alts == 2 {
        out.extend([b',', BASES[(reference + 1 + (step + 1) % 3) % 4]]);
    }
    write!(out, "\t{}.{}\t{}\t", dice.roll(1000), dice.roll(10), FILTERS[dice.roll(6) as usize])?;
    info(dice, kind, BASES[reference], samples, out)?;
    if samples > 0 {
        genotypes(dice, alts, samples, out)?;
    }
    out.push(b'\n');
    Ok(())
}

fn info(dice: &mut Dice, kind: u64, base: u8, samples: usize, out: &mut Vec<u8>) -> io::Result<()> {
    let count = 2 * samples.max(1);
    write!(out, "AC={};AF=0.{:05};AN={count};DP={}", dice.roll(500), dice.roll(100_000), dice.roll(5000))?;
    write!(out, ";MQ={}.{}", dice.roll(60), dice.roll(10))?;
    if kind % 3 == 0 {
        out.extend(b";DB");
    }
    if kind % 4 == 0 {
        write!(out, ";ANN={}|missense_variant|MODERATE|GENE{}", base as char, dice.roll(20_000))?;
    }
    Ok(())
}

fn genotypes(dice: &mut Dice, alts: u64, samples: usize, out: &mut Vec<u8>) -> io::Result<()> {
    out.extend(b"\tGT:DP:GQ");
    let allele = |v: u64| if v % 4 == 0 { b'0' + (1 + v / 4 % alts) as u8 } else { b'0' };
    for _ in 0..samples {
        out.push(b'\t');
        let x = dice.next();
        if x % 50 == 0 {
            out.extend(b"./.:.:.");
            continue;
        }
        let mark = if x & 0x4000_0000 == 0 { b'/' } else { b'|' };
        out.extend([allele(x >> 8), mark, allele(x >> 16)]);
        write!(out, ":{}:{}", (x >> 4) % 90, (x >> 12) % 100)?;
    }
    Ok(())
}

fn header(samples: usize) -> String {
    let mut out = String::from("##fileformat=VCFv4.3\n##FILTER=<ID=PASS,Description=\"All filters passed\">\n");
    out += "##FILTER=<ID=q10,Description=\"q\">\n##FILTER=<ID=s50,Description=\"s\">\n";
    for (id, number, kind) in [
        ("AC", "A", "Integer"), ("AF", "A", "Float"), ("AN", "1", "Integer"), ("DP", "1", "Integer"),
        ("MQ", "1", "Float"), ("DB", "0", "Flag"), ("ANN", ".", "String"),
    ] {
        out += &format!("##INFO=<ID={id},Number={number},Type={kind},Description=\"x\">\n");
    }
    for (id, kind) in [("GT", "String"), ("DP", "Integer"), ("GQ", "Integer")] {
        out += &format!("##FORMAT=<ID={id},Number=1,Type={kind},Description=\"x\">\n");
    }
    for chrom in 1..=22 {
        out += &format!("##contig=<ID=chr{chrom},length=250000000>\n");
    }
    out += "#CHROM\tPOS\tID\tREF\tALT\tQUAL\tFILTER\tINFO";
    if samples > 0 {
        out += "\tFORMAT";
        for sample in 0..samples {
            out += &format!("\tS{sample:04}");
        }
    }
    out + "\n"
}

/// Lines up to so many bytes, each with as many samples as that of `kinds` which has the fewest bytes yet.
fn file(path: String, mut dice: Dice, bytes: u64, kinds: &[usize], one_chrom: bool) -> io::Result<()> {
    let mut file = BufWriter::new(File::create(path)?);
    file.write_all(header(*kinds.last().unwrap()).as_bytes())?;
    let mut shares = vec![0u64; kinds.len()];
    let (mut out, mut pos) = (vec![], 10_000);
    while shares.iter().sum::<u64>() < bytes {
        let least = (0..kinds.len()).min_by_key(|&i| shares[i]).unwrap();
        let chrom = if one_chrom { 1 } else { 1 + shares[0] * 22 / bytes };
        pos += 1 + dice.roll(60);
        out.clear();
        line(&mut dice, chrom, pos % 200_000_000 + 1, kinds[least], &mut out)?;
        shares[least] += out.len() as u64;
        file.write_all(&out)?;
    }
    file.flush()
}

fn main() -> io::Result<()> {
    let arguments: Vec<String> = std::env::args().collect();
    let [_, dir, megabytes, names @ ..] = &arguments[..] else { panic!("usage: gen DIR MEGABYTES [NAME ..]") };
    let bytes = megabytes.parse::<u64>().expect("MEGABYTES is a number") * 1_000_000;
    let wanted = |name: &str| names.is_empty() || names.iter().any(|wanted| wanted == name);
    let kinds = [0, 1, 10, 1000];
    for (i, &samples) in kinds.iter().enumerate().filter(|(_, samples)| wanted(&format!("s{samples}"))) {
        let dice = Dice(0x9E3779B97F4A7C15 + i as u64);
        file(format!("{dir}/s{samples}.vcf"), dice, bytes, &[samples], false)?;
    }
    if wanted("mix") {
        file(format!("{dir}/mix.vcf"), Dice(0xD1B54A32D192ED03), bytes, &kinds, true)?;
    }
    Ok(())
}
