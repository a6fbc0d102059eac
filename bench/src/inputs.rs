//! What is measured: bodies of VCF files, with all that a row needs of them laid out before.
use vcf_oracle::Record;
use vcf_oracle::calls::{Genotype, Phasing, read_record};

pub type Allele = (Option<usize>, Phasing);

/// Where a field stands in the body.
#[derive(Clone, Copy)]
pub struct Place {
    pub start: usize,
    pub len: usize,
}

impl Place {
    pub fn of(self, body: &[u8]) -> &[u8] {
        &body[self.start..self.start + self.len]
    }
}

/// One input. What a row does not apply to is empty in it.
#[derive(Default)]
pub struct Input {
    pub name: &'static str,
    /// The lines of a file, one after another.
    pub body: Vec<u8>,
    /// The same lines as the Rust's records, and where ALT and the samples of each stand in the body.
    pub records: Vec<Record>,
    pub alts: Vec<Place>,
    pub samples: Vec<Place>,
    /// The INFO columns, one after another, and the end of each.
    pub info: String,
    pub info_ends: Vec<usize>,
    /// Every genotype's alleles, as the Rust has them and as ours, and the end of each genotype.
    pub alleles: Vec<Allele>,
    pub numbers: Vec<u64>,
    pub missing: Vec<u8>,
    pub phased: Vec<u8>,
    pub allele_ends: Vec<usize>,
    /// The columns of every line, one after another, the end of each within its line, and how many columns each line has.
    pub columns: Vec<u8>,
    pub column_ends: Vec<usize>,
    pub column_counts: Vec<usize>,
    /// A text to be checked for UTF-8.
    pub text: Vec<u8>,
}

impl Input {
    /// A text that holds no lines.
    pub fn of_text(name: &'static str, text: Vec<u8>) -> Self {
        Self { name, text, ..Self::default() }
    }

    pub fn of_lines(name: &'static str, body: Vec<u8>) -> Self {
        let mut input = Self { name, ..Self::default() };
        let mut at = 0;
        for line in body.split_inclusive(|&b| b == b'\n') {
            input.add_line(line, at);
            at += line.len();
        }
        input.body = body;
        input
    }

    fn add_line(&mut self, line: &[u8], at: usize) {
        let mut record = Record::default();
        read_record(&mut &line[..], &mut record).expect("a line in order");
        self.info.push_str(record.info().as_ref());
        self.info_ends.push(self.info.len());
        for sample in record.samples().iter() {
            self.add_genotype(sample.text().split(':').next().expect("a first subfield"));
        }
        self.add_columns(line.strip_suffix(b"\n").expect("a whole line"), at);
        self.records.push(record);
    }

    fn add_genotype(&mut self, text: &str) {
        for allele in Genotype::new(text).alleles() {
            let (number, phasing) = allele.expect("an allele");
            self.alleles.push((number, phasing));
            self.numbers.push(number.map_or(0, |n| n as u64));
            self.missing.push(number.is_none().into());
            self.phased.push((phasing == Phasing::Phased).into());
        }
        self.allele_ends.push(self.alleles.len());
    }

    fn add_columns(&mut self, line: &[u8], at: usize) {
        let (mut count, mut end, mut start) = (0, 0, at);
        let none = Place { start: at + line.len(), len: 0 };
        let (mut alt, mut samples) = (none, none);
        for column in line.split(|&b| b == b'\t') {
            self.columns.extend(column);
            end += column.len();
            self.column_ends.push(end);
            match count {
                4 => alt = Place { start, len: column.len() },
                9 => samples = Place { start, len: at + line.len() - start },
                _ => {}
            }
            count += 1;
            start += column.len() + 1;
        }
        self.column_counts.push(count);
        self.alts.push(alt);
        self.samples.push(samples);
    }
}

/// The lines of a VCF file, without its header.
fn body(path: String) -> Vec<u8> {
    let file = std::fs::read(&path).unwrap_or_else(|e| panic!("{path}: {e}"));
    let lines = file.split_inclusive(|&b| b == b'\n').filter(|line| !line.starts_with(b"#"));
    lines.flatten().copied().collect()
}

/// So many bytes at least, made from pieces.
fn repeated(bytes: usize, piece: impl Fn(usize) -> String) -> Vec<u8> {
    let mut out = Vec::with_capacity(bytes + bytes / 4);
    for i in 0.. {
        if out.len() >= bytes {
            break;
        }
        out.extend(piece(i).bytes());
    }
    out
}

/// Letters of a sequence, which differ from line to line.
fn bases(count: usize, i: usize) -> String {
    (0..count).map(|k| b"ACGT"[(k * k + k / 3 + i) % 4] as char).collect()
}

/// The files that `gen` wrote to a folder, lines with long fields, and two texts.
pub fn all(dir: &str, bytes: usize) -> Vec<Input> {
    let file = |name: &str| body(format!("{dir}/{name}.vcf"));
    let long_info = |i: usize| {
        let value = "A|missense_variant|MODERATE|".repeat(71);
        format!("chr1\t{}\t.\tA\tC\t50\tPASS\tDP={};CSQ={value};DB\n", i + 1, i % 1000)
    };
    let long_alleles = |i: usize| {
        format!("chr1\t{}\t.\t{}\t{}\t50\tPASS\tDP=3;DB\tGT:DP\t0/1:3\n", i + 1, bases(5000, i), bases(5000, i + 1))
    };
    let long_sample = |i: usize| {
        let numbers = "120,0,".repeat(10_000);
        format!("chr1\t{}\t.\tA\tC\t50\tPASS\tDP=3;DB\tGT:PL\t0/1:{numbers}9\n", i + 1)
    };
    let long_alt = |i: usize| {
        let samples = "\t0/1:3".repeat(1000);
        format!("chr1\t{}\t.\tA\t{}\t50\tPASS\tDP=3;DB\tGT:DP{samples}\n", i + 1, bases(5000, i))
    };
    let mixed = |i: usize| format!("{i} Lachs, łosoś, сёмга, σολομός, 鮭, 연어, 🐟; ");
    vec![
        Input::of_lines("0 samples", file("s0")),
        Input::of_lines("1 sample", file("s1")),
        Input::of_lines("10 samples", file("s10")),
        Input::of_lines("1,000 samples", file("s1000")),
        Input::of_lines("a mix of these", file("mix")),
        Input::of_lines("INFO of 2 kB", repeated(bytes, long_info)),
        Input::of_lines("REF and ALT of 5 kB", repeated(bytes, long_alleles)),
        Input::of_lines("a sample of 60 kB", repeated(bytes, long_sample)),
        Input::of_lines("ALT of 5 kB, 1,000 samples", repeated(bytes / 4, long_alt)),
        Input::of_text("ASCII", file("s0")),
        Input::of_text("mixed text", repeated(bytes, mixed)),
    ]
}
