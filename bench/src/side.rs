//! What both sides of a row share.

/// What a run found: how many things, and a sum over them. Both sides must find the same.
#[derive(Clone, Copy, Debug, Default, Eq, PartialEq)]
pub struct Tally {
    pub items: u64,
    pub sum: u64,
}

impl Tally {
    #[inline]
    pub fn add(&mut self, worth: usize) {
        self.items += 1;
        self.sum += worth as u64;
    }

    #[inline]
    pub fn add_allele(&mut self, number: Option<u64>, phased: bool) {
        self.items += 1;
        self.sum += number.map_or(0, |n| n * 2 + 2) + phased as u64;
    }
}

/// What an entry for C is lent for its values.
pub type Values = [u64; 8];

/// Memory that a side writes to, allocated before anything is measured.
pub struct Room {
    pub record: vcf_oracle::Record,
    /// Output, of which the last run wrote the first so many bytes.
    pub out: Vec<u8>,
    pub written: usize,
    pub numbers: Vec<u64>,
    pub missing: Vec<u8>,
    pub phased: Vec<u8>,
    pub values: Values,
}

impl Room {
    pub fn new(bytes: usize) -> Self {
        Self {
            record: Default::default(),
            out: vec![0; bytes],
            written: 0,
            numbers: vec![0; 64],
            missing: vec![0; 64],
            phased: vec![0; 64],
            values: Values::default(),
        }
    }
}
