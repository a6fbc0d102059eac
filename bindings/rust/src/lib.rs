//! Bruncadorza: lines of VCF 4.4 text, read and written.
//!
//! A safe wrapper over the proved library. Slices go in and enums come out; every function takes all inputs, and a refusal
//! writes nothing. Nothing is allocated, save in the module [`alleles`], which says so. The modules and the names are those of
//! the library's crates. Each answer has a `number()`: 0, or its refusal's number in docs/RULES.md, section 2.
//!
//! ```
//! use bruncadorza::line::{read_line, Ending, Name, Read};
//! use bruncadorza::{genotype, info, samples};
//!
//! let input = b"1\t7\t.\tA\tC,G\t.\tPASS\tDP=9;DB\tDP:GT\t9:0|2\t8:./1\n";
//! let Read::Line(record, next) = read_line(input, 0) else { panic!("refused") };
//! assert_eq!(next, input.len());
//! assert_eq!(record.ending(), Ending::Feed);
//! assert_eq!(record.text(Name::Chrom), Some(&b"1"[..]));
//! assert_eq!(record.text(Name::Qual), None);
//!
//! let column = record.text(Name::Info).unwrap();
//! assert_eq!(info::value(column, b"DP"), b"9");
//!
//! let format = record.text(Name::Format).unwrap();
//! let samples::Key::Index(gt) = samples::key_index(format, b"GT") else { panic!("no GT") };
//! let texts = record.text(Name::Samples).unwrap();
//! let mut read = Vec::new();
//! for sample in samples::all(texts) {
//!     let samples::Nth::At(place) = samples::subfield(sample, gt) else { panic!("no genotype") };
//!     let text = place.of(sample).unwrap();
//!     let (mut numbers, mut missing, mut phased) = ([0; 2], [0; 2], [0; 2]);
//!     let answer = genotype::read_genotype(text, &mut numbers, &mut missing, &mut phased);
//!     assert_eq!(answer, genotype::Read::Done(2));
//!     read.push((numbers, missing, phased));
//! }
//! assert_eq!(read, [([0, 2], [0, 0], [1, 1]), ([0, 1], [1, 0], [0, 0])]);
//! ```
#![deny(missing_docs)]
#![deny(unsafe_code)]

pub mod alleles;
pub mod bcf;
pub mod decimal;
#[allow(unsafe_code)]
mod ffi;
pub mod fields;
pub mod forms;
pub mod genotype;
pub mod info;
pub mod join;
pub mod line;
pub mod lists;
pub mod numbering;
pub mod samples;
pub mod spelling;
pub mod splitter;
pub mod text;
