//! Stand-in: what the originals ask of a header.
pub mod file_format;
pub mod record {
    pub mod value {
        pub mod map {
            pub mod info;
        }
    }
}

pub use self::file_format::FileFormat;
use self::record::value::map::info::Info;
use std::collections::HashMap;

#[derive(Clone, Debug, Default)]
pub struct SampleNames(Vec<String>);
impl SampleNames {
    pub fn get_index_of(&self, name: &str) -> Option<usize> {
        self.0.iter().position(|s| s == name)
    }
}

/// The default one defines no INFO key and names no sample.
#[derive(Clone, Debug, Default)]
pub struct Header {
    file_format: FileFormat,
    infos: HashMap<String, Info>,
    sample_names: SampleNames,
}
impl Header {
    pub fn of(file_format: FileFormat) -> Self {
        Self { file_format, ..Default::default() }
    }
    pub fn file_format(&self) -> FileFormat {
        self.file_format
    }
    pub fn infos(&self) -> &HashMap<String, Info> {
        &self.infos
    }
    pub fn sample_names(&self) -> &SampleNames {
        &self.sample_names
    }
}
