//! Stand-in. That a file format is compared by its major number first is assumed: it decides the genotype writer's 13.
#[derive(Clone, Copy, Debug, Eq, Ord, PartialEq, PartialOrd)]
pub struct FileFormat {
    major: u32,
    minor: u32,
}
impl FileFormat {
    pub const fn new(major: u32, minor: u32) -> Self {
        Self { major, minor }
    }
    pub const fn major(&self) -> u32 {
        self.major
    }
    pub const fn minor(&self) -> u32 {
        self.minor
    }
}
impl Default for FileFormat {
    fn default() -> Self {
        // one for which definition.rs knows no INFO key
        Self::new(0, 0)
    }
}
