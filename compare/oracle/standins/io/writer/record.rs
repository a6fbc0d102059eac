//! Stand-in: the modules around the original writers, which only they can call.
mod alternate_bases; // original
mod filters; // original
pub(crate) mod samples {
    pub(crate) mod sample {
        pub(crate) mod value {
            mod genotype; // original
            use crate::{Header, variant::record::samples::series::value::Genotype};
            #[inline]
            pub(crate) fn write(out: &mut Vec<u8>, header: &Header, list: &dyn Genotype) -> std::io::Result<()> {
                genotype::write_genotype(out, header, list)
            }
        }
    }
}

// the build holds this line to the original
const MISSING: &[u8] = b".";

use crate::{
    Header,
    variant::record::{AlternateBases, Filters},
};
pub(crate) fn filters<F: Filters>(out: &mut Vec<u8>, list: F) -> Result<(), filters::WriteError> {
    filters::write_filters(out, &Header::default(), list)
}
pub(crate) fn alts<B: AlternateBases>(out: &mut Vec<u8>, list: B) -> Result<(), alternate_bases::WriteError> {
    alternate_bases::write_alternate_bases(out, list)
}
