//! Where units come from: the library, or the original.

use recomp_tools::original::units::Emitter;
use recomp_tools::original::{Original, Program};
use recomp_tools::units::Unit;

pub enum Source {
    Original(Program),
    #[cfg(feature = "library")]
    Library,
}

impl Source {
    pub fn named(name: &str) -> Result<Source, String> {
        match name {
            "original" => Ok(Source::Original(Original::new()?.build("units")?)),
            #[cfg(feature = "library")]
            "library" => Ok(Source::Library),
            #[cfg(not(feature = "library"))]
            "library" => Err("this program was built without the feature `library`".to_string()),
            _ => Err(format!("library or original, not {name}")),
        }
    }

    /// All units of an accepted file.
    pub fn units(&self, file: &[u8], max_bytes: u64) -> Vec<Unit> {
        match self {
            Source::Original(program) => Emitter::start(program, &[file]).units(0, max_bytes),
            #[cfg(feature = "library")]
            Source::Library => library_units(file, max_bytes),
        }
    }
}

/// Each unit is measured, then written.
#[cfg(feature = "library")]
fn library_units(file: &[u8], max_bytes: u64) -> Vec<Unit> {
    use crate::library;
    let blocks = library::check(file).blocks as usize;
    let mut work = vec![0; 4 * blocks];
    let mut units = vec![];
    loop {
        let named = units.len() as u64;
        let measured = library::measure(file, max_bytes, named, &mut work);
        assert_eq!(measured.number, 0, "unit {named}: {measured:?}");
        let told = measured.told;
        let mut text = vec![0; told.length as usize];
        let written = library::write(file, max_bytes, told, &mut work, &mut text);
        assert_eq!(written.number, 0, "{told:?}: {written:?}");
        let done = told.done;
        units.push(Unit { text, done });
        if told.last == 1 {
            return units;
        }
    }
}
