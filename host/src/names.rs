//! The names that files have in a folder of units.

/// The manifest.
pub const MANIFEST: &str = "units.txt";

/// What the name of a file ends with until it gets its own.
const TEMPORARY: &str = ".tmp";

/// The name of a unit.
pub fn unit(unit: u64) -> String {
    format!("unit_{unit:03}.c")
}

/// The unit that has this name, if this program gives it.
pub fn number(file: &str) -> Option<u64> {
    let digits = file.strip_prefix("unit_")?.strip_suffix(".c")?;
    let number = digits.parse().ok()?;
    (unit(number) == file).then_some(number)
}

/// The name under which a unit or the manifest is written.
pub fn temporary(file: &str) -> String {
    format!("{file}{TEMPORARY}")
}

/// Whether this program writes a file under this name.
pub fn is_temporary(file: &str) -> bool {
    let named = file.strip_suffix(TEMPORARY);
    named.is_some_and(|file| file == MANIFEST || number(file).is_some())
}

#[cfg(test)]
mod tests {
    use super::*;

    #[test]
    fn names_have_at_least_three_digits() {
        assert_eq!(unit(0), "unit_000.c");
        assert_eq!(unit(65_536), "unit_65536.c");
    }

    #[test]
    fn only_names_of_this_program_have_a_number() {
        assert_eq!(number("unit_000.c"), Some(0));
        assert_eq!(number("unit_1000.c"), Some(1000));
        for other in [
            "unit_0.c",
            "unit_0001.c",
            "unit_+01.c",
            "unit_001.h",
            "unit_.c",
            "my_unit_001.c",
            "unit_001.c.tmp",
        ] {
            assert_eq!(number(other), None, "{other}");
        }
    }

    #[test]
    fn only_names_of_this_program_are_temporary() {
        assert!(is_temporary("unit_000.c.tmp"));
        assert!(is_temporary("units.txt.tmp"));
        for other in ["unit_0.c.tmp", "units.txt", "unit_000.c", "my.tmp", ".tmp"] {
            assert!(!is_temporary(other), "{other}");
        }
    }
}
