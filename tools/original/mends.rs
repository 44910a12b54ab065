//! What document 02 changes in the original, by the options that its own program takes too.

/// Sets those that the words name.
pub fn set(words: impl Iterator<Item = String>) {
    for word in words {
        match &word[..] {
            "--base-mend" => recomp_core::mends::set_base_mend(),
            _ => panic!("{word} is no change of document 02"),
        }
    }
}
