//! The stored samples are those that the generator writes, and all are accepted.

use recomp_tools::check::check;
use recomp_tools::samples::all;
use std::path::Path;

#[test]
fn stored_samples() {
    let folder = Path::new(env!("CARGO_MANIFEST_DIR")).join("../samples");
    let stored = std::fs::read_dir(&folder).expect("the samples").count();
    assert_eq!(stored, all().len());
    for (name, bytes) in all() {
        let file = std::fs::read(folder.join(name)).expect(name);
        assert!(file == bytes, "{name}");
        assert!(check(&bytes).is_ok(), "{name}");
    }
}
