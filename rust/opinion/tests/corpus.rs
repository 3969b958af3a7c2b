//! The listing corpus, which other programs are held against too.

use std::fs;
use std::path::Path;

#[test]
fn every_case_prints_what_it_should() {
    let corpus = Path::new(env!("CARGO_MANIFEST_DIR")).join("../../tests/listing");
    let mut cases = 0;
    for entry in fs::read_dir(corpus).unwrap() {
        let input = entry.unwrap().path();
        if input.extension().is_none_or(|extension| extension != "in") {
            continue;
        }
        let expected = fs::read(input.with_extension("out")).unwrap();
        let printed = opinion::listing(&fs::read(&input).unwrap());
        assert!(printed == expected, "{}", input.display());
        cases += 1;
    }
    assert!(cases > 50, "{cases}");
}
