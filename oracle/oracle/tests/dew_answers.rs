//! The stored answers are what dew answers now.

#![cfg(dew)]

use std::fs;
use std::path::Path;

use oracle::{answers, planners};

#[test]
fn the_stored_answers_are_dews() {
    let dew = planners::dew().expect("these tests are compiled with dew");
    let directory = Path::new(env!("CARGO_MANIFEST_DIR")).join("../answers");
    let mut bytes = 0;
    for (name, contents) in answers::files(&dew) {
        let stored =
            fs::read(directory.join(&name)).unwrap_or_else(|error| panic!("{name}: {error}"));
        bytes += stored.len();
        assert!(
            stored == contents,
            "{name} is stale: write the answers again"
        );
    }
    assert!(
        bytes < 1_000_000,
        "{bytes} bytes of answers are too many to keep"
    );
}
