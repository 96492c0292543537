//! The numbers of `claxon.h`.
mod common;

use common::*;
use std::path::Path;

/// The number that begins here, which may have underscores.
fn number_at(text: &str) -> usize {
    let digits = text.split(|letter: char| !letter.is_ascii_digit() && letter != '_').next().unwrap();
    digits.replace('_', "").parse().unwrap()
}

/// Each number that `src/ffi.rs` shows but one is that of its name in the header: a status, or a constant.
#[test]
fn numbers_of_the_header() {
    let folder = Path::new(env!("CARGO_MANIFEST_DIR"));
    let (declared, header) = (text_of(&folder.join("src/ffi.rs")), text_of(&folder.join("../c/claxon.h")));
    let mut names = Vec::new();
    for line in declared.lines().filter_map(|line| line.strip_prefix("pub const ")) {
        let (name, number) = line.split_once(": ").unwrap();
        if name != "OTHER_VERSION" {
            let found = [format!(" CLAXON_{name} = "), format!("#define CLAXON_{name} ")]
                .iter()
                .find_map(|words| header.split_once(words).map(|(_, rest)| number_at(rest)));
            assert_eq!(found, Some(number_at(number.split_once(" = ").unwrap().1)), "{name}");
            names.push(name);
        }
    }
    assert_eq!(names.len(), 10, "{names:?}");
}
