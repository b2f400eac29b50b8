//! The cases, of which it is written what must be printed, and the examples with their reports.

use baseline::{check::check, report_on};
use std::fs;
use std::path::{Path, PathBuf};

/// The texts of a folder, each with what is to be printed for it.
fn texts(folder: &str, extension: &str) -> Vec<(PathBuf, Vec<u8>, Vec<u8>)> {
    let folder = Path::new(env!("CARGO_MANIFEST_DIR")).join(folder);
    let paths = fs::read_dir(folder).unwrap().map(|entry| entry.unwrap().path());
    let policies = paths.filter(|path| path.extension().is_some_and(|extension| extension == "policy"));
    let read = |path: PathBuf| {
        let expected = fs::read(path.with_extension(extension)).unwrap();
        (path.clone(), fs::read(path).unwrap(), expected)
    };
    policies.map(read).collect()
}

#[test]
fn cases_print_what_they_must() {
    let cases = texts("../cases", "expected");
    assert!(cases.len() > 100);
    for (path, text, expected) in cases {
        let printed = report_on(&text).unwrap_or_else(|fault| format!("{fault}\n").into_bytes());
        assert_eq!(String::from_utf8_lossy(&printed), String::from_utf8_lossy(&expected), "{}", path.display());
    }
}

#[test]
fn reports_of_the_examples_are_right() {
    let examples = texts("../../examples", "report");
    assert!(examples.len() >= 4);
    for (path, text, report) in examples {
        assert_eq!(check(&text, &report), Ok(()), "{}", path.display());
    }
}
