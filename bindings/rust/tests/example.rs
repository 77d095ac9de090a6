//! The example, `examples/breakfast.rs`: what it writes for the flows and lists of `examples/two-breakfasts`.

#[allow(dead_code)]
#[path = "../examples/breakfast.rs"]
mod breakfast;

use std::path::{Path, PathBuf};

fn file(name: &str) -> PathBuf {
    Path::new(env!("CARGO_MANIFEST_DIR")).join("../../examples/two-breakfasts").join(name)
}

/// What the example writes for a flow and a list, and whether the flow ended.
fn writes(flow: &Path, rules: &Path) -> (String, bool) {
    let mut out = Vec::new();
    let ended = breakfast::breakfast(flow, rules, &mut out).unwrap();
    (String::from_utf8(out).unwrap(), ended)
}

#[test]
fn the_second_order_is_told() {
    assert_eq!(writes(&file("twice"), &file("rules.bin")), ("9 42\nend 56\n".to_string(), true));
}

#[test]
fn capitals_are_orders_too() {
    assert_eq!(writes(&file("loud"), &file("rules.bin")), ("9 42\nend 56\n".to_string(), true));
}

#[test]
fn a_single_order_is_not() {
    assert_eq!(writes(&file("once"), &file("rules.bin")), ("end 58\n".to_string(), true));
}

#[test]
fn a_file_that_is_no_list_is_refused() {
    assert_eq!(writes(&file("twice"), &file("twice")), ("refused 2\n".to_string(), false));
}

#[test]
fn a_file_that_is_not_there_is_an_error() {
    assert!(breakfast::breakfast(&file("thrice"), &file("rules.bin"), &mut Vec::new()).is_err());
}

#[test]
fn the_pairs_of_offset_0_come_first() {
    let rules = std::env::temp_dir().join(format!("watch-at-once-{}", std::process::id()));
    std::fs::write(&rules, b"\x02\0\0\0\0\0\0\0\x03\0\0\0\0\0\x05\0\x03\0\0\0\0\0\x03\0").unwrap();
    assert_eq!(writes(&file("once"), &rules), ("3 0\n5 0\nend 58\n".to_string(), true));
    std::fs::remove_file(&rules).unwrap();
}
