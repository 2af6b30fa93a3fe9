//! Damaged files: whatever is refused has a reason that names what is wanted.
use super::{copy, of_import, of_refusal, of_replay, of_split, Routine};
use crate::library::{self, Answer};

const TEXTS: [&[u8]; 7] = [
    include_bytes!("../../../examples/published.txt"),
    include_bytes!("../../../examples/figure4.txt"),
    include_bytes!("../../../examples/door-counter.txt"),
    include_bytes!("../../../examples/four-faults.txt"),
    include_bytes!("../../../examples/siren-or-test.txt"),
    include_bytes!("../../../examples/alarm-panel-1008.txt"),
    include_bytes!("../../../examples/refused.txt"),
];
const BYTES: [&[u8]; 13] =
    [b"", b" ", b"\n", b"\r", b"\t", b"0", b"9", b"-", b"?", b"A", b"#", b"..", b"99999999999999999999"];
/// What stands where no reason was found.
const NONE_FOUND: &str = "as ROUTINE-FILE.md has it";

/// The text with bytes in the place of one of its own, or before it.
fn damaged(text: &[u8]) -> impl Iterator<Item = Vec<u8>> + '_ {
    let places = (0..text.len()).flat_map(|at| BYTES.into_iter().map(move |bytes| (at, bytes)));
    places.flat_map(|(at, bytes)| {
        [[&text[..at], bytes, &text[at + 1..]].concat(), [&text[..at], bytes, &text[at..]].concat()]
    })
}

fn check(text: &[u8], number: u16, place: u32) {
    let reason = of_refusal(text, number, place);
    let shown = String::from_utf8_lossy(text);
    assert!(reason.starts_with(&format!("tickbound: REFUSED {number} {place}: ")), "{reason}");
    assert!(!reason.contains(NONE_FOUND), "{reason}\n{shown}");
    assert!(reason.contains("\n  wanted: ") || reason.contains("\n  cause: "), "{reason}\n{shown}");
    assert!(reason.bytes().all(|byte| byte == b'\n' || (b' '..=b'~').contains(&byte)), "{reason}");
}

#[test]
fn every_refusal_has_a_reason() {
    let mut seen = std::collections::BTreeMap::new();
    for text in TEXTS {
        for damaged in damaged(text) {
            for ask in [library::bound, library::merge, library::run] {
                if let Answer::Refused { number, place } = ask(&damaged) {
                    check(&damaged, number, place);
                    *seen.entry(number).or_insert(0) += 1;
                }
            }
        }
    }
    assert_eq!(seen.into_keys().collect::<Vec<_>>(), [2, 3, 4, 5, 6, 7, 11, 13, 14]);
}

#[test]
fn every_trace_has_a_reason() {
    let text = include_bytes!("../../../examples/door-counter-41.txt");
    let trace = include_bytes!("../../../examples/door-counter-41.trace");
    let mut seen = std::collections::BTreeSet::new();
    for damaged in damaged(trace) {
        let answer = library::replay(text, &damaged);
        let reason = of_replay(text, &damaged, &answer);
        match answer {
            Answer::Report(report) if report == b"AGREES\n" => assert_eq!(reason, ""),
            Answer::Report(_) => assert!(reason.contains("\n  wanted: "), "{reason}"),
            Answer::Refused { number, .. } => {
                seen.insert(number);
                assert!(reason.contains("\n  wanted: ") && !reason.contains("nothing"), "{reason}");
            }
        }
    }
    assert_eq!(seen.into_iter().collect::<Vec<_>>(), [2, 3]);
}

#[test]
fn all_cuts_have_a_reason() {
    let text = include_bytes!("../../../examples/alarm-panel-1008.txt");
    let cuts = b"CELL FROM\nS2 500\nB0.0 1\nB1.0 -3\nACCU 1073741823\n";
    let mut seen = std::collections::BTreeSet::new();
    for damaged in damaged(cuts) {
        let answer = library::split(text, &damaged);
        let reason = of_split(text, &damaged, &answer);
        match answer {
            Answer::Report(_) => assert_eq!(reason, ""),
            Answer::Refused { number, .. } => {
                seen.insert(number);
                assert!(reason.contains("\n  wanted: ") && reason.contains("of the cuts"), "{reason}");
            }
        }
    }
    assert_eq!(seen.into_iter().collect::<Vec<_>>(), [2, 3, 4]);
}

#[test]
fn every_import_has_a_reason() {
    let words = include_bytes!("../../../tests/compiled/alarm.words");
    let primitives = include_bytes!("../../../tests/compiled/alarm.primitives").trim_ascii_end();
    for damaged in damaged(words) {
        let answer = library::import(&damaged, primitives);
        let reason = of_import(&damaged, primitives, &answer);
        match answer {
            Answer::Report(_) => assert_eq!(reason, ""),
            Answer::Refused { .. } => assert!(reason.contains("\n  wanted: "), "{reason}"),
        }
    }
    for primitives in [&b"A  B"[..], b"A A", b" A", b"a", b"", b"A B\nC", b"ABCDEFGHI", b"\xff"] {
        let answer = library::import(words, primitives);
        let reason = of_import(words, primitives, &answer);
        assert!(reason.contains("PRIMITIVES") && reason.contains("\n  found: "), "{reason}");
    }
}

#[test]
fn the_copy_of_a_preview_is_that_of_the_analyser() {
    let text = include_bytes!("../../../examples/door-counter.txt");
    for (address, instruction) in [(4, "C_CALL1 DOOR"), (7, "STOP -\n8 STOP -"), (0, "ADDINT -"), (3, "")] {
        let copy = copy(&Routine::of(text), address, instruction.as_bytes());
        assert_eq!(library::bound(&copy), library::preview(text, address, instruction.as_bytes()));
    }
}
